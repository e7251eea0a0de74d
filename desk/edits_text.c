/* Edits from text, a line for each: + or -, and a record as in the text of a score. */
#include "desk.h"

#include <stdlib.h>
#include <string.h>

/* Room for one edit more, twice as much at a time. */
static bool make_room(struct edits *edits, struct why *why) {
    if (edits->count < edits->room) return true;
    size_t room = edits->room ? 2 * edits->room : 64;
    uint8_t *at = realloc(edits->list.at, GAV_EDIT_BYTES * room);
    if (at) edits->list.at = at;
    size_t *line_of = at ? realloc(edits->line_of, room * sizeof *line_of) : NULL;
    if (!line_of) return refuse(why, "no memory for %zu edits", room);
    edits->line_of = line_of;
    edits->room = room;
    return true;
}

static bool code_of(struct word word, uint8_t *code, struct why *why) {
    char room[SHOWN_ROOM];
    *code = is_word(word, "+") ? GAV_INSERT : GAV_REMOVE;
    if (*code == GAV_INSERT || is_word(word, "-")) return true;
    return refuse(why, "\"%s\" is not + or -, where an edit begins", shown_word(word, room));
}

static bool take_line(struct lines *lines, struct edits *edits, struct why *why) {
    struct word words[MOST_WORDS];
    size_t count = next_line(lines, words);
    uint8_t code;
    if (count == 0) return true;
    if (!code_of(words[0], &code, why)) return false;
    if (!is_record(words + 1, count - 1)) return refuse(why, "it is not of the form +|- " RECORD_FORM);
    if (!make_room(edits, why)) return false;
    uint8_t *edit = edits->list.at + edits->list.len;
    if (!record_of_words(words + 1, count - 1, edit + GAV_EDIT_BYTES - RECORD_BYTES, why)) return false;
    memcpy(edit, (uint8_t[]){0x45, 0x44, code, 0}, GAV_EDIT_BYTES - RECORD_BYTES);
    edits->line_of[edits->count++] = lines->line;
    edits->list.len += GAV_EDIT_BYTES;
    return true;
}

bool edits_of_text(const uint8_t *text, size_t len, struct edits *edits, struct why *why) {
    struct lines lines;
    *edits = (struct edits){.count = 0};
    if (!lines_of(text, len, &lines, why)) return false;
    while (lines.at < lines.end) {
        if (!take_line(&lines, edits, why)) return preface(why, "line %zu: ", lines.line);
    }
    return true;
}

void edits_free(struct edits *edits) {
    free(edits->list.at);
    free(edits->line_of);
    *edits = (struct edits){.count = 0};
}
