/* The lines of a text, their words, and a record in words: POSITION on|off|reset NOTE VELOCITY; # comments. */
#include "desk.h"

#include <string.h>

bool lines_of(const uint8_t *text, size_t len, struct lines *lines, struct why *why) {
    *lines = (struct lines){.at = text, .end = text + len};
    return len <= MOST_TEXT ? true : refuse(why, "it is longer than %u bytes", MOST_TEXT);
}

static bool is_blank(uint8_t byte) { return byte == ' ' || byte == '\t' || byte == '\r'; }

size_t next_line(struct lines *lines, struct word words[MOST_WORDS]) {
    size_t count = 0;
    const uint8_t *line_end = memchr(lines->at, '\n', (size_t)(lines->end - lines->at));
    if (!line_end) line_end = lines->end;
    const uint8_t *at = lines->at;
    while (count < MOST_WORDS) {
        while (at < line_end && is_blank(*at)) at++;
        if (at == line_end || *at == '#') break;
        const uint8_t *start = at;
        while (at < line_end && !is_blank(*at) && *at != '#') at++;
        words[count++] = (struct word){.at = start, .len = (size_t)(at - start)};
    }
    lines->at = line_end < lines->end ? line_end + 1 : line_end;
    lines->line++;
    return count;
}

bool is_word(struct word word, const char *text) {
    return word.len == strlen(text) && memcmp(word.at, text, word.len) == 0;
}

const char *shown_word(struct word word, char room[SHOWN_ROOM]) {
    size_t len = word.len < SHOWN_ROOM - 1 ? word.len : SHOWN_ROOM - 1;
    for (size_t i = 0; i < len; i++) room[i] = word.at[i] >= ' ' && word.at[i] <= '~' ? (char)word.at[i] : '?';
    room[len] = '\0';
    return room;
}

bool whole_number(struct word word, const char *what, const char *unit, uint64_t most, uint64_t *value,
                  struct why *why) {
    char room[SHOWN_ROOM];
    *value = 0;
    for (size_t i = 0; i < word.len; i++) {
        if (word.at[i] < '0' || word.at[i] > '9') {
            return refuse(why, "\"%s\" is no whole number, where %s belongs", shown_word(word, room), what);
        }
        *value = 10 * *value + (uint64_t)(word.at[i] - '0');
        if (*value > most) {
            return refuse(why, "%s, %s, is above %llu%s", what, shown_word(word, room), (unsigned long long)most, unit);
        }
    }
    return true;
}

static bool kind_of(struct word word, unsigned *kind, struct why *why) {
    char room[SHOWN_ROOM];
    for (*kind = 1; kind_name(*kind); ++*kind) {
        if (is_word(word, kind_name(*kind))) return true;
    }
    return refuse(why, "\"%s\" is not on, off or reset", shown_word(word, room));
}

/* A reset's note and velocity are 0, and may be left out. */
bool is_record(const struct word *words, size_t count) {
    return count == 4 || (count == 2 && is_word(words[1], "reset"));
}

bool record_of_words(const struct word *words, size_t count, uint8_t record[RECORD_BYTES], struct why *why) {
    uint64_t position, note = 0, velocity = 0;
    unsigned kind;
    if (!whole_number(words[0], "the position", " (samples)", UINT32_MAX, &position, why)) return false;
    if (!kind_of(words[1], &kind, why)) return false;
    if (count > 2 && !whole_number(words[2], "the note", "; a note is 0 to 127", 127, &note, why)) return false;
    if (count > 2 && !whole_number(words[3], "the velocity", "; a velocity is 0 to 127", 127, &velocity, why)) {
        return false;
    }
    put_record(record, (uint32_t)position, kind, (unsigned)note, (unsigned)velocity);
    return true;
}
