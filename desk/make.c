/* The verb make: a score from text. */
#include "desk.h"

#include <stdlib.h>

static bool read_text(const char *path, struct score *score, struct why *why) {
    struct bytes text;
    if (!read_file(path, MOST_TEXT, &text, why)) return false;
    bool made = score_of_text(text.at, text.len, score, why);
    free(text.at);
    return made ? true : preface(why, "%s: ", path);
}

static bool write_score(const char *path, const struct score *score, struct why *why) {
    struct draft draft;
    bool done = draft_open(&draft, path, why) && draft_write(&draft, score->at, score->len, why) &&
                draft_seal(&draft, why) && draft_publish(&draft, why);
    draft_drop(&draft);
    return done;
}

static bool run_make(char **given, struct why *why) {
    const char *path = NULL, *out = NULL;
    struct score score;
    struct option options[] = {{.name = "-o", .value = &out}, {.name = NULL}};
    struct option operands[] = {{.name = "TEXT", .value = &path}, {.name = NULL}};
    if (!read_arguments(given, &(struct arguments){.options = options, .operands = operands}, why)) return false;
    if (!out) return misuse(why, "-o SCORE is missing");
    if (!names_file(out, why)) return false;
    if (same_file(path, out)) return misuse(why, "%s would be written over itself", shown_path(path));
    if (!read_text(path, &score, why) || !write_score(out, &score, why)) return false;
    size_t records = score.len / RECORD_BYTES;
    printf("%s: %zu %s, %zu bytes\n", out, records, counted(records, "record", "records"), score.len);
    return true;
}

const struct verb make_verb = {
    .name = "make",
    .summary = "makes a score from text",
    .help =
        "desk make TEXT -o SCORE\n"
        "Makes a score from what `desk list` prints, a line for each record:\n"
        "  POSITION on|off|reset NOTE VELOCITY\n"
        "An on with VELOCITY 0 acts as an off of its note. A reset's NOTE and VELOCITY, which are 0, may be left out.\n"
        "A # begins a comment; empty lines are skipped. A first line `records N` may be left out; where it is given,\n"
        "N is compared. A bad line is named by its number, counted from 1. TEXT may be - for standard input.\n",
    .run = run_make,
};
