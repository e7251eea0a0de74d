/* The verb list: a score as text. */
#include "desk.h"

#include <stdlib.h>

static bool run_list(char **given, struct why *why) {
    const char *path = NULL;
    struct score score;
    struct option options[] = {{.name = NULL}};
    struct option operands[] = {{.name = "SCORE", .value = &path}, {.name = NULL}};
    if (!read_arguments(given, &(struct arguments){.options = options, .operands = operands}, why)) return false;
    if (!read_score(path, &score, why) || !check_score(path, &score, why)) return false;
    uint8_t *text = malloc(GAV_LIST_ROOM);
    if (!text) return refuse(why, "no memory for %d bytes", GAV_LIST_ROOM);
    uint64_t said = gav_list(score.at, score.len, text, GAV_LIST_ROOM);
    bool listed = accepted(said, &(struct asked){.old_path = path, .old_score = &score}, why);
    if (listed) fwrite(text, 1, gav_count(said), stdout);
    free(text);
    return listed;
}

const struct verb list_verb = {
    .name = "list",
    .summary = "prints a score as text",
    .help =
        "desk list SCORE\n"
        "Prints how many records the score has, and then a line for each:\n"
        "  POSITION on|off|reset NOTE VELOCITY\n"
        "POSITION is a sample, counted from 0; NOTE and VELOCITY are 0 to 127. An on with VELOCITY 0 acts as an off of\n"
        "its note. SCORE may be - for standard input.\n",
    .run = run_list,
};
