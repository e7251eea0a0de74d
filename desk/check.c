/* The verb check: whether a score is accepted. */
#include "desk.h"

static bool run_check(char **given, struct why *why) {
    const char *path = NULL;
    struct score score;
    struct option options[] = {{.name = NULL}};
    struct option operands[] = {{.name = "SCORE", .value = &path}, {.name = NULL}};
    if (!read_arguments(given, &(struct arguments){.options = options, .operands = operands}, why)) return false;
    if (!read_score(path, &score, why) || !check_score(path, &score, why)) return false;
    size_t records = score.len / RECORD_BYTES;
    printf("%s: accepted: %zu %s, %zu bytes", path, records, counted(records, "record", "records"), score.len);
    if (records > 0) printf(", samples %u to %u", position_of(&score, 0), position_of(&score, records - 1));
    printf("\n");
    return true;
}

const struct verb check_verb = {
    .name = "check",
    .summary = "says whether a score is accepted, and if not, what is wrong where",
    .help = "desk check SCORE\n"
            "Says whether the score is accepted, how many records it has, and the samples of the first and the last.\n"
            "A refused one ends with status 1 and a number of gavberin.h, the place (the record, counted from 0) and\n"
            "words. SCORE may be - for standard input.\n",
    .run = run_check,
};
