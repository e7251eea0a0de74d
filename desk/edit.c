/* The verb edit: a page of edits into the WAV and the shelf of a score, and the new score into a file. */
#include "desk.h"

#include <stdlib.h>

static bool read_edits(const char *path, struct edits *edits, struct why *why) {
    struct bytes text;
    if (!read_file(path, MOST_TEXT, &text, why)) return false;
    bool read = edits_of_text(text.at, text.len, edits, why);
    free(text.at);
    return read ? true : preface(why, "%s: ", shown_path(path));
}

/* The edits are read before the files are locked, since standard input may be slow. */
static bool read_edit(char **given, struct rework *r, struct edits *edits, struct why *why) {
    struct option options[] = {
        {.name = "--shelf", .value = &r->shelf_path}, {.name = "-o", .value = &r->score_path}, {.name = NULL}};
    struct option operands[] = {
        {.name = "EDITS", .value = &r->input_path}, {.name = "OUT.wav", .value = &r->wav_path}, {.name = NULL}};
    if (!read_arguments(given, &(struct arguments){.options = options, .operands = operands}, why)) return false;
    if (!r->shelf_path) return misuse(why, "--shelf FILE is missing");
    if (!r->score_path) return misuse(why, "-o NEW is missing");
    return rework_apart(r, why) && read_edits(r->input_path, edits, why);
}

/* The refusal of an edit names its line. */
static bool edit_sound(struct rework *r, const struct edits *edits, struct why *why) {
    struct asked asked = rework_asked(r);
    asked.edits = &edits->list;
    uint64_t said = voice_edit(&r->about.settings, &r->about.score, &edits->list, &r->sound, &r->after);
    rework_made(r, gav_count(said));
    if (accepted(said, &asked, why)) return true;
    if (!is_of_edit(said) || gav_place(said) >= edits->count) return false;
    return preface(why, "%s: line %zu: ", shown_path(r->input_path), edits->line_of[gav_place(said)]);
}

static void tell_score(const struct rework *r, const struct edits *edits) {
    size_t records = r->after.len / RECORD_BYTES;
    printf("%s: %zu %s, %zu bytes, after %zu %s\n", r->score_path, records, counted(records, "record", "records"),
           r->after.len, edits->count, counted(edits->count, "edit", "edits"));
}

static bool run_edit(char **given, struct why *why) {
    struct edits edits = {.count = 0};
    struct rework *r = rework_new(why);
    if (!r) return false;
    bool done =
        read_edit(given, r, &edits, why) && rework_load(r, why) && edit_sound(r, &edits, why) && rework_write(r, why);
    if (done) {
        tell_score(r, &edits);
        rework_tell(r);
    }
    edits_free(&edits);
    rework_free(r);
    return done;
}

const struct verb edit_verb = {
    .name = "edit",
    .summary = "makes a page of edits at once, in the score, the WAV and the shelf",
    .help =
        "desk edit EDITS OUT.wav --shelf FILE -o NEW\n"
        "Makes edits of the score that the shelf is of, one after the other, writes the new score to NEW, and brings\n"
        "OUT.wav and the shelf to it with one re-render, as `desk rerender NEW` would. All three files are then those\n"
        "of the edits made one at a time, each with its re-render. EDITS is text, a line for each edit:\n"
        "  +|- POSITION on|off|reset NOTE VELOCITY\n"
        "With + the record is put into the score, after all those at its position or lower; with - the first record\n"
        "that is the same in all four is taken out, so that the velocity of an off counts too. A record is moved by\n"
        "both. A reset's NOTE and VELOCITY, which are 0, may be left out. A # begins a comment; empty lines are\n"
        "skipped. EDITS may be - for standard input. Without any edit NEW is the shelf's score.\n"
        "Where one edit is refused all are, and nothing is written. Lines that are no edit come first: the first one\n"
        "is named, counted from 1. Then each edit is judged on the score that those before it leave: it removes a\n"
        "record that is there, and puts none into 4096. The first that is wrong is named by its line too, with a\n"
        "number of gavberin.h and its place in the list, counted from 0.\n"
        "NEW may be the file that the old score is in, and takes its name first: where the other two then cannot, the\n"
        "same call can be made again. A page that was made must not be: its edits would be made once more. What was\n"
        "written is told, also by a desk that is told to end (Ctrl-C, TERM). One that is killed tells nothing: if\n"
        "there was no file NEW before, `desk verify NEW OUT.wav --shelf FILE` then says `same` where all was made.\n"
        "What is compared, told and left of OUT.wav is said by `desk rerender --help`.\n",
    .run = run_edit,
};
