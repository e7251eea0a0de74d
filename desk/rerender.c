/* The verb rerender: an edited score into the WAV and the shelf of the old one. */
#include "desk.h"

static bool read_rerender(char **given, struct rework *r, struct why *why) {
    struct option options[] = {{.name = "--shelf", .value = &r->shelf_path}, {.name = NULL}};
    struct option operands[] = {
        {.name = "NEW", .value = &r->input_path}, {.name = "OUT.wav", .value = &r->wav_path}, {.name = NULL}};
    if (!read_arguments(given, &(struct arguments){.options = options, .operands = operands}, why)) return false;
    if (!r->shelf_path) return misuse(why, "--shelf FILE is missing");
    return rework_apart(r, why) && read_score(r->input_path, &r->after, why);
}

static bool rerender_sound(struct rework *r, struct why *why) {
    struct asked asked = rework_asked(r);
    asked.new_path = r->input_path;
    asked.new_score = &r->after;
    uint64_t said = voice_rerender(&r->about.settings, &r->about.score, &r->after, &r->sound);
    rework_made(r, gav_count(said));
    return accepted(said, &asked, why);
}

static bool run_rerender(char **given, struct why *why) {
    struct rework *r = rework_new(why);
    if (!r) return false;
    bool done = read_rerender(given, r, why) && rework_load(r, why) && rerender_sound(r, why) && rework_write(r, why);
    if (done) rework_tell(r);
    rework_free(r);
    return done;
}

const struct verb rerender_verb = {
    .name = "rerender",
    .summary = "renders an edited score into the WAV and the shelf of the old one",
    .help =
        "desk rerender NEW OUT.wav --shelf FILE\n"
        "Brings OUT.wav and the shelf from the score that the shelf is of to the score NEW. A section is 4096\n"
        "samples, counted from sample zero. Rendered again are the section that holds the first changed record and\n"
        "those after it, up to the first at whose start the old sound and the new one meet: the records from there on\n"
        "are the same, and so is the state; or up to the end, where they never meet. From which sample to which is\n"
        "told. The sections before and after those stay as they came, and are compared with the shelf's sums and\n"
        "peaks of them. So both files are then what a render of NEW from sample zero with the shelf's settings and\n"
        "length gives. The length stays: records of NEW at or past the end are not heard, and are told. NEW may be -\n"
        "for standard input.\n"
        "After another velocity, or a key that is let go at another time, the sounds mostly meet at the next key;\n"
        "after another pitch, or a key that goes down at another time, at the next reset.\n"
        "A shelf that is damaged, or of another length, rate or bits than the WAV, is named, and nothing is written.\n"
        "A WAV that is not the shelf's is named where it differs in a section that stays, and nothing is written; a\n"
        "section that is rendered again is told where it was of another sound. Chunks of other programs stay, but for\n"
        "PEAK, which new samples make wrong.\n",
    .run = run_rerender,
};
