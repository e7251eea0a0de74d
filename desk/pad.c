/* The pad of the chart, and its edits in two ways.

   The pad is a chord whose keys all go down at sample zero, while the level falls slowly. Each edit lifts the highest
   key that is still down, at a later position than the edit before, so that the pitch falls to the key below it and the
   level falls on. Ours is the re-render. The old way started each edit from a state that was some milliseconds past the
   cut. Both are compared with a render of the same score from sample zero, never with the render before. */
#include "desk.h"

#include <stdlib.h>
#include <string.h>

#define LOWEST_KEY 48u
#define KEY_STEP 2u
enum { ON = 1, OFF = 2 };

/* The scores before and after an edit; the sounds of the render from zero, of ours and of the old way; `unheard` is for
   samples that nobody hears; the old way's state, at its last cut. */
struct pad_edit {
    const struct pad *pad;
    struct score before, after;
    struct sound zero, ours, old, unheard;
    struct state state;
    size_t cut;
};

static unsigned key_of(unsigned number) { return LOWEST_KEY + KEY_STEP * number; }

/* The position of the record that an edit adds; edits are counted from 1. */
static size_t place_of(const struct pad *pad, unsigned edit) { return edit * (pad->samples / (pad->edits + 1)); }

static void make_score(const struct pad *pad, unsigned edits, struct score *score) {
    score->len = 0;
    for (unsigned key = 0; key <= pad->edits; key++) add_record(score, 0, ON, key_of(key), 127);
    for (unsigned edit = 1; edit <= edits; edit++) {
        add_record(score, (uint32_t)place_of(pad, edit), OFF, key_of(pad->edits + 1 - edit), 0);
    }
}

static bool judged(const struct pad_edit *e, uint64_t said, struct why *why) {
    struct asked asked = {.old_path = "the chart's pad",
                          .new_path = "the chart's pad",
                          .old_score = &e->after,
                          .new_score = &e->after,
                          .settings = &e->pad->settings,
                          .samples = e->pad->samples};
    return accepted(said, &asked, why);
}

/* The old way: the state at the cut is carried on, without records, for as many samples as the old way was late; the
   state after them is then given at the cut's own position. */
static bool edit_the_old_way(struct pad_edit *e, size_t cut, struct why *why) {
    const struct gav_settings *s = &e->pad->settings;
    double *unheard = e->unheard.at;
    if (!judged(e, voice_continue(s, &e->before, &e->state, e->cut, unheard, cut - e->cut), why)) return false;
    if (!judged(e, voice_continue(s, &e->before, &e->state, cut, unheard, e->pad->late), why)) return false;
    struct state late = e->state;
    e->cut = cut;
    return judged(e, voice_continue(s, &e->after, &late, cut, e->old.at + cut, e->pad->samples - cut), why);
}

static size_t count_differing(const struct sound *one, const struct sound *other) {
    size_t count = 0;
    for (size_t i = 0; i < one->samples; i++) count += bits_of(one->at[i]) != bits_of(other->at[i]);
    return count;
}

static struct pad_row measure(const struct pad_edit *e, size_t cut) {
    size_t window = e->pad->window, last = e->pad->samples - window;
    return (struct pad_row){
        .cut = cut,
        .zero = level_of(e->zero.at + last, window),
        .ours = level_of(e->ours.at + last, window),
        .old = level_of(e->old.at + last, window),
        .ours_differ = count_differing(&e->ours, &e->zero),
        .old_differ = count_differing(&e->old, &e->zero),
    };
}

static void measure_windows(const struct pad_edit *e, struct pad_chart *chart) {
    size_t window = e->pad->window;
    chart->points = e->pad->samples / window;
    for (size_t i = 0; i < chart->points && i < PAD_POINTS; i++) {
        double zero = level_of(e->zero.at + i * window, window);
        chart->ours[i] = percent_off(level_of(e->ours.at + i * window, window), zero);
        chart->old[i] = percent_off(level_of(e->old.at + i * window, window), zero);
    }
}

static bool start(struct pad_edit *e, struct why *why) {
    const struct gav_settings *s = &e->pad->settings;
    size_t samples = e->pad->samples;
    if (!sound_make(&e->zero, samples, why) || !sound_make(&e->ours, samples, why)) return false;
    if (!sound_make(&e->old, samples, why) || !sound_make(&e->unheard, samples + e->pad->late, why)) return false;
    make_score(e->pad, 0, &e->after);
    e->state = voice_fresh();
    if (!judged(e, voice_render(s, &e->after, &e->zero), why)) return false;
    if (!judged(e, voice_render(s, &e->after, &e->ours), why)) return false;
    memcpy(e->old.at, e->zero.at, samples * sizeof *e->old.at);
    return true;
}

static bool make_edits(struct pad_edit *e, struct pad_chart *chart, struct why *why) {
    const struct gav_settings *s = &e->pad->settings;
    chart->rows[0] = measure(e, 0);
    for (unsigned edit = 1; edit <= e->pad->edits; edit++) {
        size_t cut = place_of(e->pad, edit) / GAV_SECTION * GAV_SECTION;
        e->before = e->after;
        make_score(e->pad, edit, &e->after);
        if (!judged(e, voice_rerender(s, &e->before, &e->after, &e->ours), why)) return false;
        if (!edit_the_old_way(e, cut, why)) return false;
        if (!judged(e, voice_render(s, &e->after, &e->zero), why)) return false;
        chart->rows[edit] = measure(e, cut);
    }
    measure_windows(e, chart);
    return true;
}

bool pad_run(const struct pad *pad, struct pad_chart *chart, struct why *why) {
    struct pad_edit *e = calloc(1, sizeof *e);
    if (!e) return refuse(why, "no memory for %zu bytes", sizeof *e);
    e->pad = chart->pad = pad;
    bool done = start(e, why) && make_edits(e, chart, why);
    sound_free(&e->zero);
    sound_free(&e->ours);
    sound_free(&e->old);
    sound_free(&e->unheard);
    free(e);
    return done;
}
