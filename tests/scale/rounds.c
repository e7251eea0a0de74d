/* A round: the score part by part, at once, listed and checked, and single samples; then its edits and its refusals. */
#include "scale.h"

#include <math.h>
#include <stdio.h>

void lend_output(struct round *r) {
    resize(&r->chance, &r->lent, OUT, 8 * r->n);
    resize(&r->chance, &r->lent, SHELF, 8 * gav_shelf_words(r->n));
    resize(&r->chance, &r->lent, STATE, 8 * GAV_STATE_WORDS);
    resize(&r->chance, &r->lent, MAGNITUDES, 8 * gav_sections(r->n));
    resize(&r->chance, &r->lent, NUMBERS, 8 * gav_sections(r->n));
    lend_score(&r->lent, OLD, &r->score);
    lend(&r->lent, NEW, NULL, 0);
    lend(&r->lent, TEXT, NULL, 0);
    lend(&r->lent, EDITS, NULL, 0);
    lend(&r->lent, ROOM, NULL, 0);
}

static size_t part_length(struct chance *c, size_t left) {
    static const size_t USUAL[] = {0, 1, 17, 63, 64, 65};
    uint64_t kind = below(c, 8);
    size_t length = kind == 0 ? PICK(c, USUAL) : kind == 1 ? left : below(c, kind < 4 ? 300 : 5000);
    return length < left ? length : left;
}

static void fresh(struct round *r, uint64_t *state) {
    snprintf(r->what, sizeof r->what, "fresh");
    reference_fresh(state, GAV_STATE_WORDS);
    copy_buffers(&r->expected, &r->lent);
    memcpy(inside(&r->expected, STATE), state, 8 * GAV_STATE_WORDS);
    call_done(r, &(struct call){.which = FRESH, .words = GAV_STATE_WORDS}, 0, (struct written){0});
    r->tally->words += GAV_STATE_WORDS;
}

/* One part, of as much of the score as is known, from the state that is lent; the judge's state goes on beside it. */
static void part(struct round *r, uint64_t *state, size_t known, size_t position, size_t length) {
    static double samples[LONGEST], scales[LONGEST];
    snprintf(r->what, sizeof r->what, "part of %zu samples at %zu with %zu records", length, position, known);
    judge_play(&r->settings, &r->score, state, position, samples, scales, length, NULL);
    lend(&r->lent, OLD, r->score.bytes, RECORD * known);
    copy_buffers(&r->expected, &r->lent);
    memcpy(words_of(&r->expected, OUT) + position, samples, 8 * length);
    memcpy(inside(&r->expected, STATE), state, 8 * GAV_STATE_WORDS);
    const struct call call = {CONTINUE, r->settings, position, position, length, GAV_STATE_WORDS};
    call_done(r, &call, says(0, 0, length), (struct written){position, length, scales});
    r->tally->words += GAV_STATE_WORDS;
}

/* What the parts left is the render of the whole. */
static void same_whole(const struct round *r, const uint64_t *state) {
    const uint64_t *played = words_of(&r->lent, OUT);
    if (memcmp(state, r->heard.state, sizeof r->heard.state) != 0)
        differ(r, "the state at the end is not the render's");
    for (size_t i = 0; i < r->n; i++) {
        bool same = is_judged(r, number(played[i]), r->heard.samples[i], r->heard.scales[i]);
        if (!same) differ(r, "sample %zu is not the render's", i);
    }
}

/* Parts of any length from the fresh state on; the score grows at its end in every other round. */
static void parts(struct round *r) {
    uint64_t state[GAV_STATE_WORDS];
    size_t known = 0, position = 0, count = score_count(&r->score);
    bool grows = one_in(&r->chance, 2);
    lend_output(r);
    lend(&r->lent, SHELF, NULL, 0);
    fresh(r, state);
    do {
        size_t length = part_length(&r->chance, r->n - position), needed = score_below(&r->score, position + length);
        if (known < needed) known = needed;
        known = grows && position + length < r->n ? known + below(&r->chance, count - known + 1) : count;
        part(r, state, known, position, length);
        position += length;
    } while (position < r->n);
    same_whole(r, state);
}

/* A part from a state that no score may reach. */
static void part_from(struct round *r, uint64_t state[GAV_STATE_WORDS], size_t position, size_t length) {
    state[5] += 65536 * (uint64_t)score_below(&r->score, position);
    lend_output(r);
    memcpy(inside(&r->lent, STATE), state, 8 * GAV_STATE_WORDS);
    part(r, state, score_count(&r->score), position, length);
}

/* Anywhere, or where a record acts. */
static size_t stray_position(struct round *r) {
    size_t count = score_count(&r->score), any = below(&r->chance, r->n + 1);
    if (count == 0 || one_in(&r->chance, 2)) return any;
    size_t acts = score_position(&r->score, below(&r->chance, count));
    return acts <= r->n ? acts : any;
}

static void stray_part(struct round *r) {
    uint64_t state[GAV_STATE_WORDS];
    size_t position = stray_position(r), length = part_length(&r->chance, r->n - position);
    reference_fresh(state, GAV_STATE_WORDS);
    move_state(&r->chance, state);
    move_keys(&r->chance, state);
    part_from(r, state, position, length);
}

/* A few samples, or none, from phases at the ends of their range: -0, the smallest, and such as pass 1,000. */
static void edge_part(struct round *r) {
    static const double PHASES[] = {-0.0, 0x1p-1074, 999.0, 0x1.f3fffffffffffp9};
    uint64_t state[GAV_STATE_WORDS];
    size_t position = below(&r->chance, r->n + 1), left = r->n - position, length = below(&r->chance, 4);
    reference_fresh(state, GAV_STATE_WORDS);
    state[0] = bits(PICK(&r->chance, PHASES));
    state[12] = bits(PICK(&r->chance, PHASES));
    part_from(r, state, position, length < left ? length : left);
}

void run_render(struct round *r) {
    snprintf(r->what, sizeof r->what, "render of %zu samples", r->n);
    lend_output(r);
    copy_buffers(&r->expected, &r->lent);
    memcpy(inside(&r->expected, OUT), r->heard.samples, 8 * r->n);
    memcpy(inside(&r->expected, SHELF), r->heard.shelf, 8 * gav_shelf_words(r->n));
    const struct call call = {.which = RENDER, .settings = r->settings};
    call_done(r, &call, says(0, 0, r->n), (struct written){0, r->n, r->heard.scales});
    r->tally->words += gav_shelf_words(r->n);
}

/* The round's score, and scores that are damaged in any way: checked, and listed into more room than a listing takes.
 */
static void listings(struct round *r) {
    static struct score damaged;
    for (int i = 0; i < 3; i++) {
        damaged = r->score;
        if (i > 0) damage_score(&r->chance, &damaged);
        snprintf(r->what, sizeof r->what, "%s score of %zu bytes", i > 0 ? "damaged" : "whole", damaged.len);
        lend_score(&r->lent, OLD, &damaged);
        lend(&r->lent, OUT, NULL, 0);
        resize(&r->chance, &r->lent, TEXT, GAV_LIST_ROOM + below(&r->chance, 8));
        call_same(r, &(struct call){.which = CHECK});
        call_same(r, &(struct call){.which = LIST});
    }
}

/* A phase or a dt: at its ends, at the corners of the waveforms, anywhere, and outside now and then. */
static double cycles(struct chance *c, double most) {
    const double ends[] = {0.0, -0.0, 0x1p-1074, 0.25, 0.5, nextafter(0.5, 0), 0.75, 1.0, most, nextafter(most, 0)};
    const double outside[] = {-0x1p-1074, nextafter(most, 5), INFINITY, NAN};
    uint64_t kind = below(c, 16);
    return kind == 0 ? PICK(c, outside) : kind < 5 ? PICK(c, ends) : kind < 10 ? dense(c) : most * dense(c);
}

static void samples(struct round *r) {
    static const uint32_t CODES[] = {0, 1, 2, 3, 4, 4, 6, 0, 1, 2, 3, 4, 4, 6, 6, 5, 7, 256, 262, UINT32_MAX};
    struct chance *c = &r->chance;
    for (int i = 0; i < 40; i++) {
        uint32_t code = PICK(c, CODES);
        double phase = cycles(c, 1.0), dt = cycles(c, 4.0), duty = one_in(c, 8) ? odd_unit(c) : random_duty(c);
        sample_same(r, code, phase, dt, duty);
    }
}

static size_t random_length(struct chance *c) {
    static const size_t LENGTHS[] = {0,    1,    63,   64,    65,    4095,  4096,   4097,
                                     8191, 8192, 8193, 12287, 12288, 12289, LONGEST};
    return one_in(c, 4) ? PICK(c, LENGTHS) : below(c, 12001);
}

/* One round in sixteen is silent, and one in sixteen has peaks above 1; in one in four the output is long, and keys
 * come one after the other. */
static void draw(struct round *r) {
    struct chance *c = &r->chance;
    uint64_t kind = below(c, 16);
    r->n = kind < 12 ? random_length(c) : GAV_SECTION + 1 + below(c, LONGEST - GAV_SECTION);
    r->settings = kind == 1 ? loud_settings(c) : random_settings(c);
    (kind == 0 ? silent_score : kind == 1 ? loud_score : kind < 12 ? random_score : plain_score)(c, r->n, &r->score);
}

void run_round(struct round *r) {
    r->lent.has_nulls = one_in(&r->chance, 2);
    draw(r);
    snprintf(r->what, sizeof r->what, "the judge");
    judge_hear(r, &r->score, &r->heard);
    parts(r);
    stray_part(r);
    edge_part(r);
    listings(r);
    samples(r);
    run_render(r);
    run_edits(r);
    run_pages(r);
    run_refusals(r);
}
