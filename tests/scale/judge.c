/* The judge of a round: the original where it is here, else the reference voice, sample by sample. */
#include "scale.h"

#include <math.h>

static void walk(const struct gav_settings *settings, const struct score *score, uint64_t *state, uint64_t position,
                 double *out, size_t n, uint64_t *shelf) {
    const struct gav_settings s = clamped(settings);
    const struct records records = {score->bytes, score_count(score)};
    struct voice voice;
    voice_read(&voice, state);
    for (size_t i = 0; i < n; i++) {
        if (shelf && (position + i) % GAV_SECTION == 0) {
            voice_words(&voice, shelf);
            shelf += GAV_STATE_WORDS;
        }
        voice_begin(&s, &voice, records, position + i);
        out[i] = voice_make(&s, &voice);
    }
    voice_words(&voice, state);
}

/* Beside the reference voice no sine is measured, so that there are no scales. */
void judge_play(const struct gav_settings *settings, const struct score *score, uint64_t *state, uint64_t position,
                double *out, double *scales, size_t n, uint64_t *shelf) {
    if (original_is_here) {
        original_play(settings, score->bytes, score->len, state, position, out, scales, n, shelf);
    } else {
        walk(settings, score, state, position, out, n, shelf);
    }
}

/* The original's untouched copies, by whole blocks, make the same samples. */
void judge_hear(struct round *r, const struct score *score, struct heard *heard) {
    static double untouched[LONGEST];
    reference_fresh(heard->state, GAV_STATE_WORDS);
    judge_play(&r->settings, score, heard->state, 0, heard->samples, heard->scales, r->n, heard->shelf);
    if (!original_is_here) return;
    original_render(&r->settings, score->bytes, score->len, untouched, r->n);
    if (memcmp(untouched, heard->samples, r->n * sizeof *untouched) != 0) {
        differ(r, "the original's untouched copies part ways with the opened ones");
    }
}

/* First the largest magnitude, then the first sample where it stands; in a section of NaNs the end, which is told. */
void judge_peaks(const double *samples, size_t from, size_t n, double *magnitudes, uint64_t *numbers) {
    for (size_t first = from; first < n; first += GAV_SECTION) {
        size_t end = n - first < GAV_SECTION ? n : first + GAV_SECTION, at = first;
        double largest = 0.0;
        for (size_t i = first; i < end; i++) largest = fmax(largest, fabs(samples[i]));
        while (at < end && fabs(samples[at]) != largest) at++;
        magnitudes[first / GAV_SECTION] = largest;
        numbers[first / GAV_SECTION] = at;
    }
}

bool is_same_state(const uint64_t *entry, const uint64_t *other) {
    uint64_t apart = 0;
    for (size_t i = 0; i < GAV_STATE_WORDS; i++) apart |= (entry[i] ^ other[i]) & (i == 5 ? 0xFFFF : UINT64_MAX);
    return apart == 0;
}

/* One past the position of a score's last record, of so many bytes. */
static uint64_t past_last(const struct score *score, size_t len) {
    return len > 0 ? 1 + (uint64_t)score_position(score, len / RECORD - 1) : 0;
}

/* From the end back to the last difference, of whose two records the higher position counts. */
uint64_t same_after(const struct score *old, const struct score *new_) {
    size_t i = old->len, j = new_->len;
    while (i > 0 && j > 0 && memcmp(old->bytes + i - RECORD, new_->bytes + j - RECORD, RECORD) == 0) {
        i -= RECORD, j -= RECORD;
    }
    uint64_t p = past_last(old, i), q = past_last(new_, j);
    return p > q ? p : q;
}

size_t judge_stop(const struct score *old, const struct score *new_, const uint64_t *came, const uint64_t *due,
                  size_t start, size_t sections) {
    const uint64_t same = same_after(old, new_);
    for (size_t k = start + 1; k < sections; k++) {
        const size_t entry = k * GAV_STATE_WORDS;
        if (k * GAV_SECTION >= same && is_same_state(came + entry, due + entry)) return k;
    }
    return sections;
}

bool is_judged(const struct round *r, double ours, double judged, double scale) {
    if (bits(ours) == bits(judged)) return true;
    return original_is_here && has_sine(&r->settings) && fabs(ours - judged) <= 0.000001 * scale;
}
