/* The library at the C boundary, and the reference voice, whose calls are the same. A call that is refused ends the
 * measurement. */
#include "bench.h"

#include <stdio.h>
#include <stdlib.h>

/* What a call is lent beside its samples. */
struct beside {
    uint64_t *shelf, *numbers;
    double *magnitudes;
};

static struct beside ours, plain;

static struct beside make_beside(size_t samples) {
    const size_t sections = gav_sections(samples) + 1;
    struct beside made = {.shelf = calloc(sections * GAV_STATE_WORDS, sizeof *made.shelf),
                          .numbers = calloc(sections, sizeof *made.numbers),
                          .magnitudes = calloc(sections, sizeof *made.magnitudes)};
    if (made.shelf && made.numbers && made.magnitudes) return made;
    fputs("bench: no memory\n", stderr);
    exit(2);
}

void library_prepare(size_t samples) {
    ours = make_beside(samples);
    plain = make_beside(samples);
}

static size_t done(uint64_t said) {
    if (gav_number(said) == 0) return gav_count(said);
    fprintf(stderr, "bench: refused with %u at %u\n", gav_number(said), (unsigned)gav_place(said));
    exit(2);
}

void ours_render(const struct gav_settings *s, const struct score *score, double *out, size_t n) {
    const size_t sections = gav_sections(n);
    done(gav_render_with(s, score->bytes, score->len, out, n, ours.shelf, gav_shelf_words(n), ours.magnitudes, sections,
                         ours.numbers, sections));
}

void plain_render(const struct gav_settings *s, const struct score *score, double *out, size_t n) {
    const size_t sections = gav_sections(n);
    done(reference_render(s, score->bytes, score->len, out, n, plain.shelf, gav_shelf_words(n), plain.magnitudes,
                          sections, plain.numbers, sections));
}

const uint64_t *plain_shelf(void) { return plain.shelf; }

/* Rubbish in ours, so that a peak that is not written is seen. */
void spoil_peaks(const struct bench *b) {
    const size_t sections = gav_sections(b->samples);
    memset(ours.magnitudes, 0xa5, sections * sizeof *ours.magnitudes);
    memset(ours.numbers, 0xa5, sections * sizeof *ours.numbers);
}

void same_peaks(struct bench *b, const char *who, const char *wave) {
    char what[200];
    size_t i = 0, sections = gav_sections(b->samples);
    while (i < sections && bits(ours.magnitudes[i]) == bits(plain.magnitudes[i]) && ours.numbers[i] == plain.numbers[i])
        i++;
    if (i == sections) return;
    snprintf(what, sizeof what, "%s, %s: the peak of section %zu is %a at %llu, of the plain C %a at %llu", who, wave,
             i, ours.magnitudes[i], (unsigned long long)ours.numbers[i], plain.magnitudes[i],
             (unsigned long long)plain.numbers[i]);
    differ(b, what);
}

void same_shelf(struct bench *b, const char *who, const char *wave) {
    char what[200];
    size_t i = 0, words = gav_shelf_words(b->samples);
    while (i < words && ours.shelf[i] == plain.shelf[i]) i++;
    if (i == words) return;
    snprintf(what, sizeof what, "%s, %s: word %zu of entry %zu is %016llx, of the plain C %016llx", who, wave,
             i % GAV_STATE_WORDS, i / GAV_STATE_WORDS, (unsigned long long)ours.shelf[i],
             (unsigned long long)plain.shelf[i]);
    differ(b, what);
}

void ours_continue(const struct gav_settings *s, const struct score *score, double *out, size_t n, size_t part) {
    uint64_t state[GAV_STATE_WORDS];
    done(gav_fresh(state, GAV_STATE_WORDS));
    for (size_t i = 0; i < n; i += part) {
        size_t length = n - i < part ? n - i : part;
        done(gav_continue_with(s, score->bytes, score->len, state, GAV_STATE_WORDS, i, out + i, length));
    }
}

void ours_from(const struct gav_settings *s, const struct score *score, double *out, size_t from, size_t n) {
    uint64_t state[GAV_STATE_WORDS];
    memcpy(state, ours.shelf + from / GAV_SECTION * GAV_STATE_WORDS, sizeof state);
    done(gav_continue_with(s, score->bytes, score->len, state, GAV_STATE_WORDS, from, out + from, n));
}

size_t ours_rerender(const struct gav_settings *s, const struct score *old, const struct score *new_, double *out,
                     size_t n) {
    const size_t sections = gav_sections(n);
    return done(gav_rerender_with(s, old->bytes, old->len, new_->bytes, new_->len, out, n, ours.shelf,
                                  gav_shelf_words(n), ours.magnitudes, sections, ours.numbers, sections));
}

size_t ours_edit(const struct gav_settings *s, const struct score *old, const struct score *edits, double *out,
                 size_t n, struct score *made) {
    const size_t sections = gav_sections(n);
    uint64_t said =
        gav_edit_with(s, old->bytes, old->len, edits->bytes, edits->len, out, n, ours.shelf, gav_shelf_words(n),
                      ours.magnitudes, sections, ours.numbers, sections, made->bytes, GAV_SCORE_BYTES);
    made->len = gav_place(said);
    return done(said);
}
