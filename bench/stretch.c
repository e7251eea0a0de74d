/* From which sample to which a re-render makes: "It stops at the first such entry past the start", "if the state there
 * equals the stored one apart from records acted, and the two scores' records from that position on are the same". */
#include "bench.h"

#include <stdio.h>
#include <stdlib.h>

/* The bits of word 5 that count the records acted. */
#define ACTED (~UINT64_C(0xffff))

static size_t bytes_below(const struct score *score, uint64_t position) {
    size_t at = 0;
    while (at < score->len && record_position(score->bytes + at) < position) at += RECORD;
    return at;
}

static bool same_from(const struct score *one, const struct score *other, uint64_t position) {
    size_t at = bytes_below(one, position), there = bytes_below(other, position);
    return one->len - at == other->len - there && memcmp(one->bytes + at, other->bytes + there, one->len - at) == 0;
}

static bool same_state(const uint64_t *one, const uint64_t *other) {
    for (size_t i = 0; i < GAV_STATE_WORDS; i++) {
        if ((one[i] ^ other[i]) & (i == 5 ? ~ACTED : UINT64_MAX)) return false;
    }
    return true;
}

/* What the plain C's last render left, to be freed. */
static uint64_t *copy_of_shelf(size_t words) {
    uint64_t *copy = malloc((words + 1) * sizeof *copy);
    if (!copy) {
        fputs("bench: no memory\n", stderr);
        exit(2);
    }
    memcpy(copy, plain_shelf(), words * sizeof *copy);
    return copy;
}

/* The first sample after one, of a section's first ones, at which the two sounds meet, by the entries of both; n where
 * there is none. */
static size_t meets_at(const struct score *old, const struct score *new_, const uint64_t *before, size_t from,
                       size_t n) {
    const uint64_t *after = plain_shelf();
    for (size_t at = from + GAV_SECTION; at < n; at += GAV_SECTION) {
        size_t entry = gav_shelf_words(at);
        if (same_from(old, new_, at) && same_state(before + entry, after + entry)) return at;
    }
    return n;
}

struct stretch due_stretch(struct bench *b, const struct score *old, const struct score *new_) {
    uint64_t change = first_change(old->bytes, old->len, new_->bytes, new_->len);
    plain_render(&b->settings, old, b->reference, b->samples);
    uint64_t *before = copy_of_shelf(gav_shelf_words(b->samples));
    plain_render(&b->settings, new_, b->reference, b->samples);
    struct stretch made = {b->samples, b->samples};
    if (change < b->samples) {
        made.from = (size_t)(change / GAV_SECTION * GAV_SECTION);
        made.to = meets_at(old, new_, before, made.from, b->samples);
    }
    free(before);
    return made;
}
