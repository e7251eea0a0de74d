/* Buffers that are lent: bytes between guards, which hold before a call what a careless copy of floats would change,
 * NaNs of all kinds, both zeros, numbers below the normal ones. They are compared as bytes. */
#include "scale.h"

#include <stdio.h>
#include <stdlib.h>

#define GUARD 64 /* bytes on each side */

static const uint64_t GUARDS[GUARD / 8] = {
    UINT64_C(0x7FF0000000000001), UINT64_C(0xFFF8000000C0FFEE), UINT64_C(0x8000000000000000),
    UINT64_C(0x000FFFFFFFFFFFFF), UINT64_C(0xC3A596E15A3C692D), UINT64_C(0xFFF4000000000000),
    UINT64_C(0x7FFFFFFFFFFFFFFF), UINT64_C(0x8000000000000001),
};

void make_buffers(struct buffers *b) {
    static const size_t MOST[BUFFERS] = {sizeof((struct score *)0)->bytes,
                                         sizeof((struct score *)0)->bytes,
                                         8 * LONGEST,
                                         8 * (MOST_ENTRIES + 1) * GAV_STATE_WORDS,
                                         8 * (GAV_STATE_WORDS + 1),
                                         8 * (MOST_ENTRIES + 1),
                                         8 * (MOST_ENTRIES + 1),
                                         GAV_LIST_ROOM + 8,
                                         sizeof((struct list *)0)->bytes,
                                         GAV_SCORE_BYTES + 2 * RECORD};
    for (int i = 0; i < BUFFERS; i++) {
        b->room[i] = malloc(MOST[i] + 2 * GUARD);
        if (b->room[i]) continue;
        fputs("scale: no memory\n", stderr);
        exit(2);
    }
}

void *inside(const struct buffers *b, enum lent which) { return b->room[which] + GUARD; }

uint64_t *words_of(const struct buffers *b, enum lent which) { return inside(b, which); }

void set_length(struct buffers *b, enum lent which, size_t len) {
    memcpy(b->room[which], GUARDS, GUARD);
    memcpy(b->room[which] + GUARD + len, GUARDS, GUARD);
    b->len[which] = len;
}

void lend(struct buffers *b, enum lent which, const void *from, size_t len) {
    set_length(b, which, len);
    if (len > 0) memcpy(inside(b, which), from, len);
}

void lend_score(struct buffers *b, enum lent which, const struct score *score) {
    lend(b, which, score->bytes, score->len);
}

/* A NaN that is quiet or signalling, of any payload and sign; a zero; a number below the normal ones; infinite; about
 * 1; any word. */
static uint64_t odd_word(uint64_t word) {
    const uint64_t sign = word & UINT64_C(1) << 63, payload = word >> 13;
    switch (word & 7) {
    case 0:
        return sign | UINT64_C(0x7FF8000000000000) | payload;
    case 1:
        return sign | UINT64_C(0x7FF0000000000000) | payload | 1;
    case 2:
        return UINT64_C(1) << 63;
    case 3:
        return sign | payload;
    case 4:
        return sign | UINT64_C(0x7FF0000000000000);
    case 5:
        return sign | UINT64_C(0x3FE0000000000000) | payload;
    case 6:
        return 0;
    default:
        return word;
    }
}

void rubbish(struct chance *c, uint64_t *words, size_t count) {
    for (size_t i = 0; i < count; i++) words[i] = odd_word(chance_word(c));
}

void resize(struct chance *c, struct buffers *b, enum lent which, size_t len) {
    rubbish(c, words_of(b, which), (len + 7) / 8);
    set_length(b, which, len);
}

void *address(const struct buffers *b, enum lent which) {
    return b->len[which] == 0 && b->has_nulls ? NULL : inside(b, which);
}

void copy_buffers(struct buffers *to, const struct buffers *from) {
    to->has_nulls = from->has_nulls;
    for (int i = 0; i < BUFFERS; i++) {
        to->len[i] = from->len[i];
        memcpy(to->room[i], from->room[i], from->len[i] + 2 * GUARD);
    }
}
