/* Seeded numbers: splitmix64, and what is drawn from it. */
#ifndef CHANCE_H
#define CHANCE_H

#include "voice.h"

struct chance {
    uint64_t seed;
};

static inline uint64_t chance_word(struct chance *c) {
    uint64_t x = c->seed += UINT64_C(0x9e3779b97f4a7c15);
    x = (x ^ x >> 30) * UINT64_C(0xbf58476d1ce4e5b9);
    x = (x ^ x >> 27) * UINT64_C(0x94d049bb133111eb);
    return x ^ x >> 31;
}

/* 0 to limit - 1; the slight lean of the remainder does not matter here. */
static inline uint64_t below(struct chance *c, uint64_t limit) { return chance_word(c) % limit; }

/* One in so many. */
static inline bool one_in(struct chance *c, uint64_t many) { return below(c, many) == 0; }

#define PICK(c, array) ((array)[below(c, sizeof(array) / sizeof *(array))])

/* A power of two from 2^low to 2^high times 1 up to but not including 2, every digit drawn. */
static inline double scaled(struct chance *c, int low, int high) {
    uint64_t power = 1023 + (uint64_t)low + below(c, (uint64_t)(high - low) + 1);
    return number(power << 52 | chance_word(c) >> 12);
}

/* 0 to 1, evenly, but with every digit drawn. */
static inline double dense(struct chance *c) {
    int power = -1;
    for (uint64_t word = chance_word(c); word >> 63 == 0 && power > -65; word <<= 1) power--;
    return scaled(c, power, power);
}

#endif
