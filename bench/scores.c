/* Seeded scores like a tune: keys that are struck and lifted, some held together, a reset now and then, all over the
 * length. */
#include "bench.h"

#include "chance.h"

#include <stdio.h>
#include <stdlib.h>

#define MOST_KEYS 5

struct tune {
    struct chance chance;
    struct keys range;
    unsigned held;
    uint8_t keys[MOST_KEYS];
};

/* A reset in a hundred; where keys are held, one is lifted as often as another is struck. */
static void put_next(struct tune *tune, uint8_t *record, uint32_t position) {
    struct chance *c = &tune->chance;
    if (one_in(c, 100)) {
        tune->held = 0;
        put_record(record, position, RESET, 0, 0);
    } else if (tune->held == MOST_KEYS || (tune->held > 0 && one_in(c, 2))) {
        uint64_t at = below(c, tune->held);
        uint8_t note = tune->keys[at];
        tune->keys[at] = tune->keys[--tune->held];
        put_record(record, position, OFF, note, 64);
    } else {
        uint8_t note = (uint8_t)(tune->range.lowest + below(c, tune->range.count));
        tune->keys[tune->held++] = note;
        put_record(record, position, ON, note, (uint8_t)(40 + below(c, 88)));
    }
}

static struct score room_for(size_t len) {
    struct score score = {malloc(len + 1), len};
    if (score.bytes) return score;
    fputs("bench: no memory\n", stderr);
    exit(2);
}

/* The length is cut into as many ranges as there are records, and record i is in range i; one in eight records is at
 * the position of the record before it. */
struct score make_score(uint64_t seed, struct keys range, size_t records, size_t samples) {
    struct tune tune = {{seed}, range, 0, {0}};
    struct score score = room_for(RECORD * records);
    uint64_t position = 0;
    for (size_t i = 0; i < records; i++) {
        uint64_t from = (uint64_t)samples * i / records, to = (uint64_t)samples * (i + 1) / records;
        if (i > 0 && from < to && !one_in(&tune.chance, 8)) position = from + below(&tune.chance, to - from);
        put_next(&tune, score.bytes + RECORD * i, (uint32_t)position);
    }
    return score;
}

struct score copy_score(const struct score *score, size_t more) {
    struct score copy = room_for(score->len + more);
    memcpy(copy.bytes, score->bytes, score->len);
    return copy;
}
