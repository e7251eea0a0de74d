/* The settings and the summary as the calls take them one by one, declared and handed on, and where a re-render starts,
 * for what is linked around a call (gcc's --wrap). */
#ifndef SETTINGS_H
#define SETTINGS_H

#include "gavberin.h"

#include <string.h>

#define SETTINGS                                                                                                       \
    uint32_t rate, uint32_t code, double duty, double attack, double decay, double sustain, double release,            \
        uint32_t lfo_code, double lfo_duty, double lfo_frequency, double lfo_depth, uint32_t joined
#define GIVEN rate, code, duty, attack, decay, sustain, release, lfo_code, lfo_duty, lfo_frequency, lfo_depth, joined

#define SUMMARY double *magnitudes, size_t magnitudes_len, uint64_t *numbers, size_t numbers_len
#define PEAKS magnitudes, magnitudes_len, numbers, numbers_len

#define RECORD_BYTES 10u

static inline size_t given_position(const uint8_t *record) {
    return record[2] | (size_t)record[3] << 8 | (size_t)record[4] << 16 | (size_t)record[5] << 24;
}

/* The sample that a re-render starts at, of scores that are not equal. */
static inline size_t start_of_edit(const uint8_t *old, size_t old_len, const uint8_t *new_, size_t new_len) {
    size_t at = 0, place = SIZE_MAX;
    while (at < old_len && at < new_len && memcmp(old + at, new_ + at, RECORD_BYTES) == 0) at += RECORD_BYTES;
    if (at < old_len) place = given_position(old + at);
    if (at < new_len && given_position(new_ + at) < place) place = given_position(new_ + at);
    return place / GAV_SECTION * GAV_SECTION;
}

#endif
