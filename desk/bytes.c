/* Numbers in bytes, low byte first; floats as their bits; and a sum that shows damage. */
#include "desk.h"

#include <string.h>

void put_u32(uint8_t *at, uint32_t value) {
    for (unsigned i = 0; i < 4; i++) at[i] = (uint8_t)(value >> 8 * i);
}

void put_u64(uint8_t *at, uint64_t value) {
    for (unsigned i = 0; i < 8; i++) at[i] = (uint8_t)(value >> 8 * i);
}

uint64_t bits_of(double value) {
    uint64_t bits;
    memcpy(&bits, &value, sizeof bits);
    return bits;
}

double from_bits(uint64_t bits) {
    double value;
    memcpy(&value, &bits, sizeof value);
    return value;
}

/* A step of the sum. It is one-to-one in the sum and in the word, so that one changed word always changes the sum. The
   shift brings high bits down, and the second multiplication spreads them by carries that depend on the data: a flipped
   top bit leaves no fixed pattern, which a fixed change of the next word would always undo. */
static uint64_t add_word(uint64_t sum, uint64_t word) {
    sum = (sum ^ word) * UINT64_C(0x9E3779B97F4A7C15);
    return (sum ^ sum >> 32) * UINT64_C(0xD6E8FEB86659FD93);
}

/* 8 bytes a step, from a start that depends on the length; the last word is padded with zeros. */
uint64_t sum_of(const uint8_t *at, size_t len) {
    uint64_t sum = UINT64_C(0xcbf29ce484222325) ^ len;
    uint8_t last[8] = {0};
    for (; len >= 8; at += 8, len -= 8) sum = add_word(sum, get_u64(at));
    if (len == 0) return sum;
    memcpy(last, at, len);
    return add_word(sum, get_u64(last));
}
