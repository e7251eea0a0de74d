/* A score as the desk holds it, and its records past the end, which are not heard. */
#include "desk.h"

#include <string.h>

bool read_score(const char *path, struct score *score, struct why *why) {
    return read_into(path, score->at, sizeof score->at, &score->len, why);
}

void put_record(uint8_t *at, uint32_t position, unsigned kind, unsigned note, unsigned velocity) {
    at[0] = 0x56;
    at[1] = 0x4E;
    put_u32(at + 2, position);
    at[6] = (uint8_t)kind;
    at[7] = (uint8_t)note;
    at[8] = (uint8_t)velocity;
    at[9] = 0;
}

void add_record(struct score *score, uint32_t position, unsigned kind, unsigned note, unsigned velocity) {
    put_record(score->at + score->len, position, kind, note, velocity);
    score->len += RECORD_BYTES;
}

const char *kind_name(unsigned kind) {
    static const char *const names[] = {NULL, "on", "off", "reset"};
    return kind < COUNT_OF(names) ? names[kind] : NULL;
}

uint32_t position_of(const struct score *score, size_t record) {
    return get_u32(score->at + RECORD_BYTES * record + 2);
}

bool same_score(const struct score *one, const struct score *other) {
    return one->len == other->len && memcmp(one->at, other->at, one->len) == 0;
}

size_t first_apart(const struct score *one, const struct score *other) {
    size_t at = 0, both = one->len < other->len ? one->len : other->len;
    while (at < both && one->at[at] == other->at[at]) at++;
    return at / RECORD_BYTES;
}

uint32_t first_change(const struct score *one, const struct score *other) {
    size_t record = first_apart(one, other);
    if (RECORD_BYTES * record >= one->len) return position_of(other, record);
    if (RECORD_BYTES * record >= other->len) return position_of(one, record);
    uint32_t here = position_of(one, record), there = position_of(other, record);
    return here < there ? here : there;
}

/* Positions never fall, so that the records that are not heard are the last ones. */
size_t count_unheard(const struct score *score, size_t samples) {
    size_t records = score->len / RECORD_BYTES, heard = records;
    while (heard > 0 && position_of(score, heard - 1) >= samples) heard--;
    return records - heard;
}

void put_unheard(FILE *out, const struct score *score, size_t samples, uint32_t rate) {
    size_t count = count_unheard(score, samples);
    uint32_t first = position_of(score, score->len / RECORD_BYTES - count);
    fprintf(out,
            "%zu %s at or past the end, sample %zu (the first at sample %u, %.3f s), and %s not heard: `desk render` "
            "without --seconds makes a sound that has %s\n",
            count, counted(count, "record lies", "records lie"), samples, first, (double)first / rate,
            counted(count, "is", "are"), counted(count, "it", "them"));
}

void tell_unheard(FILE *out, const char *path, const struct score *score, size_t samples, uint32_t rate) {
    if (count_unheard(score, samples) == 0) return;
    fprintf(out, "%s: ", path);
    put_unheard(out, score, samples, rate);
}
