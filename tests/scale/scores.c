/* Random scores, their edits, and scores with a fault. */
#include "scale.h"

#include <stdlib.h>

size_t score_count(const struct score *score) { return score->len / RECORD; }

uint32_t score_position(const struct score *score, size_t index) {
    return record_position(score->bytes + RECORD * index);
}

size_t score_below(const struct score *score, uint64_t position) {
    size_t below = 0;
    while (below < score_count(score) && score_position(score, below) < position) below++;
    return below;
}

/* Who plays: keys within a range, of which more and more are down, or fewer and fewer. */
struct hands {
    unsigned lowest, keys, down;
    bool rising;
    uint8_t notes[MOST_RECORDS];
};

static void sit_down(struct chance *c, struct hands *h) {
    static const unsigned RANGES[] = {128, 4, 41};
    h->keys = PICK(c, RANGES);
    h->lowest = (unsigned)below(c, 129 - h->keys);
    h->down = 0;
    h->rising = true;
}

static uint8_t lift(struct chance *c, struct hands *h) {
    unsigned at = one_in(c, 3) ? h->down - 1 : (unsigned)below(c, h->down);
    uint8_t note = h->notes[at];
    memmove(h->notes + at, h->notes + at + 1, --h->down - at);
    return note;
}

/* As an off, whose velocity is in the record and is not heard, or as an on with velocity 0. */
static void put_release(struct chance *c, uint8_t *record, uint32_t position, uint8_t note) {
    bool is_on = one_in(c, 3);
    put_record(record, position, is_on ? ON : OFF, note, is_on ? 0 : (uint8_t)below(c, 128));
}

/* A reset; a key lifted that may not be down; one struck; one lifted that is down. */
static void play_next(struct chance *c, struct hands *h, uint8_t *record, uint32_t position) {
    uint8_t note = (uint8_t)(h->lowest + below(c, h->keys));
    if (one_in(c, 30)) h->rising = !h->rising;
    uint64_t chosen = below(c, 40);
    if (chosen == 0) {
        put_record(record, position, RESET, 0, 0);
    } else if (chosen == 1) {
        put_release(c, record, position, note);
    } else if (h->down == 0 || (chosen < 28) == h->rising) {
        h->notes[h->down++] = note;
        put_record(record, position, ON, note, (uint8_t)(1 + below(c, 127)));
    } else {
        put_release(c, record, position, lift(c, h));
    }
}

static size_t random_count(struct chance *c, size_t n) {
    uint64_t kind = below(c, 32);
    if (kind == 0) return 0;
    if (kind < 8) return 1 + below(c, 3);
    if (kind < 24) return 1 + below(c, 40);
    if (kind < 30) return below(c, (n < 1000 ? n : 1000) + 1);
    return below(c, kind == 30 ? 500 : MOST_RECORDS + 1);
}

static uint32_t before(uint64_t position) { return (uint32_t)(position > 0 ? position - 1 : 0); }

/* Anywhere; at the start of a section or beside it; where another record is; at the end or past it. */
static uint32_t random_position(struct chance *c, size_t window, size_t n, const uint32_t *other) {
    uint32_t any = (uint32_t)below(c, window);
    const uint32_t ends[] = {before(n), (uint32_t)n, (uint32_t)n + 1, UINT32_MAX, (uint32_t)chance_word(c)};
    switch (below(c, 10)) {
    case 0:
        return any / BLOCK * BLOCK;
    case 1:
        return before(any / BLOCK * BLOCK + below(c, 3));
    case 2:
        return before(any / GAV_SECTION * GAV_SECTION + below(c, 3));
    case 3:
    case 4:
        return other ? *other : any;
    case 5:
        return one_in(c, 4) ? PICK(c, ends) : any;
    default:
        return any;
    }
}

static int by_size(const void *a, const void *b) {
    uint32_t x = *(const uint32_t *)a, y = *(const uint32_t *)b;
    return (x > y) - (x < y);
}

/* Over the whole output and somewhat more, or all near its beginning. */
static void random_positions(struct chance *c, size_t n, uint32_t *positions, size_t count) {
    const size_t windows[] = {n, n, n + n / 4, n < 150 ? n : 150};
    size_t window = 1 + PICK(c, windows);
    for (size_t i = 0; i < count; i++) {
        positions[i] = random_position(c, window, n, i > 0 ? &positions[i - 1] : NULL);
    }
    qsort(positions, count, sizeof *positions, by_size);
}

/* Releases of keys that are not down, and resets. */
void silent_score(struct chance *c, size_t n, struct score *score) {
    size_t count = below(c, 4), position = 0;
    score->len = RECORD * count;
    for (size_t i = 0; i < count; i++) {
        position += below(c, n + 1);
        if (one_in(c, 4)) {
            put_record(score->bytes + RECORD * i, (uint32_t)position, RESET, 0, 0);
        } else {
            put_release(c, score->bytes + RECORD * i, (uint32_t)position, (uint8_t)below(c, 128));
        }
    }
}

void loud_score(struct chance *c, size_t n, struct score *score) {
    size_t count = 1 + below(c, 4), position = below(c, 64);
    score->len = RECORD * count;
    for (size_t i = 0; i < count; i++) {
        put_record(score->bytes + RECORD * i, (uint32_t)position, ON, (uint8_t)(100 + below(c, 28)), 127);
        position += below(c, n + 1);
    }
}

/* At the start of a section, at the sample before it, or as it is. */
static uint32_t snapped(struct chance *c, size_t position) {
    const uint32_t mark = (uint32_t)(position / GAV_SECTION * GAV_SECTION);
    uint64_t kind = below(c, 8);
    return kind == 0 ? mark : kind == 1 ? before(mark) : (uint32_t)position;
}

static void append(struct score *score, uint32_t position, enum kind kind, uint8_t note, uint8_t velocity) {
    size_t count = score_count(score);
    uint32_t last = count > 0 ? score_position(score, count - 1) : 0;
    put_record(score->bytes + score->len, position > last ? position : last, kind, note, velocity);
    score->len += RECORD;
}

/* Few samples or many from one record to the next, up to the end and somewhat past it; now and then a reset, or a key
 * let go that is not down. */
void plain_score(struct chance *c, size_t n, struct score *score) {
    const uint64_t most = one_in(c, 2) ? 1500 : 5000;
    score->len = 0;
    for (size_t at = below(c, most); at < n + 1000 && score_count(score) < 60; at += below(c, most)) {
        uint8_t note = (uint8_t)below(c, 128), velocity = (uint8_t)(1 + below(c, 127));
        uint64_t kind = below(c, 8);
        if (kind == 0) {
            append(score, snapped(c, at), RESET, 0, 0);
        } else if (kind == 1) {
            append(score, snapped(c, at), OFF, note, velocity);
        } else {
            append(score, snapped(c, at), ON, note, velocity);
            append(score, snapped(c, at += below(c, most)), OFF, note, (uint8_t)below(c, 128));
        }
    }
}

void long_score(struct chance *c, size_t n, size_t count, struct score *score) {
    static uint32_t positions[MOST_RECORDS];
    static struct hands hands;
    random_positions(c, n, positions, count);
    sit_down(c, &hands);
    for (size_t i = 0; i < count; i++) play_next(c, &hands, score->bytes + RECORD * i, positions[i]);
    score->len = RECORD * count;
}

/* From no record to 4,096. */
void random_score(struct chance *c, size_t n, struct score *score) { long_score(c, n, random_count(c, n), score); }

static void take_out(struct score *score, size_t index) {
    uint8_t *at = score->bytes + RECORD * index;
    score->len -= RECORD;
    memmove(at, at + RECORD, score->len - RECORD * index);
}

static void put_at(struct score *score, size_t index, const uint8_t *record) {
    uint8_t *at = score->bytes + RECORD * index;
    memmove(at + RECORD, at, score->len - RECORD * index);
    memcpy(at, record, RECORD);
    score->len += RECORD;
}

/* Anywhere among the records of its position. */
static void put_in(struct chance *c, struct score *score, const uint8_t *record) {
    if (score_count(score) == MOST_RECORDS) return;
    uint64_t position = record_position(record);
    size_t first = score_below(score, position), after = score_below(score, position + 1);
    put_at(score, first + below(c, after - first + 1), record);
}

void insert_record(struct score *score, const uint8_t *record) {
    put_at(score, score_below(score, 1 + (uint64_t)record_position(record)), record);
}

bool remove_record(struct score *score, const uint8_t *record) {
    for (size_t i = score_below(score, record_position(record)); i < score_count(score); i++) {
        if (memcmp(score->bytes + RECORD * i, record, RECORD) != 0) continue;
        take_out(score, i);
        return true;
    }
    return false;
}

void strike(struct chance *c, struct score *score, uint64_t position) {
    uint8_t record[RECORD];
    put_record(record, (uint32_t)position, ON, (uint8_t)below(c, 128), (uint8_t)(1 + below(c, 127)));
    put_in(c, score, record);
}

/* At the starts of sections and beside them, at the end and before it, or anywhere. */
static uint32_t edit_position(struct chance *c, size_t n) {
    uint32_t from = (uint32_t)below(c, n / GAV_SECTION + 2) * GAV_SECTION, any = (uint32_t)below(c, n + 1);
    const uint32_t near[] = {before(from), from, from + 1, before(n), (uint32_t)n, any, any, any};
    return PICK(c, near);
}

/* Of an on that strikes often 0, else any. */
static uint8_t another_velocity(struct chance *c, const uint8_t *record) {
    bool falls = record[6] == ON && record[8] > 0 && one_in(c, 3);
    return falls ? 0 : (uint8_t)below(c, 128);
}

/* A record is put in, taken out, moved, or gets another velocity. */
void edit_score(struct chance *c, size_t n, struct score *score) {
    uint64_t how = below(c, 8);
    if (how < 3) strike(c, score, edit_position(c, n));
    if (how < 3 || score->len == 0) return;
    size_t index = below(c, score_count(score));
    uint8_t record[RECORD];
    memcpy(record, score->bytes + RECORD * index, RECORD);
    if (how == 7) {
        if (record[6] != RESET) score->bytes[RECORD * index + 8] = another_velocity(c, record);
        return;
    }
    take_out(score, index);
    put_record(record, edit_position(c, n), record[6], record[7], record[8]);
    if (how > 4) put_in(c, score, record);
}

/* Any record, or the one at a position that edits are often at. */
static size_t edit_index(struct chance *c, size_t n, const struct score *score) {
    size_t count = score_count(score), index = score_below(score, edit_position(c, n));
    return one_in(c, 2) || index == count ? below(c, count) : index;
}

void change_velocity(struct chance *c, uint8_t *record) {
    if (record[6] == OFF) record[8] = (uint8_t)below(c, 128);
    if (record[6] == ON && record[8] > 0) record[8] = (uint8_t)(1 + below(c, 127));
}

/* A record somewhat earlier or later. */
static void shift(struct chance *c, struct score *score, size_t index) {
    uint8_t record[RECORD];
    memcpy(record, score->bytes + RECORD * index, RECORD);
    uint64_t position = record_position(record) + below(c, 1001);
    take_out(score, index);
    put_record(record, (uint32_t)(position > 500 ? position - 500 : 0), record[6], record[7], record[8]);
    put_in(c, score, record);
}

/* At the end or past it. */
static uint32_t late_position(struct chance *c, size_t n) {
    const uint32_t late[] = {(uint32_t)n, (uint32_t)n + 1, (uint32_t)(n + below(c, 5000)), UINT32_MAX};
    return PICK(c, late);
}

/* A key let go, which is often not down; a reset; a key at the end or past it. */
static void add_record(struct chance *c, size_t n, struct score *score) {
    uint8_t record[RECORD];
    uint64_t kind = below(c, 6);
    if (kind == 0)
        put_record(record, edit_position(c, n), RESET, 0, 0);
    else if (kind == 1)
        put_record(record, late_position(c, n), ON, (uint8_t)below(c, 128), (uint8_t)(1 + below(c, 127)));
    else
        put_release(c, record, edit_position(c, n), (uint8_t)below(c, 128));
    put_in(c, score, record);
}

void random_record(struct chance *c, size_t n, bool is_late, uint8_t *record) {
    uint32_t position = is_late ? late_position(c, n) : edit_position(c, n);
    uint64_t kind = below(c, 8);
    if (kind == 0)
        put_record(record, position, RESET, 0, 0);
    else if (kind < 4)
        put_record(record, position, ON, (uint8_t)below(c, 128), (uint8_t)(1 + below(c, 127)));
    else
        put_release(c, record, position, (uint8_t)below(c, 128));
}

void change_score(struct chance *c, size_t n, struct score *score) {
    for (uint64_t times = 1 + below(c, 3); times > 0; times--) {
        uint64_t how = below(c, 8);
        if (how < 3 || score->len == 0)
            add_record(c, n, score);
        else if (how < 6)
            change_velocity(c, score->bytes + RECORD * edit_index(c, n, score));
        else
            shift(c, score, edit_index(c, n, score));
    }
}

/* A position below that of the record before, if there is one. */
static bool fall(struct chance *c, struct score *score, size_t index) {
    uint8_t *record = score->bytes + RECORD * index;
    uint32_t most = index > 0 ? score_position(score, index - 1) : 0;
    if (most == 0) return false;
    put_record(record, (uint32_t)below(c, most), record[6], record[7], record[8]);
    return true;
}

uint64_t break_score(struct chance *c, struct score *score) {
    static const uint8_t KINDS[] = {0, 4, 129, 255}, LAST[] = {1, 128, 255};
    size_t index = score->len > 0 ? below(c, score_count(score)) : 0;
    uint8_t *record = score->bytes + RECORD * index;
    uint64_t fault = score->len > 0 ? below(c, 7) : 0;
    switch (fault) {
    case 0:
        score->len = score->len > 0 ? score->len - 1 : 1;
        return says(1, 0, 0);
    case 1:
        score->len = sizeof score->bytes;
        return says(1, 0, 0);
    case 2:
        record[below(c, 2)] ^= (uint8_t)(1u << below(c, 8));
        return says(2, index, 0);
    case 3:
        record[6] = PICK(c, KINDS);
        return says(3, index, 0);
    case 4:
        record[7 + below(c, 2)] |= 128;
        return says(4, index, 0);
    case 5:
        if (fall(c, score, index)) return says(5, index, 0);
        /* fall through */
    default:
        record[9] = PICK(c, LAST);
        return says(4, index, 0);
    }
}

void damage_score(struct chance *c, struct score *score) {
    static const uint8_t ODD[] = {0, 1, 3, 4, 0x4E, 0x56, 127, 128, 255};
    for (uint64_t times = 1 + below(c, 3); times > 0 && score->len > 0; times--) {
        size_t at = below(c, score->len);
        if (one_in(c, 8))
            score->len = at;
        else
            score->bytes[at] = one_in(c, 2) ? PICK(c, ODD) : (uint8_t)chance_word(c);
    }
}
