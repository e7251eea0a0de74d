/* Pages of edits: what an edit costs in a score of 4,096 records, lists of as many edits, and pages of twelve beside
 * one re-render of the same two scores and beside a re-render for each edit. */
#include "bench.h"

#include "chance.h"

#include <stdio.h>
#include <stdlib.h>

/* What is the most: microseconds of an edit, milliseconds of a list, microseconds of a page beyond its re-render. */
#define US_OF_EDIT 15.0
#define MS_OF_LIST 60.0
#define US_BEYOND 200.0

#define PAGE_EDITS 12
#define CALLS 50

static struct score room_of(size_t bytes) {
    struct score made = {malloc(bytes), 0};
    if (made.bytes) return made;
    fputs("bench: no memory\n", stderr);
    exit(2);
}

static void add_edit(struct score *edits, uint8_t code, const uint8_t *record) {
    uint8_t *at = edits->bytes + edits->len;
    memcpy(at, (uint8_t[]){0x45, 0x44, code, 0}, GAV_EDIT_BYTES - RECORD);
    memcpy(at + GAV_EDIT_BYTES - RECORD, record, RECORD);
    edits->len += GAV_EDIT_BYTES;
}

static inline uint32_t position_of(const uint8_t *record) {
    uint32_t position = 0;
    for (int i = 5; i > 1; i--) position = position << 8 | record[i];
    return position;
}

/* An edit in plain C: 02's words, and the C library's moves. */
static void edit_plainly(struct score *score, const uint8_t *edit) {
    const uint8_t *record = edit + GAV_EDIT_BYTES - RECORD;
    uint8_t *at = score->bytes, *end = at + score->len;
    if (edit[2] == GAV_INSERT) {
        while (at < end && position_of(at) <= position_of(record)) at += RECORD;
        memmove(at + RECORD, at, (size_t)(end - at));
        memcpy(at, record, RECORD);
        score->len += RECORD;
    } else {
        while (memcmp(at, record, RECORD) != 0) at += RECORD;
        memmove(at, at + RECORD, (size_t)(end - at) - RECORD);
        score->len -= RECORD;
    }
}

static void edit_all_plainly(const struct score *old, const struct score *edits, struct score *made) {
    memcpy(made->bytes, old->bytes, old->len);
    made->len = old->len;
    for (size_t at = 0; at < edits->len; at += GAV_EDIT_BYTES) edit_plainly(made, edits->bytes + at);
}

/* The scores of both are compared. */
static void same_score(struct bench *b, const char *who, const struct score *made, const struct score *plain) {
    char what[200];
    if (made->len == plain->len && memcmp(made->bytes, plain->bytes, made->len) == 0) return;
    snprintf(what, sizeof what, "%s: the new score is not the plain C's", who);
    differ(b, what);
}

/* Nanoseconds of the edits of a list alone, ours and plain: what the call takes beyond the same without an edit. The
 * edits leave the score as it was or change only what is not heard, so that no sample is made. */
struct cost {
    double ours, plain;
};

static double time_calls(struct bench *b, const struct score *old, const struct score *edits, struct score *made,
                         int calls) {
    double start = now();
    for (int k = 0; k < calls; k++) ours_edit(&b->settings, old, edits, b->out, b->samples, made);
    return (now() - start) / calls;
}

static struct cost time_list(struct bench *b, const char *name, const struct score *old, const struct score *edits,
                             int calls) {
    double ours[MOST_REPETITIONS], plain[MOST_REPETITIONS];
    struct score made = room_of(GAV_SCORE_BYTES), other = room_of(GAV_SCORE_BYTES);
    const struct score none = {edits->bytes, 0};
    for (size_t i = 0; i < b->repetitions; i++) {
        ours[i] = time_calls(b, old, edits, &made, calls) - time_calls(b, old, &none, &other, calls);
        double start = now();
        for (int k = 0; k < calls; k++) edit_all_plainly(old, edits, &other);
        plain[i] = (now() - start) / calls;
    }
    time_calls(b, old, edits, &made, 1);
    same_score(b, name, &made, &other);
    free(made.bytes);
    free(other.bytes);
    return (struct cost){median(ours, b->repetitions), median(plain, b->repetitions)};
}

/* 4,096 keys, none at the position of another, all past the end. */
static struct score full_score(const struct bench *b) {
    struct score full = room_of(GAV_SCORE_BYTES);
    for (uint32_t i = 0; i < MOST_RECORDS; i++) {
        put_record(full.bytes + full.len, (uint32_t)b->samples + 3 * i, i % 2 ? OFF : ON, (uint8_t)(36 + i % 48), 90);
        full.len += RECORD;
    }
    return full;
}

static void print_list(struct bench *b, const char *name, struct cost cost, double unit, double most) {
    printf("%-34s %9.2f %9.2f %12.2f <= %.0f %6s\n", name, cost.ours / unit, cost.plain / unit, cost.ours / unit, most,
           goal(b, cost.ours / unit, most));
}

/* A record out and in again, many times: each pair of edits is made at one place. */
static void measure_edit_at(struct bench *b, const char *name, const struct score *full, size_t record) {
    struct score edits = room_of(2 * CALLS * GAV_EDIT_BYTES);
    for (int k = 0; k < CALLS; k++) {
        add_edit(&edits, GAV_REMOVE, full->bytes + RECORD * record);
        add_edit(&edits, GAV_INSERT, full->bytes + RECORD * record);
    }
    struct cost cost = time_list(b, name, full, &edits, 4);
    print_list(b, name, (struct cost){cost.ours / (2 * CALLS), cost.plain / (2 * CALLS)}, 1e3, US_OF_EDIT);
    free(edits.bytes);
}

/* 2,048 records, chosen by chance, out and in again; and 4,096 records into none, in an order by chance. */
static void measure_lists(struct bench *b, const struct score *full) {
    struct chance chance = {b->seed};
    struct score moved = room_of(MOST_RECORDS * GAV_EDIT_BYTES), filled = room_of(MOST_RECORDS * GAV_EDIT_BYTES);
    const struct score none = {full->bytes, 0};
    for (int k = 0; k < MOST_RECORDS / 2; k++) {
        const uint8_t *record = full->bytes + RECORD * below(&chance, MOST_RECORDS);
        add_edit(&moved, GAV_REMOVE, record);
        add_edit(&moved, GAV_INSERT, record);
    }
    /* 2,731 and 4,096 have no common factor, so that every record comes once */
    for (size_t k = 0; k < MOST_RECORDS; k++)
        add_edit(&filled, GAV_INSERT, full->bytes + k * 2731 % MOST_RECORDS * RECORD);
    print_list(b, "2,048 records moved, of 4,096", time_list(b, "2,048 moved", full, &moved, 1), 1e6, MS_OF_LIST);
    print_list(b, "4,096 records into none", time_list(b, "4,096 put in", &none, &filled, 1), 1e6, MS_OF_LIST);
    free(moved.bytes);
    free(filled.bytes);
}

static void measure_costs(struct bench *b) {
    struct score full = full_score(b);
    puts("\npages of edits: what the edits of a list take beyond the same call without one; no sample is made");
    printf("%-34s %9s %9s\n", "an edit at 4,096 records, in us", "ours", "plain C");
    measure_edit_at(b, "the first record", &full, 0);
    measure_edit_at(b, "one in the middle", &full, MOST_RECORDS / 2);
    measure_edit_at(b, "the last record", &full, MOST_RECORDS - 1);
    printf("%-34s %9s %9s\n", "4,096 edits, in ms", "ours", "plain C");
    measure_lists(b, &full);
    free(full.bytes);
}

/* How a record is changed: the velocity of a release, which is not heard, or a key by some samples. */
typedef void change(uint8_t *record);

static void change_release(uint8_t *record) { record[8] ^= 1; }

static void drag_key(uint8_t *record) {
    put_record(record, record_position(record) + 1, (enum kind)record[6], record[7], record[8]);
}

/* Six records of a kind from a position on, each out and in again, changed; as many as there are. */
static struct score page_of(const struct score *score, enum kind kind, size_t position, change *change) {
    struct score edits = room_of(PAGE_EDITS * GAV_EDIT_BYTES);
    for (uint8_t *r = score->bytes; r < score->bytes + score->len; r += RECORD) {
        uint8_t record[RECORD];
        if (edits.len == PAGE_EDITS * GAV_EDIT_BYTES) break;
        if (record_position(r) < position || r[6] != kind) continue;
        memcpy(record, r, RECORD);
        change(record);
        add_edit(&edits, GAV_REMOVE, r);
        add_edit(&edits, GAV_INSERT, record);
    }
    return edits;
}

/* What is written by the page, and by the way back, is compared with the plain C's renders. */
static struct stretch compare_page(struct bench *b, const char *name, const struct score *edits, struct score *made) {
    struct score plain = room_of(GAV_SCORE_BYTES);
    edit_all_plainly(&b->score, edits, &plain);
    struct stretch due = due_stretch(b, &b->score, &plain);
    if (ours_edit(&b->settings, &b->score, edits, b->out, b->samples, made) != due.to - due.from) {
        differ(b, "the count of a page");
    }
    same_score(b, name, made, &plain);
    same_bits(b, "the page", name);
    same_shelf(b, "the page", name);
    same_peaks(b, "the page", name);
    ours_rerender(&b->settings, made, &b->score, b->out, b->samples);
    free(plain.bytes);
    return due;
}

/* Nanoseconds of the page, of one re-render of its two scores, and of a re-render for each edit; after each one the
 * sound is brought back, which is not counted. */
struct page_times {
    double page, whole, each;
};

static double time_back(struct bench *b, const struct score *made, double start) {
    double took = now() - start;
    ours_rerender(&b->settings, made, &b->score, b->out, b->samples);
    return took;
}

static double time_each(struct bench *b, const struct score *edits) {
    struct score before = room_of(GAV_SCORE_BYTES), after = room_of(GAV_SCORE_BYTES);
    double took = 0;
    memcpy(after.bytes, b->score.bytes, after.len = b->score.len);
    for (size_t at = 0; at < edits->len; at += GAV_EDIT_BYTES) {
        memcpy(before.bytes, after.bytes, before.len = after.len);
        edit_plainly(&after, edits->bytes + at);
        double start = now();
        ours_rerender(&b->settings, &before, &after, b->out, b->samples);
        took += now() - start;
    }
    time_back(b, &after, now());
    free(before.bytes);
    free(after.bytes);
    return took;
}

static struct page_times time_page(struct bench *b, const struct score *edits, struct score *made) {
    struct page_times times;
    double start = now();
    ours_rerender(&b->settings, &b->score, made, b->out, b->samples);
    times.whole = time_back(b, made, start);
    start = now();
    ours_edit(&b->settings, &b->score, edits, b->out, b->samples, made);
    times.page = time_back(b, made, start);
    start = now();
    ours_rerender(&b->settings, &b->score, made, b->out, b->samples);
    times.whole = (times.whole + time_back(b, made, start)) / 2;
    times.each = time_each(b, edits);
    return times;
}

static void measure_page(struct bench *b, const char *name, struct score edits) {
    double page[MOST_REPETITIONS], whole[MOST_REPETITIONS], each[MOST_REPETITIONS], beyond[MOST_REPETITIONS];
    struct score made = room_of(GAV_SCORE_BYTES);
    const size_t n = b->repetitions;
    struct stretch due = compare_page(b, name, &edits, &made);
    for (size_t i = 0; i < n; i++) {
        struct page_times times = time_page(b, &edits, &made);
        page[i] = times.page;
        whole[i] = times.whole;
        each[i] = times.each;
        beyond[i] = times.page - times.whole;
    }
    double more = median(beyond, n) / 1e3;
    printf("%-34s %5zu %9zu %10.1f %10.1f %12.1f %8.1f <= %.0f %6s\n", name, edits.len / GAV_EDIT_BYTES,
           due.to - due.from, median(page, n) / 1e3, median(whole, n) / 1e3, median(each, n) / 1e3, more, US_BEYOND,
           goal(b, more, US_BEYOND));
    free(made.bytes);
    free(edits.bytes);
}

/* Of a score of 4,096 records too, in which an edit takes longest. */
static void measure_twelves(struct bench *b, size_t records) {
    b->score = make_score(b->seed, USUAL_KEYS, records, b->samples);
    ours_render(&b->settings, &b->score, b->out, b->samples);
    printf("%zu records\n", records);
    measure_page(b, "releases, in the middle", page_of(&b->score, OFF, b->samples / 2, change_release));
    measure_page(b, "releases, at the start", page_of(&b->score, OFF, 0, change_release));
    measure_page(b, "keys dragged, near the end", page_of(&b->score, ON, b->samples / 16 * 15, drag_key));
    measure_page(b, "keys dragged, in the middle", page_of(&b->score, ON, b->samples / 2, drag_key));
    free(b->score.bytes);
}

void measure_pages(struct bench *b) {
    const struct score score = b->score;
    b->settings.code = GAV_SAWTOOTH;
    measure_costs(b);
    puts("\npages of twelve edits, sawtooth, beside one re-render of the same two scores, and one for each edit");
    printf("%-34s %5s %9s %10s %10s %12s %20s\n", "", "edits", "samples", "us, page", "us, one", "us, for each",
           "us beyond the one");
    measure_twelves(b, b->records);
    measure_twelves(b, MOST_RECORDS);
    b->score = score;
}
