/* Re-renders of the sawtooth, there and back again, of keys in the middle and of high ones: to the end, with an entry
 * compared at every section and with none, and with a stop. */
#include "bench.h"

#include <stdio.h>
#include <stdlib.h>

/* What is the most: times what is owed; times the same of the same library without a comparison, which says nothing of
 * an earlier library; microseconds for counting the records of 4,096 entries anew. */
#define OF_OWED 1.05
#define OF_NOT_COMPARED 1.01
#define US_OF_COUNTS 20.0

/* The records of a chord: a reset and fourteen keys, of which the thirteenth is in the last word of the keys. */
#define CHORD 15

static const struct range {
    const char *name;
    struct keys keys;
} RANGES[] = {
    {"notes 36 to 83", {36, 48}},
    {"notes 96 to 127", {96, 32}},
};

/* The first record of a kind at or after a position gets another velocity; with none there, the score stays. */
static void change_velocity(struct score *score, uint8_t kind, size_t position) {
    for (uint8_t *r = score->bytes; r < score->bytes + score->len; r += RECORD) {
        if (record_position(r) < position || r[6] != kind) continue;
        r[8] ^= 1;
        return;
    }
}

/* A copy whose last record is a key that is struck at the last sample, so that nothing can stop a re-render before. */
static struct score with_end(const struct bench *b, const struct score *score) {
    struct score edited = copy_score(score, RECORD);
    put_record(edited.bytes + score->len, (uint32_t)(b->samples - 1), ON, 60, 100);
    return edited;
}

static struct score with_velocity(const struct score *score, uint8_t kind, size_t position) {
    struct score edited = copy_score(score, 0);
    change_velocity(&edited, kind, position);
    return edited;
}

/* Nanoseconds of a re-render, half of them from the score to the edited one and half of them back. */
static double time_edit(struct bench *b, const struct score *edited, size_t pairs) {
    double start = now();
    for (size_t k = 0; k < pairs; k++) {
        ours_rerender(&b->settings, &b->score, edited, b->out, b->samples);
        ours_rerender(&b->settings, edited, &b->score, b->out, b->samples);
    }
    return (now() - start) / (double)(2 * pairs);
}

/* Nanoseconds of some samples: those of one continuing call, less its check. */
static double time_samples(struct bench *b, struct stretch made, size_t rounds) {
    double start = now();
    for (size_t k = 0; k < rounds; k++) ours_from(&b->settings, &b->score, b->out, made.from, made.to - made.from);
    return (now() - start) / (double)rounds - check_time(&b->score, gav_check_score, 1);
}

/* Nanoseconds of the entries and peaks of so many samples: what a render of all takes beyond one continuing call, which
 * has neither, as their share. */
static double time_kept(struct bench *b, size_t count) {
    double whole = continue_time(b, b->samples);
    return (render_time(b) - whole) * (double)count / (double)b->samples;
}

static void compare_with_plain(struct bench *b, const char *who, const char *where) {
    same_bits(b, who, where);
    same_shelf(b, who, where);
    same_peaks(b, who, where);
}

/* What is written there and back again is compared with the plain C's renders, and the count with what they say. */
static struct stretch compare_edit(struct bench *b, const char *where, const struct score *edited) {
    struct stretch made = due_stretch(b, &b->score, edited);
    size_t count = ours_rerender(&b->settings, &b->score, edited, b->out, b->samples);
    if (count != made.to - made.from) differ(b, "the count of a re-render");
    compare_with_plain(b, "the re-render", where);
    struct stretch back = due_stretch(b, edited, &b->score);
    count = ours_rerender(&b->settings, edited, &b->score, b->out, b->samples);
    if (count != back.to - back.from) differ(b, "the count of a re-render back");
    compare_with_plain(b, "the re-render back", where);
    return made;
}

/* Out, shelf and peaks hold the score's render, before and after. The samples alone, what is kept of them, and a
 * re-render of two equal scores, which makes two checks and a comparison and nothing else, are measured in turn. What
 * the counts may take is added to the most. */
static void measure_edit(struct bench *b, const char *where, struct score edited) {
    double took[MOST_REPETITIONS], owed[MOST_REPETITIONS], ratio[MOST_REPETITIONS];
    struct stretch made = compare_edit(b, where, &edited);
    size_t n = b->repetitions, count = made.to - made.from, rounds = count < 100000 ? 200 : 1;
    size_t counts = gav_sections(b->samples) - gav_sections(made.to);
    for (size_t i = 0; i < n && count > 0; i++) {
        owed[i] = time_samples(b, made, 2 * rounds) + time_kept(b, count) + time_edit(b, &b->score, 200);
        took[i] = time_edit(b, &edited, rounds);
        ratio[i] = took[i] / owed[i];
    }
    free(edited.bytes);
    if (count == 0) {
        printf("%-24s no such record\n", where);
        return;
    }
    double times = median(ratio, n), of = median(owed, n);
    double most = OF_OWED + US_OF_COUNTS * 1e3 * (double)counts / 4096.0 / of;
    printf("%-24s %9zu %7zu %10.1f %10.1f %7.2f <= %.2f %6s\n", where, count, counts, median(took, n) / 1e3, of / 1e3,
           times, most, goal(b, times, most));
}

/* The resets are releases of a key that is up. */
static void lift_no_keys(struct score *score) {
    for (uint8_t *r = score->bytes; r < score->bytes + score->len; r += RECORD) {
        if (r[6] == RESET) put_record(r, record_position(r), OFF, CHORD, 0);
    }
}

/* All keys are lifted by a reset, and fourteen, below those of every range, go down. */
static void put_chord(uint8_t *at, uint32_t position) {
    put_record(at, position, RESET, 0, 0);
    for (uint8_t i = 1; i < CHORD; i++) put_record(at + i * RECORD, position, ON, i, 100);
}

/* The chord at a position, whose keys stay down. */
static struct score with_chord(const struct score *tune, uint32_t position) {
    struct score held = copy_score(tune, CHORD * RECORD);
    size_t at = 0;
    while (at < tune->len && record_position(tune->bytes + at) < position) at += RECORD;
    memcpy(held.bytes + at + CHORD * RECORD, tune->bytes + at, tune->len - at);
    lift_no_keys(&held);
    put_chord(held.bytes + at, position);
    return held;
}

/* The thirteenth of those keys gets another velocity, which is never heard. */
static struct score with_thirteenth(const struct score *score) {
    struct score other = copy_score(score, 0);
    for (uint8_t *r = other.bytes; r < other.bytes + other.len; r += RECORD) r[8] ^= r[7] == 13 && r[6] == ON;
    return other;
}

/* That edit, after which every later entry differs in its word 11 alone. Beside it, the same edit with one at the end,
 * before which nothing is compared. */
static void measure_comparison(struct bench *b, const char *name) {
    double plain[MOST_REPETITIONS], compared[MOST_REPETITIONS], ratio[MOST_REPETITIONS];
    struct score other = with_thirteenth(&b->score);
    struct score both = with_end(b, &other);
    struct stretch made = compare_edit(b, name, &other);
    compare_edit(b, name, &both);
    if (made.to != b->samples) differ(b, "a re-render that should go on to the end");
    for (size_t i = 0; i < b->repetitions; i++) {
        plain[i] = time_edit(b, &both, 1);
        compared[i] = time_edit(b, &other, 2);
        plain[i] = (plain[i] + time_edit(b, &both, 1)) / 2.0;
        ratio[i] = compared[i] / plain[i];
    }
    double times = median(ratio, b->repetitions);
    printf("%-24s %9zu %18.1f %18.1f %8.3f %6s\n", name, made.to - made.from, median(plain, b->repetitions) / 1e3,
           median(compared, b->repetitions) / 1e3, times, goal(b, times, OF_NOT_COMPARED));
    free(other.bytes);
    free(both.bytes);
}

/* The edits that go on to the end, and those that stop: a release's velocity, which is not heard, is over at the next
 * section, and a key's with a later key. */
static void measure_range(struct bench *b, const char *name) {
    ours_render(&b->settings, &b->score, b->out, b->samples);
    printf("%-24s %9s %7s %10s %10s %22s\n", name, "samples", "counts", "us", "us owed", "ratio");
    struct score middle = with_velocity(&b->score, ON, b->samples / 2);
    measure_edit(b, "the last section", with_end(b, &b->score));
    measure_edit(b, "middle to end", with_end(b, &middle));
    measure_edit(b, "a release, at the start", with_velocity(&b->score, OFF, 0));
    measure_edit(b, "a release, in the middle", with_velocity(&b->score, OFF, b->samples / 2));
    measure_edit(b, "a key, in the middle", with_velocity(&b->score, ON, b->samples / 2));
    free(middle.bytes);
}

static void measure_ranges(struct bench *b) {
    puts("\nre-renders, sawtooth; owed: the same samples by one continuing call, their entries and peaks (what a "
         "render\n"
         "takes beyond that call), two checks and the comparison (as a re-render of two equal scores). The ratio is at "
         "most\n"
         "1.05, and where a re-render stops, 20 us more for each 4,096 entries whose records are counted anew");
    for (size_t i = 0; i < sizeof RANGES / sizeof *RANGES; i++) {
        b->score = make_score(b->seed, RANGES[i].keys, b->records, b->samples);
        measure_range(b, RANGES[i].name);
        free(b->score.bytes);
    }
}

static void measure_comparisons(struct bench *b) {
    puts("what comparing costs within this library: re-renders that go on to the end, with no entry compared and with\n"
         "all, of which a word differs. How long they take beside an earlier library is measured apart");
    printf("%-24s %9s %18s %18s %15s\n", "", "samples", "us, none compared", "us, all compared", "ratio, <= 1.010");
    for (size_t i = 0; i < sizeof RANGES / sizeof *RANGES; i++) {
        size_t records = b->records + CHORD < MOST_RECORDS ? b->records : MOST_RECORDS - 1 - CHORD;
        struct score tune = make_score(b->seed, RANGES[i].keys, records, b->samples);
        b->score = with_chord(&tune, (uint32_t)(b->samples / 2));
        ours_render(&b->settings, &b->score, b->out, b->samples);
        measure_comparison(b, RANGES[i].name);
        free(tune.bytes);
        free(b->score.bytes);
    }
}

void measure_edits(struct bench *b) {
    const struct score score = b->score;
    b->settings.code = GAV_SAWTOOTH;
    measure_ranges(b);
    measure_comparisons(b);
    b->score = score;
}
