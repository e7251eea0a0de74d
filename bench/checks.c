/* Scores of 4,096 records: their check and the comparison of two, beside plain C ones. */
#include "bench.h"

#include <stdio.h>
#include <stdlib.h>

#define CALLS 200

double check_time(const struct score *score, uint64_t check(const uint8_t *, size_t), size_t repetitions) {
    double times[MOST_REPETITIONS];
    for (size_t i = 0; i < repetitions; i++) {
        double start = now();
        for (int k = 0; k < CALLS; k++) check(score->bytes, score->len);
        times[i] = (now() - start) / CALLS;
    }
    return median(times, repetitions);
}

/* No call makes the comparison alone: a re-render of two equal scores makes two checks and the comparison, and nothing
 * else. */
static double comparison_time(struct bench *b, const struct score *one, const struct score *other) {
    double times[MOST_REPETITIONS];
    for (size_t i = 0; i < b->repetitions; i++) {
        double checks = check_time(one, gav_check_score, 1) + check_time(other, gav_check_score, 1), start = now();
        for (int k = 0; k < CALLS; k++) ours_rerender(&b->settings, one, other, b->out, b->samples);
        times[i] = (now() - start) / CALLS - checks;
    }
    return median(times, b->repetitions);
}

static double plain_comparison_time(struct bench *b, const struct score *one, const struct score *other) {
    double times[MOST_REPETITIONS];
    for (size_t i = 0; i < b->repetitions; i++) {
        double start = now();
        for (int k = 0; k < CALLS; k++) first_change(one->bytes, one->len, other->bytes, other->len);
        times[i] = (now() - start) / CALLS;
    }
    return median(times, b->repetitions);
}

/* Each byte of a record in the middle is spoilt in turn: both checks answer the same. */
static void compare_answers(struct bench *b, struct score *score) {
    uint8_t *record = score->bytes + score->len / RECORD / 2 * RECORD;
    for (int at = -1; at < RECORD; at++) {
        if (at >= 0) record[at] ^= 0x84;
        if (gav_check_score(score->bytes, score->len) != reference_check_score(score->bytes, score->len)) {
            differ(b, "the answers of the two checks");
        }
        if (at >= 0) record[at] ^= 0x84;
    }
}

void measure_scores(struct bench *b) {
    struct score one = make_score(b->seed + 1, USUAL_KEYS, 4096, b->samples), other = copy_score(&one, 0);
    compare_answers(b, &one);
    double ours = check_time(&one, gav_check_score, b->repetitions);
    double plain = check_time(&one, reference_check_score, b->repetitions);
    double apart = comparison_time(b, &one, &other), plain_apart = plain_comparison_time(b, &one, &other);
    printf("\n%-32s %9s %9s %22s\n", "scores of 4,096 records, in us", "ours", "plain C", "ours / plain C");
    printf("%-32s %9.2f %9.2f %15.2f %6s   at most 1.00\n", "check", ours / 1e3, plain / 1e3, ours / plain,
           goal(b, ours / plain, 1.0));
    printf("%-32s %9.2f %9.2f %15.2f\n", "comparison of two equal ones", apart / 1e3, plain_apart / 1e3,
           apart / plain_apart);
    puts("  (ours: a re-render of the two, which writes nothing, less two checks)");
    free(one.bytes);
    free(other.bytes);
}
