/* A player's buffers: the same render by continuing calls, each of which owes the check of the whole score. */
#include "bench.h"

#include <stdio.h>

/* Over rubbish, so that a sample that is not written is seen. */
double continue_time(struct bench *b, size_t part) {
    memset(b->out, 0xa5, b->samples * sizeof *b->out);
    double start = now();
    ours_continue(&b->settings, &b->score, b->out, b->samples, part);
    return now() - start;
}

/* Nanoseconds of a call, and of what it takes beyond its samples, at the pace of one call for all of them, and one
 * check. All three are measured in turn, so that a slower moment of the machine is in each of them. */
struct cost {
    double call, beyond;
};

static struct cost measure_parts(struct bench *b, size_t part) {
    double call[MOST_REPETITIONS], beyond[MOST_REPETITIONS];
    double calls = (double)((b->samples + part - 1) / part);
    for (size_t i = 0; i < b->repetitions; i++) {
        double check = check_time(&b->score, gav_check_score, 1), whole = continue_time(b, b->samples);
        double took = continue_time(b, part);
        call[i] = took / calls;
        beyond[i] = (took - whole) / calls - check;
    }
    same_bits(b, "the continuing calls", WAVES[b->settings.code]);
    return (struct cost){median(call, b->repetitions), median(beyond, b->repetitions)};
}

void measure_continuing(struct bench *b) {
    static const size_t PARTS[] = {17, 64, 256};
    b->settings.code = GAV_SAWTOOTH;
    plain_render(&b->settings, &b->score, b->reference, b->samples);
    printf("\ncontinuing calls, sawtooth; one check of the score takes %.2f us\n",
           check_time(&b->score, gav_check_score, b->repetitions) / 1e3);
    printf("%-12s %12s %12s %36s\n", "buffer", "ns a sample", "us a call", "us beyond samples and check, <= 0.50");
    for (size_t i = 0; i < sizeof PARTS / sizeof *PARTS; i++) {
        struct cost cost = measure_parts(b, PARTS[i]);
        printf("%-12zu %12.2f %12.3f %29.3f %6s\n", PARTS[i], cost.call / (double)PARTS[i], cost.call / 1e3,
               cost.beyond / 1e3, goal(b, cost.beyond / 1e3, 0.5));
    }
}
