/* Goals met and missed, and bits that differ: the one thing that makes the exit status 1. */
#include "bench.h"

#include <stdio.h>
#include <string.h>

const char *const WAVES[CODES] = {
    [GAV_SINE] = "sine",         [GAV_SQUARE] = "square",    [GAV_SAWTOOTH] = "sawtooth",
    [GAV_TRIANGLE] = "triangle", [GAV_PULSE] = "pulse 0.25", [GAV_ROUNDED_TRIANGLE] = "rounded",
};

const char *goal(struct bench *bench, double value, double most) {
    bool met = value <= most;
    met ? bench->met++ : bench->missed++;
    return met ? "met" : "missed";
}

void differ(struct bench *bench, const char *what) {
    bench->differences++;
    printf("DIFFERENT: %s\n", what);
}

/* By bits: 0 and -0 are two numbers here. */
void same_bits(struct bench *bench, const char *who, const char *wave) {
    char what[200];
    size_t i = 0;
    while (i < bench->samples && memcmp(bench->out + i, bench->reference + i, sizeof *bench->out) == 0) i++;
    if (i == bench->samples) return;
    snprintf(what, sizeof what, "%s, %s: sample %zu is %a, of the plain C %a", who, wave, i, bench->out[i],
             bench->reference[i]);
    differ(bench, what);
}

void report_end(const struct bench *bench) {
    printf("\ngoals: %u met, %u missed\n", bench->met, bench->missed);
    if (bench->differences > 0) {
        printf("bits: %u DIFFERENCES, named above\n", bench->differences);
    } else {
        puts("bits: every render wrote the same ones, the sine of the original excepted, which is another one");
    }
}
