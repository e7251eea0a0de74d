/* Whole renders: every contender on every waveform that it has, turn by turn, so that what disturbs one disturbs the
 * others, and then the rounded triangle beside the triangle; of keys in the middle, of high ones, and at the lowest
 * rate, where a cycle has few samples. */
#include "bench.h"

#include <math.h>
#include <stdio.h>
#include <stdlib.h>

enum { OURS, ORIGINAL, PLAIN, BEST, WRITING, CONTENDERS };

/* What is played, and how much of the best C's time is the goal; of a sine it is SINE_OF_BEST at most. */
static const struct range {
    const char *name;
    uint32_t rate;
    struct keys keys;
    double of_best;
} RANGES[] = {
    {"notes 36 to 83", 48000, {36, 48}, 1.3},
    {"notes 96 to 127", 48000, {96, 32}, 1.15},
    {"notes 36 to 83", 8000, {36, 48}, 1.15},
};
#define SINE_OF_BEST 1.15
#define OF_ORIGINAL 0.5
#define ROUNDED_OF_TRIANGLE 1.05

static void the_original(const struct gav_settings *settings, const struct score *score, double *out, size_t n) {
    original_render(settings, score->bytes, score->len, out, n);
}

static render *const RENDERS[CONTENDERS] = {ours_render, the_original, plain_render, best_render, floor_render};
static const char *const NAMES[CONTENDERS] = {"ours", "the original", "the plain C", "the best C", "the floor"};

/* The original and the best C have no rounded triangle. */
static bool is_here(int who, uint32_t code) {
    if (who == ORIGINAL && !original_is_here) return false;
    return code != GAV_ROUNDED_TRIANGLE || (who != ORIGINAL && who != BEST);
}

/* One render over rubbish, so that a sample that is not written is seen. */
static double time_of(struct bench *b, int who) {
    memset(b->out, 0xa5, b->samples * sizeof *b->out);
    double start = now();
    RENDERS[who](&b->settings, &b->score, b->out, b->samples);
    return now() - start;
}

double render_time(struct bench *b) { return time_of(b, OURS); }

/* The original's sine is its own: how far it is from ours. */
static double farthest(const struct bench *b) {
    double most = 0.0;
    for (size_t i = 0; i < b->samples; i++) most = fmax(most, fabs(b->out[i] - b->reference[i]));
    return most;
}

static void compare(struct bench *b, int who) {
    if (who == ORIGINAL && b->settings.code == GAV_SINE) {
        if (!(farthest(b) < 0.000001)) differ(b, "the original's sine is a millionth or more from ours");
    } else if (who != WRITING) {
        same_bits(b, NAMES[who], WAVES[b->settings.code]);
    }
}

static void measure_wave(struct bench *b, double *ns) {
    const uint32_t code = b->settings.code;
    double times[CONTENDERS][MOST_REPETITIONS];
    plain_render(&b->settings, &b->score, b->reference, b->samples);
    for (size_t i = 0; i < b->repetitions; i++) {
        for (int who = 0; who < CONTENDERS; who++) {
            if (!is_here(who, code)) continue;
            times[who][i] = time_of(b, who) / (double)b->samples;
            if (i == 0) compare(b, who);
        }
    }
    for (int who = 0; who < CONTENDERS; who++) ns[who] = is_here(who, code) ? median(times[who], b->repetitions) : 0.0;
}

static void print_times(double ns[CODES][CONTENDERS]) {
    printf("%-12s %9s %9s %9s %9s %9s\n", "ns a sample", "ours", "original", "plain C", "best C", "floor");
    for (uint32_t code = 0; code < CODES; code++) {
        if (!WAVES[code]) continue;
        printf("%-12s", WAVES[code]);
        for (int who = 0; who < CONTENDERS; who++) {
            is_here(who, code) ? printf(" %9.2f", ns[code][who]) : printf(" %9s", "-");
        }
        putchar('\n');
    }
}

static void print_ratio(struct bench *b, double ratio, double most) {
    printf(" %8.2f <= %.2f %6s", ratio, most, goal(b, ratio, most));
}

static void print_ratios(struct bench *b, const struct range *range, double ns[CODES][CONTENDERS]) {
    printf("\n%-12s %23s %23s %9s %9s\n", "ratios", "ours / original", "ours / best C", "ours / pl", "best / pl");
    for (uint32_t code = 0; code < CODES; code++) {
        if (!WAVES[code]) continue;
        double *t = ns[code], of_best = code == GAV_SINE ? SINE_OF_BEST : range->of_best;
        bool original = is_here(ORIGINAL, code), best = is_here(BEST, code);
        printf("%-12s", WAVES[code]);
        original ? print_ratio(b, t[OURS] / t[ORIGINAL], OF_ORIGINAL) : (void)printf(" %23s", "-");
        best ? print_ratio(b, t[OURS] / t[BEST], of_best) : (void)printf(" %23s", "-");
        printf(" %9.2f", t[OURS] / t[PLAIN]);
        best ? printf(" %9.2f\n", t[BEST] / t[PLAIN]) : printf(" %9s\n", "-");
    }
}

/* Turn by turn, as the two take nearly the same time. */
static void measure_rounded(struct bench *b) {
    double ratios[MOST_REPETITIONS];
    for (size_t i = 0; i < b->repetitions; i++) {
        b->settings.code = GAV_TRIANGLE;
        double triangle = time_of(b, OURS);
        b->settings.code = GAV_ROUNDED_TRIANGLE;
        ratios[i] = time_of(b, OURS) / triangle;
    }
    printf("%-36s", "ours, rounded / triangle");
    print_ratio(b, median(ratios, b->repetitions), ROUNDED_OF_TRIANGLE);
    putchar('\n');
}

static void print_range(const struct bench *b, const struct range *range) {
    size_t sounding = 0;
    for (size_t i = 0; i < b->samples; i++) sounding += b->reference[i] != 0.0;
    printf("\n%s at %u Hz: %zu samples of %zu records (seed %llu); %.0f %% of the samples sound; median of %zu\n\n",
           range->name, (unsigned)range->rate, b->samples, b->records, (unsigned long long)b->seed,
           100.0 * (double)sounding / (double)b->samples, b->repetitions);
}

/* The bench has another rate and score while a range is measured. */
static void measure_range(struct bench *b, const struct range *range) {
    const struct gav_settings settings = b->settings;
    const struct score score = b->score;
    double ns[CODES][CONTENDERS];
    b->settings.rate = range->rate;
    b->score = make_score(b->seed, range->keys, b->records, b->samples);
    for (uint32_t code = 0; code < CODES; code++) {
        if (!WAVES[code]) continue;
        b->settings.code = code;
        measure_wave(b, ns[code]);
    }
    print_range(b, range);
    print_times(ns);
    print_ratios(b, range, ns);
    measure_rounded(b);
    free(b->score.bytes);
    b->settings = settings;
    b->score = score;
}

void measure_renders(struct bench *b) {
    for (size_t i = 0; i < sizeof RANGES / sizeof *RANGES; i++) measure_range(b, &RANGES[i]);
}
