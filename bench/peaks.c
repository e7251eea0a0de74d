/* What the peaks cost: a render, which has them, beside one continuing call of the same samples, which has none; on the
 * pad, whose level is mostly steady, and with an attack so long that the level rises nearly all the time, so that
 * sample after sample is a section's largest so far. */
#include "bench.h"

#include <stdio.h>

static const struct rise {
    const char *name;
    double attack; /* seconds; 0 is the pad's own */
    double most;   /* times the continuing call */
} RISES[] = {
    {"the pad", 0.0, 1.10},
    {"attack 10 s", 10.0, 1.45},
};
#define RISES_COUNT (sizeof RISES / sizeof *RISES)

/* Nanoseconds a sample of both, and how many times as long the render took, turn by turn. */
struct cost {
    double continuing, render, ratio;
};

static void compare(struct bench *b) {
    plain_render(&b->settings, &b->score, b->reference, b->samples);
    spoil_peaks(b);
    render_time(b);
    same_bits(b, "ours, with peaks", WAVES[b->settings.code]);
    same_peaks(b, "ours", WAVES[b->settings.code]);
    continue_time(b, b->samples);
    same_bits(b, "one continuing call", WAVES[b->settings.code]);
}

static struct cost measure(struct bench *b) {
    double continuing[MOST_REPETITIONS], render[MOST_REPETITIONS], ratio[MOST_REPETITIONS];
    const size_t n = b->repetitions;
    for (size_t i = 0; i < n; i++) {
        continuing[i] = continue_time(b, b->samples) / (double)b->samples;
        render[i] = render_time(b) / (double)b->samples;
        ratio[i] = render[i] / continuing[i];
    }
    return (struct cost){median(continuing, n), median(render, n), median(ratio, n)};
}

static void print_wave(struct bench *b, const struct cost *costs) {
    printf("%-12s", WAVES[b->settings.code]);
    for (size_t i = 0; i < RISES_COUNT; i++) {
        double most = RISES[i].most;
        printf(" %10.2f %9.2f %5.2f <= %.2f %6s", costs[i].continuing, costs[i].render, costs[i].ratio, most,
               goal(b, costs[i].ratio, most));
    }
    putchar('\n');
}

void measure_peaks(struct bench *b) {
    const struct gav_settings settings = b->settings;
    puts("\npeaks: ns a sample of one continuing call, which has none, and of a render, and how many times as long");
    printf("%-12s", "");
    for (size_t i = 0; i < RISES_COUNT; i++) printf(" %41s", RISES[i].name);
    putchar('\n');
    for (uint32_t code = 0; code < CODES; code++) {
        if (!WAVES[code]) continue;
        struct cost costs[RISES_COUNT];
        b->settings.code = code;
        for (size_t i = 0; i < RISES_COUNT; i++) {
            b->settings.attack = RISES[i].attack > 0.0 ? RISES[i].attack : settings.attack;
            compare(b);
            costs[i] = measure(b);
        }
        print_wave(b, costs);
    }
    b->settings = settings;
}
