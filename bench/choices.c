/* Renders with one choice of settings beside the same render with another, waveform by waveform and turn by turn: with
 * tremolos beside none, and with joined notes beside struck ones. */
#include "bench.h"

#include <stdio.h>
#include <stdlib.h>

#define MOST_CHOICES 4

/* Settings, and how many times the render with the first of them is the goal; of that render itself there is none. */
struct choices {
    const char *what, *than;
    size_t count;
    struct choice {
        const char *name;
        uint32_t lfo_code;
        double lfo_frequency, lfo_depth;
        uint32_t joined;
        double most;
    } of[MOST_CHOICES];
};

static const struct choices TREMOLOS = {
    "tremolo",
    "without one",
    4,
    {
        {"none", GAV_SINE, 0.0, 0.0, GAV_STRUCK, 0.0},
        {"5 Hz, depth 0", GAV_SINE, 5.0, 0.0, GAV_STRUCK, 1.3},
        {"triangle 5 Hz, depth 1", GAV_TRIANGLE, 5.0, 1.0, GAV_STRUCK, 1.5},
        {"sine 5 Hz, depth 1", GAV_SINE, 5.0, 1.0, GAV_STRUCK, 1.9},
    },
};

static const struct choices KEYINGS = {
    "notes",
    "struck ones",
    2,
    {
        {"struck", GAV_SINE, 0.0, 0.0, GAV_STRUCK, 0.0},
        {"joined", GAV_SINE, 0.0, 0.0, GAV_JOINED, 1.01},
    },
};

static void choose(struct bench *b, const struct choice *choice) {
    b->settings.lfo_code = choice->lfo_code;
    b->settings.lfo_frequency = choice->lfo_frequency;
    b->settings.lfo_depth = choice->lfo_depth;
    b->settings.joined = choice->joined;
}

/* The bits of each, beside the plain C's. */
static void compare(struct bench *b, const struct choices *choices) {
    for (size_t i = 0; i < choices->count; i++) {
        char who[64];
        choose(b, &choices->of[i]);
        plain_render(&b->settings, &b->score, b->reference, b->samples);
        render_time(b);
        snprintf(who, sizeof who, "ours, %s %s", choices->what, choices->of[i].name);
        same_bits(b, who, WAVES[b->settings.code]);
    }
}

/* Nanoseconds a sample, and the ratio to the render with the first choice of the same turn. */
static void measure_wave(struct bench *b, const struct choices *choices, double *ns, double *ratio) {
    double times[MOST_CHOICES][MOST_REPETITIONS], ratios[MOST_CHOICES][MOST_REPETITIONS];
    for (size_t k = 0; k < b->repetitions * choices->count; k++) {
        size_t turn = k / choices->count, i = k % choices->count;
        choose(b, &choices->of[i]);
        times[i][turn] = render_time(b) / (double)b->samples;
        ratios[i][turn] = times[i][turn] / times[0][turn];
    }
    for (size_t i = 0; i < choices->count; i++) {
        ns[i] = median(times[i], b->repetitions);
        ratio[i] = median(ratios[i], b->repetitions);
    }
}

static void print_wave(struct bench *b, const struct choices *choices, const double *ns, const double *ratio) {
    printf("%-12s %6.2f", WAVES[b->settings.code], ns[0]);
    for (size_t i = 1; i < choices->count; i++) {
        double most = choices->of[i].most;
        printf(" %9.2f %5.2f <= %.2f %6s", ns[i], ratio[i], most, goal(b, ratio[i], most));
    }
    putchar('\n');
}

static void measure_choices(struct bench *b, const struct choices *choices) {
    const struct gav_settings settings = b->settings;
    double ns[MOST_CHOICES], ratio[MOST_CHOICES];
    printf("\n%s: ns a sample, and how many times as long as %s\n%-12s %6s", choices->what, choices->than, "",
           choices->of[0].name);
    for (size_t i = 1; i < choices->count; i++) printf(" %31s", choices->of[i].name);
    putchar('\n');
    for (uint32_t code = 0; code < CODES; code++) {
        if (!WAVES[code]) continue;
        b->settings.code = code;
        compare(b, choices);
        measure_wave(b, choices, ns, ratio);
        print_wave(b, choices, ns, ratio);
    }
    b->settings = settings;
}

void measure_tremolos(struct bench *b) { measure_choices(b, &TREMOLOS); }

/* Of a score with as many records as there may be, most of whose keys are pressed while another is held. */
void measure_keyings(struct bench *b) {
    const struct score score = b->score;
    b->score = make_score(b->seed, USUAL_KEYS, MOST_RECORDS, b->samples);
    measure_choices(b, &KEYINGS);
    free(b->score.bytes);
    b->score = score;
}
