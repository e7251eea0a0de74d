/* Measures the library beside the original and C, and compares what they write. bench/run builds and starts it. */
#include "bench.h"

#include <stdio.h>
#include <stdlib.h>
#include <string.h>

static int usage(void) {
    fputs("bench: wrong usage: see bench/run --help\n", stderr);
    return 2;
}

/* A whole number between two bounds, and nothing else in the word. */
static bool read_number(const char *text, uint64_t least, uint64_t most, uint64_t *value) {
    char *end;
    if (*text < '0' || *text > '9') return false;
    *value = strtoull(text, &end, 10);
    return *end == '\0' && *value >= least && *value <= most;
}

static bool read_option(const char *name, const char *text, struct bench *b) {
    uint64_t value;
    if (strcmp(name, "--samples") == 0 && read_number(text, 4096, GAV_MOST_SAMPLES, &value)) {
        b->samples = (size_t)value;
    } else if (strcmp(name, "--records") == 0 && read_number(text, 1, 4095, &value)) {
        b->records = (size_t)value;
    } else if (strcmp(name, "--seed") == 0 && read_number(text, 0, UINT64_MAX, &value)) {
        b->seed = value;
    } else if (strcmp(name, "--repetitions") == 0 && read_number(text, 1, MOST_REPETITIONS, &value)) {
        b->repetitions = (size_t)value;
    } else {
        return false;
    }
    return true;
}

int main(int argc, char **argv) {
    struct bench b = {.samples = 4194304, .records = 500, .repetitions = 5, .seed = 1};
    for (int i = 1; i < argc; i += 2) {
        if (i + 1 == argc || !read_option(argv[i], argv[i + 1], &b)) return usage();
    }
    /* A pad, without a tremolo and of struck notes. */
    b.settings = (struct gav_settings){
        .rate = 48000, .code = GAV_SINE, .duty = 0.25, .attack = 0.05, .decay = 0.3, .sustain = 0.6, .release = 0.4};
    b.score = make_score(b.seed, USUAL_KEYS, b.records, b.samples);
    b.out = malloc(b.samples * sizeof *b.out);
    b.reference = malloc(b.samples * sizeof *b.reference);
    if (!b.out || !b.reference) return fputs("bench: no memory\n", stderr), 2;
    library_prepare(b.samples);
    best_prepare();
    measure_renders(&b);
    measure_tremolos(&b);
    measure_keyings(&b);
    measure_peaks(&b);
    measure_continuing(&b);
    measure_edits(&b);
    measure_pages(&b);
    measure_scores(&b);
    report_end(&b);
    return b.differences > 0 ? 1 : 0;
}
