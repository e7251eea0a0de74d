/* What `make bench` is made of: contenders that render the same score, and what measures them. */
#ifndef BENCH_H
#define BENCH_H

#include "original.h"

/* A score with bytes of its own, which may be changed. */
struct score {
    uint8_t *bytes;
    size_t len;
};

/* Renders n samples from sample zero; the score is accepted and the settings are within their limits. */
typedef void render(const struct gav_settings *settings, const struct score *score, double *out, size_t n);

/* best.c: the same bits, as fast as scalar C gives them. Its tables are made once, by best_prepare. */
void best_prepare(void);
render best_render;

/* floor.c: nothing but the writing. */
render floor_render;

/* library.c: the calls of the library and of the reference voice, the plain C, on the settings, and a shelf and peaks
 * of their own: a render by either; a render in parts, some samples from the start of a section on as one part, and a
 * re-render, which gives back its count; and a page of edits. */
void library_prepare(size_t samples);
render ours_render, plain_render;
const uint64_t *plain_shelf(void);
void ours_continue(const struct gav_settings *settings, const struct score *score, double *out, size_t n, size_t part);
void ours_from(const struct gav_settings *settings, const struct score *score, double *out, size_t from, size_t n);
size_t ours_rerender(const struct gav_settings *settings, const struct score *old, const struct score *new_,
                     double *out, size_t n);
/* A page of edits, which gives back its count; made, whose bytes are GAV_SCORE_BYTES, is the new score. */
size_t ours_edit(const struct gav_settings *settings, const struct score *old, const struct score *edits, double *out,
                 size_t n, struct score *made);

/* scores.c: scores of some keys that depend on a seed alone, and copies of them with room for more bytes. */
struct keys {
    uint8_t lowest, count;
};
#define USUAL_KEYS ((struct keys){36, 48})
struct score make_score(uint64_t seed, struct keys keys, size_t records, size_t samples);
struct score copy_score(const struct score *score, size_t more);

/* stretch.c: the samples that a re-render from one score to another makes, from which to before which, by 02's words
 * and the plain C's renders of both; both are n where it makes none. bench->reference and the plain shelf hold the
 * render of the new score afterwards. */
struct stretch {
    size_t from, to;
};
struct bench;
struct stretch due_stretch(struct bench *bench, const struct score *old, const struct score *new_);

/* clock.c: nanoseconds of this thread's own processor time, and the median of some measurements. */
#define MOST_REPETITIONS 101
double now(void);
double median(double *values, size_t count);

/* What is measured, and what came of it. */
struct bench {
    size_t samples, records, repetitions;
    uint64_t seed;
    struct gav_settings settings;
    struct score score;
    double *out;       /* what every render writes into */
    double *reference; /* the plain C's samples of the same settings and score */
    unsigned met, missed, differences;
};

/* report.c: what is printed of a goal, and of samples, entries or peaks whose bits differ from those of the plain C. */
const char *goal(struct bench *bench, double value, double most);
void same_bits(struct bench *bench, const char *who, const char *wave);
void same_peaks(struct bench *bench, const char *who, const char *wave); /* in library.c, which holds them */
void same_shelf(struct bench *bench, const char *who, const char *wave); /* there too */
void spoil_peaks(const struct bench *bench);                             /* ours, before a render that is compared */
void differ(struct bench *bench, const char *what);
void report_end(const struct bench *bench);

/* The waveforms that are measured, by code: NULL where no waveform has the code. */
#define CODES (GAV_ROUNDED_TRIANGLE + 1)
extern const char *const WAVES[CODES];

/* The parts of the measurement, each with its table. */
void measure_renders(struct bench *bench);
void measure_tremolos(struct bench *bench);
void measure_keyings(struct bench *bench);
void measure_peaks(struct bench *bench);
void measure_continuing(struct bench *bench);
void measure_edits(struct bench *bench);
void measure_pages(struct bench *bench);
void measure_scores(struct bench *bench);

/* Nanoseconds of one check, of a whole render of ours, and of the same samples by continuing calls of so many each. */
double check_time(const struct score *score, uint64_t check(const uint8_t *, size_t), size_t repetitions);
double render_time(struct bench *bench);
double continue_time(struct bench *bench, size_t part);

#endif
