/* The envelope of the best C, by stage runs: a stage's times first, one after the other, then its levels, which do not
 * wait for each other. It is a header so that it becomes one function with the rest, which is a sixth faster. */
#ifndef BEST_LEVELS_H
#define BEST_LEVELS_H

#include "bench.h"

/* What the levels of a span are made of, apart from what they are written into. */
struct rule {
    double attack, decay, release, sustain, falls, release_level;
};

/* The level of a stage at a time, before its end is looked at. */
static inline double level_at(enum stage stage, const struct rule *r, double time) {
    switch (stage) {
    case ATTACK:
        return time / r->attack;
    case DECAY:
        return 1.0 - r->falls * (time / r->decay);
    case SUSTAIN:
        return r->sustain;
    case RELEASE:
        return r->release_level * (1.0 - time / r->release);
    default:
        return 0.0;
    }
}

static inline bool is_over(enum stage stage, const struct rule *r, double level) {
    switch (stage) {
    case ATTACK:
        return level >= 1.0;
    case DECAY:
        return level <= r->sustain;
    case RELEASE:
        return level <= ENVELOPE_FLOOR;
    default:
        return false;
    }
}

/* How many samples are left of the stage, at most n, with their levels. A level only rises or only falls, so that the
 * stage lasts for all of them where it lasts for the last. */
static inline size_t run(enum stage stage, struct rule r, double grows, struct envelope *e, double *levels, size_t n) {
    double times[BLOCK], time = e->time;
    for (size_t i = 0; i < n; i++) {
        times[i] = time;
        time += grows;
    }
    for (; n > 0 && is_over(stage, &r, level_at(stage, &r, times[n - 1])); n--) time = times[n - 1];
    for (size_t i = 0; i < n; i++) levels[i] = level_at(stage, &r, times[i]);
    e->time = time;
    return n;
}

/* A level that stays, and so does the time. */
static inline size_t hold(double level, double *levels, size_t n) {
    for (size_t i = 0; i < n; i++) levels[i] = level;
    return n;
}

static size_t run_any(const struct rule *r, double grows, struct envelope *e, double *levels, size_t n) {
    switch (e->stage) {
    case ATTACK:
        return run(ATTACK, *r, grows, e, levels, n);
    case DECAY:
        return run(DECAY, *r, grows, e, levels, n);
    case RELEASE:
        return run(RELEASE, *r, grows, e, levels, n);
    case SUSTAIN:
        return hold(r->sustain, levels, n);
    default:
        return hold(0.0, levels, n);
    }
}

/* The sample that ends a stage has the level of its end; only a decay's time grows with it. */
static double ended(const struct rule *r, double grows, struct envelope *e) {
    e->time = e->stage == ATTACK ? grows : 0.0;
    e->stage = e->stage == ATTACK ? DECAY : e->stage == DECAY ? SUSTAIN : IDLE;
    return e->stage == DECAY ? 1.0 : e->stage == SUSTAIN ? r->sustain : 0.0;
}

/* The levels of a span, under clamped settings. */
static inline void best_levels(const struct gav_settings *s, struct envelope *e, double *levels, size_t n) {
    const double grows = 1.0 / s->rate;
    struct rule rule = {s->attack, s->decay, s->release, s->sustain, 1.0 - s->sustain, e->release_level};
    for (size_t i = 0; i < n; i++) {
        i += run_any(&rule, grows, e, levels + i, n - i);
        if (i < n) levels[i] = ended(&rule, grows, e);
    }
    e->level = levels[n - 1];
}

#endif
