/* The bits of the reference voice, as fast as scalar C gives them without a processor's own instructions: the yardstick
 * of the library's speed. It is frozen: it plays what document 01 says and follows no later request, so that a ratio
 * today and one in a year mean the same. The records' work, of which a render has little, is the reference's own.
 *
 * No fmod and no floor; what lasts for a span is made once. A span's phases come first, then its cycles one by one: all
 * their samples without the corrections, which leaves a loop with no test in it, and then again those few at the edges
 * that are corrected. Where a cycle has few samples every one is made with its corrections, in a loop with no test
 * either. */
#include "best_levels.h"

#define TAU_UNITS UINT64_C(0x1921fb54442d18) /* TAU * 2^50 */
#define UNIT (1.0 / 1125899906842624.0)      /* 2^-50 */

/* Cycles a sample from which on a cycle has so few samples that their edges are not looked for. */
#define STEEP 0.08

/* A span begins below TAU and has at most 64 steps, each below 12,544 / 8,000 * TAU. */
#define MOST_CYCLES 128

/* Cycle q begins at q * TAU, which is high + low exactly. */
struct cycle {
    double high, low;
};
static struct cycle cycles[MOST_CYCLES];

/* The whole wave, with the 2^30 divided out, which rounds nothing; one entry more for u = 1, which reads as u = 0. */
static double wave[4098];

/* A function that the compiler specialises for each code, so that no loop tests the code. */
#define MADE_ANEW static inline __attribute__((always_inline))

/* What lasts for a span: the phase's step, also as a fraction of a cycle, and how many steps make a radian. */
struct span {
    double step, dt, one_less_dt, pace, duty, velocity;
};

/* Some samples of one cycle: where they are made from, and where they go. */
struct samples {
    const struct cycle *cycle;
    const double *phases, *levels;
    double *out;
    size_t n;
};

void best_prepare(void) {
    for (uint64_t q = 0; q < MOST_CYCLES; q++) {
        double high = (double)(q * TAU_UNITS);
        int64_t low = (int64_t)(q * TAU_UNITS - (uint64_t)high);
        cycles[q] = (struct cycle){high * UNIT, (double)low * UNIT};
    }
    for (unsigned i = 0; i < 4098; i++) {
        unsigned j = i % 1024, k = i / 1024 % 2 == 0 ? j : 1024 - j;
        int64_t size = quarter_wave()[k];
        wave[i] = (double)(i % 4096 >= 2048 ? -size : size) / 1073741824.0;
    }
}

/* phase % TAU in its own cycle, and TAU or more after it: phase and high are within a factor of two of each other, so
 * their difference is exact, and what is left after low is the remainder itself, which is a float. */
static inline double rest(const struct cycle *cycle, double phase) { return phase - cycle->high - cycle->low; }

static inline double turned(const struct samples *at, size_t i) { return rest(at->cycle, at->phases[i]) * INV_TAU; }

static inline double poly_blep(const struct span *s, double t) {
    if (t < s->dt) {
        double x = t / s->dt;
        return 2.0 * x - x * x - 1.0;
    }
    if (t > s->one_less_dt) {
        double x = (t - 1.0) / s->dt;
        return x * x + 2.0 * x + 1.0;
    }
    return 0.0;
}

static inline double poly_blamp(const struct span *s, double t) {
    const double third = 1.0 / 3.0;
    if (t < s->dt) {
        double x = t / s->dt, x2 = x * x, x3 = x2 * x;
        return (x2 - x3 * third - x) * s->dt;
    }
    if (t > s->one_less_dt) {
        double x = (t - 1.0) / s->dt, x2 = x * x, x3 = x2 * x;
        return (x3 * third + x2 + x) * s->dt;
    }
    return 0.0;
}

static inline double sine(double u) {
    double p = u * 4096.0;
    int64_t i = (int64_t)p;
    double a = wave[i], b = wave[i + 1];
    return a + (b - a) * (p - (double)i);
}

/* The place of the second edge, from which on the other half is counted, and the sum whose floor that count takes off.
 */
static inline double edge(uint32_t code, const struct span *s) { return code == GAV_PULSE ? s->duty : 0.5; }

static inline double shifted(uint32_t code, const struct span *s, double u) {
    return code == GAV_PULSE ? u - s->duty + 1.0 : u + 0.5;
}

/* What lies in 0 to 2 has the floor 0, 1 or, with a duty of 0, at its very end 2. */
static inline double fract(double x) { return x < 1.0 ? x : x < 2.0 ? x - 1.0 : x - 2.0; }

/* Before the second edge or after it; a sine and a sawtooth have none. */
static inline double uncorrected(uint32_t code, bool before, double u) {
    switch (code) {
    case GAV_SINE:
        return sine(u);
    case GAV_SAWTOOTH:
        return 2.0 * u - 1.0;
    case GAV_TRIANGLE:
        return before ? 4.0 * u - 1.0 : 3.0 - 4.0 * u;
    default:
        return before ? 1.0 : -1.0;
    }
}

static inline double corrected(uint32_t code, const struct span *s, double u) {
    double naive = uncorrected(code, u < edge(code, s), u), v = fract(shifted(code, s, u));
    if (code == GAV_SAWTOOTH) return naive - poly_blep(s, u);
    if (code == GAV_TRIANGLE) return naive + 8.0 * poly_blamp(s, u) - 8.0 * poly_blamp(s, v);
    return naive + poly_blep(s, u) - poly_blep(s, v);
}

/* Whether u is corrected as one that lies behind an edge, and as one that lies before it. */
static inline bool is_behind(uint32_t code, const struct span *s, double u) {
    return u < s->dt || (code != GAV_SAWTOOTH && fract(shifted(code, s, u)) < s->dt);
}

static inline bool is_before(uint32_t code, const struct span *s, double u) {
    return u > s->one_less_dt || (code != GAV_SAWTOOTH && fract(shifted(code, s, u)) > s->one_less_dt);
}

/* Samples between two edges. As u grows, the corrected samples are the first and the last of them. */
MADE_ANEW void piece(uint32_t code, bool before, const struct span *s, struct samples at) {
    const double velocity = s->velocity;
    const struct cycle cycle = *at.cycle; /* a copy that no store to out can change */
    at.cycle = &cycle;
    for (size_t i = 0; i < at.n; i++) at.out[i] = uncorrected(code, before, turned(&at, i)) * at.levels[i] * velocity;
    if (code == GAV_SINE) return;
    size_t i = 0, n = at.n;
    for (; i < n && is_behind(code, s, turned(&at, i)); i++) {
        at.out[i] = corrected(code, s, turned(&at, i)) * at.levels[i] * velocity;
    }
    for (; i < n && is_before(code, s, turned(&at, n - 1)); n--) {
        at.out[n - 1] = corrected(code, s, turned(&at, n - 1)) * at.levels[n - 1] * velocity;
    }
}

static inline struct samples from(struct samples at, size_t i, size_t n) {
    return (struct samples){at.cycle, at.phases + i, at.levels + i, at.out + i, n};
}

/* A first guess at an index, which is then corrected by tests: how many steps so many radians are. */
static inline size_t guess(const struct span *s, double radians, size_t n) {
    double steps = radians * s->pace;
    return steps <= 0.0 ? 0 : steps < (double)(int)n ? (size_t)(int)steps : n;
}

/* How many of the samples lie in their cycle. */
static inline size_t in_cycle(const struct span *s, const struct samples *at) {
    size_t i = guess(s, TAU - rest(at->cycle, at->phases[0]), at->n);
    while (i > 0 && rest(at->cycle, at->phases[i - 1]) >= TAU) i--;
    while (i < at->n && rest(at->cycle, at->phases[i]) < TAU) i++;
    return i;
}

/* How many of a cycle's samples lie before the second edge. */
static inline size_t before_edge(uint32_t code, const struct span *s, const struct samples *at) {
    size_t i = guess(s, edge(code, s) * TAU - rest(at->cycle, at->phases[0]), at->n);
    while (i > 0 && shifted(code, s, turned(at, i - 1)) >= 1.0) i--;
    while (i < at->n && shifted(code, s, turned(at, i)) < 1.0) i++;
    return i;
}

MADE_ANEW void cycle_of(uint32_t code, const struct span *s, struct samples at) {
    if (code == GAV_SINE || code == GAV_SAWTOOTH || at.n == 0) {
        piece(code, true, s, at);
        return;
    }
    size_t m = before_edge(code, s, &at);
    piece(code, true, s, from(at, 0, m));
    piece(code, false, s, from(at, m, at.n - m));
}

/* TAU as a sum of two floats, whose multiples by any number of cycles of a span are exact. */
#define TAU_LOW 0x1a3p-47
#define TAU_HIGH (TAU - TAU_LOW)
#define LESS_THAN_INV_TAU 0.1591549430918953 /* so that no cycle is guessed that has not begun */

/* phase % TAU for any phase of a span, without a test that a processor would have to guess. A phase of TAU or more is a
 * multiple of 2^-50, and so is every difference here, which is below 8 and thus exact. */
static inline double remainder_of(double phase) {
    double q = (double)(int)(phase * LESS_THAN_INV_TAU), r = phase - q * TAU_HIGH - q * TAU_LOW;
    return r >= TAU ? r - TAU : r;
}

/* The correction so far behind an edge, or before it, where that is below 0; 0 where the edge is not near. The two
 * sides differ in signs alone. */
static inline double at_edge(uint32_t code, const struct span *s, double far) {
    const double third = 1.0 / 3.0;
    bool is_near = far < s->dt && far > s->one_less_dt - 1.0, after = far >= 0.0;
    double x = far / s->dt, x2 = x * x, x3 = x2 * x * third;
    double blep = 2.0 * x + (after ? -x2 : x2) + (after ? -1.0 : 1.0);
    double blamp = (x2 + (after ? -x3 : x3) + (after ? -x : x)) * s->dt;
    return is_near ? (code == GAV_TRIANGLE ? 8.0 * blamp : blep) : 0.0;
}

/* Whether no sample is near to both edges. */
static inline bool are_apart(uint32_t code, const struct span *s) {
    double second = edge(code, s);
    return s->dt * 2.01 < second && s->dt * 2.01 < 1.0 - second;
}

/* At the nearest edge alone: the other correction is 0, and nothing here is -0. */
static inline double once(uint32_t code, const struct span *s, double u) {
    double half = 0.5 * edge(code, s);
    bool second = u >= half && u < 0.5 + half;
    double c = at_edge(code, s, second ? shifted(code, s, u) - 1.0 : u < half ? u : u - 1.0);
    return uncorrected(code, u < edge(code, s), u) + (second ? -c : c);
}

static inline double twice(uint32_t code, const struct span *s, double u) {
    double v = fract(shifted(code, s, u)), half = s->dt > 0.5 ? s->dt : 0.5;
    double first = at_edge(code, s, u < half ? u : u - 1.0), second = at_edge(code, s, v < half ? v : v - 1.0);
    return uncorrected(code, u < edge(code, s), u) + first - second;
}

/* A span with few samples in a cycle, of which most are near an edge: each is made as if it were. */
MADE_ANEW void steep(uint32_t code, const struct span *s, const double *phases, const double *levels, double *out,
                     size_t n) {
    double us[BLOCK];
    for (size_t i = 0; i < n; i++) us[i] = remainder_of(phases[i]) * INV_TAU;
    if (are_apart(code, s)) {
        for (size_t i = 0; i < n; i++) out[i] = once(code, s, us[i]) * levels[i] * s->velocity;
    } else {
        for (size_t i = 0; i < n; i++) out[i] = twice(code, s, us[i]) * levels[i] * s->velocity;
    }
}

MADE_ANEW void cycle_by_cycle(uint32_t code, const struct span *s, struct samples at) {
    for (; at.n > 0; at.cycle++) {
        size_t inside = in_cycle(s, &at);
        cycle_of(code, s, from(at, 0, inside));
        at = from(at, inside, at.n - inside);
    }
}

/* The samples of a span, and the phase after it, reduced. */
MADE_ANEW double fill(uint32_t code, const struct span *given, double phase, const double *levels, double *out,
                      size_t n) {
    const struct span s = *given; /* a copy that no store to out can change */
    double phases[BLOCK];
    for (size_t i = 0; i < n; i++) {
        phases[i] = phase;
        phase += s.step;
    }
    if (code != GAV_SINE && code != GAV_SAWTOOTH && s.dt > STEEP) {
        steep(code, &s, phases, levels, out, n);
    } else {
        cycle_by_cycle(code, &s, (struct samples){cycles, phases, levels, out, n});
    }
    return remainder_of(phase);
}

static double sound(uint32_t code, const struct span *s, double phase, const double *levels, double *out, size_t n) {
    switch (code) {
    case GAV_SINE:
        return fill(GAV_SINE, s, phase, levels, out, n);
    case GAV_SQUARE:
        return fill(GAV_SQUARE, s, phase, levels, out, n);
    case GAV_SAWTOOTH:
        return fill(GAV_SAWTOOTH, s, phase, levels, out, n);
    case GAV_TRIANGLE:
        return fill(GAV_TRIANGLE, s, phase, levels, out, n);
    default:
        return fill(GAV_PULSE, s, phase, levels, out, n);
    }
}

/* One span; the phase is reduced after it, which is where the next one begins. */
static inline void play(const struct gav_settings *s, struct voice *v, double *out, size_t n) {
    double levels[BLOCK], step = v->frequency / s->rate * TAU, dt = step * INV_TAU;
    struct span span = {step, dt, 1.0 - dt, 1.0 / step, s->duty, v->velocity};
    best_levels(s, &v->envelope, levels, n);
    v->phase = sound(s->code, &span, v->phase, levels, out, n);
}

static size_t span_end(size_t i, const uint8_t *next, const uint8_t *end, size_t n) {
    size_t least = i / BLOCK * BLOCK + BLOCK;
    if (least > n) least = n;
    return next < end && record_position(next) < least ? record_position(next) : least;
}

void best_render(const struct gav_settings *settings, const struct score *score, double *out, size_t n) {
    const struct gav_settings s = clamped(settings);
    const uint8_t *next = score->bytes, *end = score->bytes + score->len;
    struct voice voice = voice_fresh();
    for (size_t i = 0, stop; i < n; i = stop) {
        for (; next < end && record_position(next) == i; next += RECORD) voice_act(&s, &voice, next);
        stop = span_end(i, next, end, n);
        play(&s, &voice, out + i, stop - i);
    }
}
