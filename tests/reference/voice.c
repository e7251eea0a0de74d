/* Making a sample: 01's "Steps", "Pitch and sine" and "Making sample n", 02's "Tremolo", "Joined notes" and "A triangle
 * that is really rounded". Each operation is rounded once, in the order in which it is written (compile with
 * -ffp-contract=off). */
#include "voice.h"

#include "pitches.h"

#include <math.h>

/* "wrap(x) = x - floor(x)", as polyblep.rs has it. */
static double fract(double x) { return x - floor(x); }

/* "if t < dt, x = t/dt, answer 2x - x*x - 1; else if t > 1 - dt, x = (t - 1)/dt, answer x*x + 2x + 1; else 0" */
static double poly_blep(double t, double dt) {
    if (t < dt) {
        double x = t / dt;
        return 2.0 * x - x * x - 1.0;
    }
    if (t > 1.0 - dt) {
        double x = (t - 1.0) / dt;
        return x * x + 2.0 * x + 1.0;
    }
    return 0.0;
}

/* "the same tests; (x2 - x3*third - x)*dt, or (x3*third + x2 + x)*dt, or 0" */
static double poly_blamp(double t, double dt) {
    const double third = 1.0 / 3.0;
    if (t < dt) {
        double x = t / dt, x2 = x * x, x3 = x2 * x;
        return (x2 - x3 * third - x) * dt;
    }
    if (t > 1.0 - dt) {
        double x = (t - 1.0) / dt, x2 = x * x, x3 = x2 * x;
        return (x3 * third + x2 + x) * dt;
    }
    return 0.0;
}

/* "both branches plus one third before the multiplication by dt": poly_blamp's, with its tests. */
static double rounded_blamp(double t, double dt) {
    const double third = 1.0 / 3.0;
    if (t < dt) {
        double x = t / dt, squared = x * x, cubed = squared * x;
        return (squared - cubed * third - x + third) * dt;
    }
    if (t > 1.0 - dt) {
        double x = (t - 1.0) / dt, squared = x * x, cubed = squared * x;
        return (cubed * third + squared + x + third) * dt;
    }
    return 0.0;
}

/* "Sawtooth, square, pulse and triangle as in polyblep.rs." */
static double saw(double u, double dt) {
    double naive = 2.0 * u - 1.0;
    return naive - poly_blep(u, dt);
}

static double square(double u, double dt) {
    double naive = u < 0.5 ? 1.0 : -1.0, falling = fract(u + 0.5);
    return naive + poly_blep(u, dt) - poly_blep(falling, dt);
}

static double pulse(double u, double dt, double duty) {
    double naive = u < duty ? 1.0 : -1.0, falling = fract(u - duty + 1.0);
    return naive + poly_blep(u, dt) - poly_blep(falling, dt);
}

static double naive_triangle(double u) { return u < 0.5 ? 4.0 * u - 1.0 : 3.0 - 4.0 * u; }

static double triangle(double u, double dt) {
    double half = fract(u + 0.5);
    return naive_triangle(u) + 8.0 * poly_blamp(u, dt) - 8.0 * poly_blamp(half, dt);
}

/* "and factor 4" */
static double rounded_triangle(double u, double dt) {
    double half = fract(u + 0.5);
    return naive_triangle(u) + 4.0 * rounded_blamp(u, dt) - 4.0 * rounded_blamp(half, dt);
}

/* "entry k is the one nearest to A*sin(k*pi/2048)": no such number is so near to the middle of two whole numbers that
 * the last bit of a C library's sine could change the nearest. */
const int64_t *quarter_wave(void) {
    static int64_t wave[QUARTER + 1];
    const double a = 1073741824.0;
    for (int k = 1; k <= QUARTER && wave[QUARTER] == 0; k++) wave[k] = llround(a * sin(k * (TAU / 2.0) / 2048.0));
    return wave;
}

/* "p = u*4096, i its whole part, f = p - i; i = 4096 is read as i = 0, f = 0" and so on. */
static double sine(double u) {
    const int64_t *T = quarter_wave();
    double p = u * 4096.0;
    unsigned i = (unsigned)p;
    double f = p - i;
    if (i == 4096) i = 0, f = 0.0;
    unsigned j = i % 1024, quadrant = i / 1024;
    int64_t a = quadrant % 2 == 0 ? T[j] : T[1024 - j], b = quadrant % 2 == 0 ? T[j + 1] : T[1023 - j];
    if (quadrant >= 2) a = -a, b = -b;
    return ((double)a + (double)(b - a) * f) / 1073741824.0;
}

/* "Sine to Pulse are codes 0 to 4 there, in the Rust's order." Of the rounded triangle: "the new choice, which is code
 * 6". */
double wave_at(uint32_t code, double duty, double u, double dt) {
    switch (code) {
    case GAV_SINE:
        return sine(u);
    case GAV_SQUARE:
        return square(u, dt);
    case GAV_SAWTOOTH:
        return saw(u, dt);
    case GAV_TRIANGLE:
        return triangle(u, dt);
    case GAV_ROUNDED_TRIANGLE:
        return rounded_triangle(u, dt);
    default:
        return pulse(u, dt, duty);
    }
}

/* "the value is taken from (phase % TAU) * INV_TAU with dt = increment * INV_TAU" */
double wave_in(uint32_t code, double duty, double phase, double step) {
    return wave_at(code, duty, fmod(phase, TAU) * INV_TAU, step * INV_TAU);
}

/* "r = phase % TAU, and r + TAU if r is below 0" */
double reduced(double phase) {
    double r = fmod(phase, TAU);
    return r < 0.0 ? r + TAU : r;
}

static double clamp(double low, double high, double x) { return x < low ? low : x > high ? high : x; }

/* "times clamp to 0.001 to 10 s, sustain to 0 to 1" */
struct gav_settings clamped(const struct gav_settings *settings) {
    struct gav_settings s = *settings;
    s.attack = clamp(0.001, 10.0, s.attack);
    s.decay = clamp(0.001, 10.0, s.decay);
    s.sustain = clamp(0.0, 1.0, s.sustain);
    s.release = clamp(0.001, 10.0, s.release);
    return s;
}

static void enter(struct envelope *e, enum stage stage, double level) {
    e->stage = stage;
    e->level = level;
    e->time = 0.0;
}

/* One pass of the loop in envelope.rs: the level of a sample, and the time after it. */
static double envelope_step(const struct gav_settings *s, struct envelope *e) {
    switch (e->stage) {
    case IDLE:
        e->level = 0.0;
        break;
    case ATTACK:
        e->level = e->time / s->attack;
        if (e->level >= 1.0) enter(e, DECAY, 1.0);
        break;
    case DECAY:
        e->level = 1.0 - (1.0 - s->sustain) * (e->time / s->decay);
        if (e->level <= s->sustain) enter(e, SUSTAIN, s->sustain);
        break;
    case SUSTAIN:
        e->level = s->sustain;
        break;
    case RELEASE:
        e->level = e->release_level * (1.0 - e->time / s->release);
        if (e->level <= ENVELOPE_FLOOR) enter(e, IDLE, 0.0);
        break;
    }
    if (e->stage != IDLE && e->stage != SUSTAIN) e->time += 1.0 / s->rate;
    return e->level;
}

static void envelope_on(struct envelope *e) { enter(e, ATTACK, e->level); }

static void envelope_off(struct envelope *e) {
    if (e->stage == IDLE) return;
    e->release_level = e->level;
    enter(e, RELEASE, e->level);
}

double pitch(uint8_t note) {
    float f;
    memcpy(&f, &PITCHES[note], sizeof f);
    return (double)f;
}

/* voice.rs has both numbers in f32; they are widened. */
static void sound(struct voice *v, uint8_t note, uint8_t velocity) {
    v->active = note;
    v->velocity = (double)((float)velocity / 127.0f);
    v->frequency = pitch(note);
}

/* "`note_on` pushes if fewer than 16 are held and becomes active in any case." */
static void note_on(struct voice *v, uint8_t note, uint8_t velocity) {
    if (v->held < MOST_HELD) {
        v->notes[v->held] = note;
        v->velocities[v->held] = velocity;
        v->held++;
    }
    sound(v, note, velocity);
}

/* "`note_off` drops every held entry of that note": in one walk, as 02's R-5 asks; it was so here from the start. */
static void drop(struct voice *v, uint8_t note) {
    unsigned kept = 0;
    for (unsigned i = 0; i < v->held; i++) {
        if (v->notes[i] == note) continue;
        v->notes[kept] = v->notes[i];
        v->velocities[kept] = v->velocities[i];
        kept++;
    }
    v->held = kept;
}

/* "then, only if it was active, falls back to the last held, or lowers the gate and returns true" */
static bool note_off(struct voice *v, uint8_t note) {
    drop(v, note);
    if (v->active != note) return false;
    if (v->held > 0) {
        sound(v, v->notes[v->held - 1], v->velocities[v->held - 1]);
        return false;
    }
    v->active = NO_NOTE;
    return true;
}

/* "Frequency is always the voice's own (440 when fresh)." */
struct voice voice_fresh(void) {
    return (struct voice){.active = NO_NOTE, .frequency = 440.0};
}

uint32_t record_position(const uint8_t *record) {
    return (uint32_t)record[2] | (uint32_t)record[3] << 8 | (uint32_t)record[4] << 16 | (uint32_t)record[5] << 24;
}

void put_record(uint8_t *record, uint32_t position, enum kind kind, uint8_t note, uint8_t velocity) {
    const uint8_t bytes[RECORD] = {0x56,
                                   0x4E,
                                   (uint8_t)position,
                                   (uint8_t)(position >> 8),
                                   (uint8_t)(position >> 16),
                                   (uint8_t)(position >> 24),
                                   (uint8_t)kind,
                                   note,
                                   velocity,
                                   0};
    memcpy(record, bytes, sizeof bytes);
}

/* A note-on with velocity 0 "acts as a note-off of that note". */
static bool is_release(const uint8_t *record) { return record[6] == OFF || (record[6] == ON && record[8] == 0); }

/* "Joined triggers the envelope only if no note was active just before"; struck, every key does. */
static bool is_triggered(const struct gav_settings *s, const struct voice *before) {
    return s->joined != GAV_JOINED || before->active == NO_NOTE;
}

/* "On: voice and envelope `note_on`. Off: voice `note_off`, and the envelope's where it returned true. Reset: voice,
 * envelope and phase to their fresh state." The LFO's phase is "set to 0 by a reset record". */
void voice_act(const struct gav_settings *s, struct voice *v, const uint8_t *record) {
    uint64_t acted = v->acted + 1;
    if (is_release(record)) {
        if (note_off(v, record[7])) envelope_off(&v->envelope);
    } else if (record[6] == ON) {
        if (is_triggered(s, v)) envelope_on(&v->envelope);
        note_on(v, record[7], record[8]);
    } else {
        *v = voice_fresh();
    }
    v->acted = acted;
}

/* Whether the first record that has not acted is at position n. */
static bool is_due(const struct voice *v, struct records score, uint64_t n) {
    return v->acted < score.count && record_position(score.bytes + RECORD * v->acted) == n;
}

/* "If n is a multiple of 64 or a record has position n, phase is reduced by TAU. Then the records at n act." The LFO's
 * "phase is reduced at the same moments as the oscillator's". */
void voice_begin(const struct gav_settings *s, struct voice *v, struct records score, uint64_t n) {
    if (n % BLOCK == 0 || is_due(v, score, n)) {
        v->phase = reduced(v->phase);
        v->lfo_phase = reduced(v->lfo_phase);
    }
    while (is_due(v, score, n)) voice_act(s, v, score.bytes + RECORD * v->acted);
}

/* "Then the sample is oscillator value * envelope level * velocity, left to right, and both advance." It "is multiplied
 * last by (1 - depth/2 + lfo/2), where lfo is the ported block's scaled value". */
double voice_make(const struct gav_settings *s, struct voice *v) {
    double step = v->frequency / s->rate * TAU, lfo_step = s->lfo_frequency / s->rate * TAU;
    double value = wave_in(s->code, s->duty, v->phase, step), level = envelope_step(s, &v->envelope);
    double lfo = wave_in(s->lfo_code, s->lfo_duty, v->lfo_phase, lfo_step) * s->lfo_depth;
    v->phase += step;
    v->lfo_phase += lfo_step;
    return value * level * v->velocity * (1.0 - s->lfo_depth / 2.0 + lfo / 2.0);
}
