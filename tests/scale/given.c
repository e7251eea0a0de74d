/* Settings and states, within their limits, at their ends and outside. */
#include "scale.h"

#include <math.h>

#define TINY 0x1p-1074
#define HIGHEST 12544.0 /* the highest frequency of a state, which is not 0 */

double odd_unit(struct chance *c) {
    const double outside[] = {-TINY, -1.0, nextafter(1.0, 2.0), 2.0, INFINITY, -INFINITY, NAN, number(UINT64_MAX)};
    return PICK(c, outside);
}

double random_duty(struct chance *c) {
    const double ends[] = {0.0, -0.0, TINY, 0.25, nextafter(0.5, 0.0), 0.5, nextafter(0.5, 1.0), nextafter(1.0, 0.0),
                           1.0};
    uint64_t kind = below(c, 4);
    return kind == 0 ? PICK(c, ends) : kind == 1 ? 0.5 : dense(c);
}

/* Mostly short, so that a stage comes to its end. */
static double random_time(struct chance *c) {
    const double ends[] = {-INFINITY, -1.0,
                           -0.0,      0.0,
                           TINY,      nextafter(0.001, 0.0),
                           0.001,     nextafter(0.001, 1.0),
                           0.02,      nextafter(10.0, 0.0),
                           10.0,      nextafter(10.0, 20.0),
                           1e308,     INFINITY};
    switch (below(c, 8)) {
    case 0:
        return PICK(c, ends);
    case 1:
        return 12.0 * dense(c);
    case 2:
        return 1.0 / (double)(2 + below(c, 899));
    default:
        return scaled(c, -11, -6);
    }
}

/* With a sine none that is tiny: beside the original it is measured, and a millionth of its level must be a float. */
static double random_sustain(struct chance *c, bool is_sine) {
    const double ends[] = {-INFINITY, -1.0, -TINY, TINY, nextafter(1.0, 0.0), nextafter(1.0, 2.0), 2.0, INFINITY};
    static const double USUAL[] = {0.0, -0.0, 0.1, 0.3, 1.0};
    uint64_t kind = below(c, 4);
    double level = kind == 0 ? PICK(c, ends) : kind == 1 ? PICK(c, USUAL) : dense(c);
    return is_sine && level > 0.0 && level < 1e-9 ? 0.25 : level;
}

static uint32_t random_code(struct chance *c) {
    static const uint32_t CODES[] = {GAV_SINE,  GAV_SQUARE, GAV_SAWTOOTH,        GAV_TRIANGLE,
                                     GAV_PULSE, GAV_PULSE,  GAV_ROUNDED_TRIANGLE};
    return PICK(c, CODES);
}

/* Still, slow and fast. */
static double random_hertz(struct chance *c) {
    const double ends[] = {0.0, -0.0, TINY, nextafter(100.0, 0.0), 100.0};
    uint64_t kind = below(c, 4);
    return kind == 0 ? PICK(c, ends) : kind == 1 ? scaled(c, -60, 5) : 100.0 * dense(c);
}

/* In two rounds of five there is no tremolo. A sine's depth is not tiny: half a millionth of it must be more than the
 * last bit of what a sample is multiplied by. */
static double random_depth(struct chance *c, uint32_t code) {
    static const double ENDS[] = {0.0, 0.0, 0.0, -0.0, 1.0};
    double depth = one_in(c, 2) ? PICK(c, ENDS) : dense(c);
    return code == GAV_SINE && depth > 0.0 && depth < 1e-6 ? 0.5 : depth;
}

/* Only a pulse's duty is read: another waveform's may be anything. In half of the rounds notes are joined. */
struct gav_settings random_settings(struct chance *c) {
    static const uint32_t RATES[] = {8000, 16384, 44100, 48000, 192000};
    struct gav_settings s;
    s.code = random_code(c);
    s.rate = one_in(c, 4) ? 8000 + (uint32_t)below(c, 184001) : PICK(c, RATES);
    s.duty = s.code == GAV_PULSE ? random_duty(c) : odd_unit(c);
    s.lfo_code = random_code(c);
    s.lfo_duty = s.lfo_code == GAV_PULSE ? random_duty(c) : odd_unit(c);
    s.lfo_frequency = random_hertz(c);
    s.lfo_depth = random_depth(c, s.lfo_code);
    s.attack = random_time(c);
    s.decay = random_time(c);
    s.sustain = random_sustain(c, has_sine(&s));
    s.release = random_time(c);
    s.joined = one_in(c, 2) ? GAV_JOINED : GAV_STRUCK;
    return s;
}

/* Triangles that pass 1, the oscillator's at few samples a cycle and the LFO's near its corners. */
struct gav_settings loud_settings(struct chance *c) {
    struct gav_settings s = random_settings(c);
    s.rate = 8000;
    s.code = s.lfo_code = GAV_TRIANGLE;
    s.lfo_frequency = 100.0;
    s.lfo_depth = 1.0;
    s.attack = s.decay = 0.001;
    s.sustain = 1.0;
    return s;
}

static double random_nan(struct chance *c) {
    return number(UINT64_C(0x7FF0000000000001) | chance_word(c) << 52 | chance_word(c) >> 12);
}

/* No frequency of an LFO. */
static double odd_hertz(struct chance *c) {
    const double outside[] = {-TINY, -1.0, nextafter(100.0, 101.0), 101.0, 20000.0, INFINITY, -INFINITY, random_nan(c)};
    return PICK(c, outside);
}

/* The code of the original's noise, twice as often as the others; the one after the last; such as have a code in their
 * low byte; and two that are large. */
static const uint32_t NO_CODES[] = {5, 5, 7, 256, 256 + GAV_ROUNDED_TRIANGLE, UINT32_C(1) << 31, UINT32_MAX};
static const uint32_t NO_KEYINGS[] = {2, 256, UINT32_C(1) << 31, UINT32_MAX};

static struct gav_settings bad_lfo(struct chance *c, struct gav_settings s) {
    switch (below(c, 4)) {
    case 0:
        s.lfo_code = PICK(c, NO_CODES);
        break;
    case 1:
        s.lfo_code = GAV_PULSE;
        s.lfo_duty = odd_unit(c);
        break;
    case 2:
        s.lfo_frequency = odd_hertz(c);
        break;
    default:
        s.lfo_depth = odd_unit(c);
    }
    return s;
}

struct gav_settings bad_settings(struct chance *c, struct gav_settings s) {
    static const uint32_t RATES[] = {0, 7999, 192001, UINT32_MAX};
    double *const times[] = {&s.attack, &s.decay, &s.sustain, &s.release};
    switch (below(c, 10)) {
    case 0:
        s.rate = PICK(c, RATES);
        break;
    case 1:
        s.code = PICK(c, NO_CODES);
        break;
    case 2:
        s.code = GAV_PULSE;
        s.duty = odd_unit(c);
        break;
    case 3:
        *PICK(c, times) = random_nan(c);
        break;
    case 4:
    case 5:
        s.joined = PICK(c, NO_KEYINGS);
        break;
    default:
        return bad_lfo(c, s);
    }
    return s;
}

/* One number of a state within its range, an end of it now and then. */
static double moved(struct chance *c, double most) {
    uint64_t kind = below(c, 8);
    return kind == 0 ? most : kind == 1 && most != HIGHEST ? -0.0 : most * dense(c);
}

/* A note active or none, and from no key to sixteen held, whatever is active. */
void move_keys(struct chance *c, uint64_t *state) {
    uint64_t held = one_in(c, 2) ? 0 : below(c, MOST_HELD + 1);
    uint64_t active = one_in(c, 2) ? NO_NOTE : 256 + below(c, 128);
    state[5] = state[5] >> 16 << 16 | held << 9 | active;
    for (unsigned i = 0; i < MOST_HELD; i++) {
        uint64_t pair = i < held ? below(c, 128) + 256 * below(c, 128) : 0;
        state[8 + i / 4] = (i % 4 == 0 ? 0 : state[8 + i / 4]) | pair << 16 * (i % 4);
    }
}

void move_state(struct chance *c, uint64_t *state) {
    static const double MOST[8] = {999.9999, 0, 1, 11, 1, 0, HIGHEST, 1};
    for (uint64_t times = 1 + below(c, 4); times > 0; times--) {
        size_t at = below(c, 9);
        if (at == 8)
            state[12] = bits(moved(c, nextafter(1000.0, 0.0)));
        else if (at == 1)
            state[1] = below(c, 5);
        else if (at == 5)
            move_keys(c, state);
        else
            state[at] = bits(moved(c, MOST[at]));
    }
}

void doctor_state(struct chance *c, uint64_t *state) {
    const double outside[] = {-1.0, nextafter(1.0, 2.0), INFINITY, NAN}, phases[] = {-TINY, -1.0, 1000.0, NAN};
    const double times[] = {-1.0, nextafter(11.0, 12.0), NAN}, hertz[] = {0.0, -440.0, nextafter(12544.0, 1e9), NAN};
    static const uint64_t STAGES[] = {5, 256, UINT64_MAX};
    uint64_t which = below(c, 13);
    if (which == 0 || which == 12)
        state[which] = bits(PICK(c, phases));
    else if (which == 1)
        state[1] = PICK(c, STAGES);
    else if (which == 2 || which == 4)
        state[which] = bits(PICK(c, outside));
    else if (which == 3)
        state[3] = bits(PICK(c, times));
    else if (which == 5)
        state[5] ^= 1 << 8;
    else if (which == 6)
        state[5] = (state[5] & ~UINT64_C(0xFE00)) | 17 << 9;
    else if (which == 7)
        state[6] = bits(PICK(c, hertz));
    else if (which == 8)
        state[7] = bits(PICK(c, outside));
    else if (which == 9)
        state[8 + below(c, 4)] |= UINT64_C(128) << 8 * below(c, 8);
    else
        state[5] += 1 << 16;
}
