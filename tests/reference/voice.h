/* The reference voice: what documents 01 and 02 say of the voice, and the texts of the original that 01 points to
 * (polyblep.rs, envelope.rs, voice.rs), written down a second time in plain C, as the judge of the library on a host.
 * It is slow on purpose: every sample is made by 01's steps one after the other, and each rule is written once.
 *
 * Its own: every rule, and the sine's quarter wave, which it makes by 01's rule of the nearest whole number.
 * Shared: the sizes and codes of gavberin.h. The pitches (pitches.h) are the original's 128 answers, since no rule
 * gives their last bits. tests/the-reference-follows-the-original.test compares it with the rows of `pitch`, `blocks`
 * and `render`, which the original wrote, but for the values of a rounded triangle, which are the oracle's. Nothing
 * here is taken from crates/. */
#ifndef VOICE_H
#define VOICE_H

#include "gavberin.h"

#include <stdbool.h>
#include <stddef.h>
#include <stdint.h>
#include <string.h>

/* The bits of the original's constants. */
#define TAU 6.283185307179586
#define INV_TAU 0.15915494309189535

#define BLOCK 64  /* samples from one reduction to the next where no record acts */
#define RECORD 10 /* bytes of a record */
#define EDIT 14   /* bytes of an edit */
#define MOST_RECORDS 4096
#define MOST_HELD 16
#define NO_NOTE 255
#define ENVELOPE_FLOOR 1e-6
#define QUARTER 1024 /* steps of the sine's quarter wave */

enum kind { ON = 1, OFF, RESET };
enum stage { IDLE, ATTACK, DECAY, SUSTAIN, RELEASE };

struct envelope {
    enum stage stage;
    double level, time, release_level;
};

/* The state before a sample is begun. The gate is up exactly where a note is active. */
struct voice {
    double phase; /* in radians */
    struct envelope envelope;
    unsigned active, held;
    uint64_t acted; /* how many records have */
    double frequency, velocity;
    uint8_t notes[MOST_HELD], velocities[MOST_HELD];
    double lfo_phase; /* in radians */
};

/* The records of an accepted score. */
struct records {
    const uint8_t *bytes;
    size_t count;
};

/* A float's bits, and back. */
static inline uint64_t bits(double x) {
    uint64_t word;
    memcpy(&word, &x, sizeof word);
    return word;
}

static inline double number(uint64_t word) {
    double x;
    memcpy(&x, &word, sizeof x);
    return x;
}

static inline bool is_within(double low, double x, double high) { return low <= x && x <= high; }

/* An answer in one word. */
static inline uint64_t says(unsigned number, uint64_t place, uint64_t count) {
    return number | place << 8 | count << 32;
}

/* Whether a sine is heard, which is ours and beside the original's only near: the oscillator's, or the LFO's at a depth
 * other than 0. */
static inline bool has_sine(const struct gav_settings *s) {
    return s->code == GAV_SINE || (s->lfo_code == GAV_SINE && s->lfo_depth != 0.0);
}

/* voice.c: making a sample. Settings are clamped ones. voice_begin reduces and lets the records at n act; voice_make
 * gives the sample and advances, and leaves the level that it was made with. */
struct voice voice_fresh(void);
void voice_act(const struct gav_settings *settings, struct voice *voice, const uint8_t *record);
void voice_begin(const struct gav_settings *settings, struct voice *voice, struct records score, uint64_t n);
double voice_make(const struct gav_settings *clamped, struct voice *voice);
struct gav_settings clamped(const struct gav_settings *settings);
double wave_at(uint32_t code, double duty, double u, double dt);       /* u and dt in cycles */
double wave_in(uint32_t code, double duty, double phase, double step); /* both in radians */
double reduced(double phase);
const int64_t *quarter_wave(void); /* QUARTER + 1 whole numbers */
double pitch(uint8_t note);
uint32_t record_position(const uint8_t *record);
void put_record(uint8_t *record, uint32_t position, enum kind kind, uint8_t note, uint8_t velocity);

/* entry.c: a state as the thirteen words of an entry; words that are no state are told by false. */
void voice_words(const struct voice *voice, uint64_t *words);
bool voice_read(struct voice *voice, const uint64_t *words);

/* calls.c: the calls of gavberin.h, with their answers. */
uint64_t reference_check_score(const uint8_t *score, size_t len);
double reference_sample(uint32_t code, double phase, double dt, double duty);
uint64_t reference_sample_says(uint32_t code, double phase, double dt, double duty);
uint64_t reference_render(const struct gav_settings *settings, const uint8_t *score, size_t len, double *out, size_t n,
                          uint64_t *shelf, size_t words, double *magnitudes, size_t magnitudes_len, uint64_t *numbers,
                          size_t numbers_len);
uint64_t reference_rerender(const struct gav_settings *settings, const uint8_t *old, size_t old_len,
                            const uint8_t *new_, size_t new_len, double *out, size_t n, uint64_t *shelf, size_t words,
                            double *magnitudes, size_t magnitudes_len, uint64_t *numbers, size_t numbers_len);
uint64_t reference_continue(const struct gav_settings *settings, const uint8_t *score, size_t len, uint64_t *state,
                            size_t state_words, uint64_t position, double *part, size_t n);
uint64_t reference_fresh(uint64_t *state, size_t state_words);
uint64_t reference_list(const uint8_t *score, size_t len, uint8_t *text, size_t text_len);

/* page.c: 02's call for a page of edits. */
uint64_t reference_edit(const struct gav_settings *settings, const uint8_t *old, size_t old_len, const uint8_t *edits,
                        size_t edits_len, double *out, size_t n, uint64_t *shelf, size_t words, double *magnitudes,
                        size_t magnitudes_len, uint64_t *numbers, size_t numbers_len, uint8_t *new_score,
                        size_t new_score_len);

/* 01's P, the position of the first change between two scores; NOWHERE where they are equal. */
#define NOWHERE UINT64_MAX
uint64_t first_change(const uint8_t *old, size_t old_len, const uint8_t *new_, size_t new_len);

/* The block call of the oscillator, highest 20,000 Hz and depth 1, and of the LFO, highest 100 Hz. phase: before the
 * call the given phase, after it the new one. */
struct block {
    uint32_t rate, code;
    double duty, frequency, highest, depth;
};
uint64_t reference_block(const struct block *block, double *phase, double *out, size_t n);

#endif
