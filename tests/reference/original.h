/* The original, driven span by span by the oracle (oracle/src/lib.rs), or no_original.c where it is not here;
 * oracle/archive says which of the two to link. Scores are accepted, settings and states within their limits. The
 * original has no rounded triangle: its values are the oracle's own, from 02. */
#ifndef ORIGINAL_H
#define ORIGINAL_H

#include "voice.h"

extern const bool original_is_here;

/* The original's untouched copies, by whole spans, from sample zero on. */
void original_render(const struct gav_settings *settings, const uint8_t *score, size_t len, double *out, size_t n);

/* From a state at a position on, with each sample's scale (how far our sines may move it, in millionths), and, where a
 * shelf is lent, the entry of each section that begins in the part, in order. The state is afterwards the one after the
 * samples. */
void original_play(const struct gav_settings *settings, const uint8_t *score, size_t len, uint64_t *state,
                   uint64_t position, double *out, double *scales, size_t n, uint64_t *shelf);

/* A single sample at a phase in cycles; its sine is its own. */
double original_sample(uint32_t code, double phase, double dt, double duty);

#endif
