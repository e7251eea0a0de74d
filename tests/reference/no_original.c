/* Stands in where the original is not here: who links it asks original_is_here first, and calls nothing else. */
#include "original.h"

#include <stdlib.h>

const bool original_is_here = false;

void original_render(const struct gav_settings *settings, const uint8_t *score, size_t len, double *out, size_t n) {
    (void)settings, (void)score, (void)len, (void)out, (void)n;
    abort();
}

void original_play(const struct gav_settings *settings, const uint8_t *score, size_t len, uint64_t *state,
                   uint64_t position, double *out, double *scales, size_t n, uint64_t *shelf) {
    (void)settings, (void)score, (void)len, (void)state, (void)position, (void)out, (void)scales, (void)n, (void)shelf;
    abort();
}

double original_sample(uint32_t code, double phase, double dt, double duty) {
    (void)code, (void)phase, (void)dt, (void)duty;
    abort();
}
