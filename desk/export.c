/* How a render is put into its WAV: the bits of a sample and the gain. Whole numbers and a gain make an export, which
   is for other programs: no re-render goes on from one, so it has no shelf. */
#include "desk.h"

#include <math.h>
#include <string.h>

/* Decibels: a gain beyond them is a mistake; within them every sample stays finite. */
#define MOST_GAIN 200

static bool read_bits(const char *text, unsigned *bits, struct why *why) {
    static const struct {
        const char *text;
        unsigned bits;
    } known[] = {{"16", 16}, {"24", 24}, {"32", 32}, {"64", 64}};
    *bits = 32;
    if (!text) return true;
    for (size_t i = 0; i < COUNT_OF(known); i++) {
        if (strcmp(text, known[i].text) == 0) {
            *bits = known[i].bits;
            return true;
        }
    }
    return misuse(why, "--bits: %s is not 16, 24, 32 or 64 bits", text);
}

static bool read_gain(const char *text, struct export *export, struct why *why) {
    double decibels = 0;
    if (text && !read_number("--gain", text, &decibels, why)) return false;
    if (!(fabs(decibels) <= MOST_GAIN))
        return misuse(why, "--gain: %s is not -%d to %d dB", text, MOST_GAIN, MOST_GAIN);
    export->factor = pow(10, decibels / 20);
    if (text) snprintf(export->gain, sizeof export->gain, "%.10g", decibels);
    return true;
}

bool read_export(const char *bits, const char *gain, const char *shelf, struct export *export, struct why *why) {
    *export = (struct export){.factor = 1};
    if (!read_bits(bits, &export->bits, why) || !read_gain(gain, export, why)) return false;
    if (!shelf || (!gain && export->bits >= 32)) return true;
    return misuse(
        why,
        "--shelf beside %s: an export has no shelf, since a re-render would go on without %s; render a WAV of "
        "its own for the shelf",
        gain ? "--gain" : "--bits 16 or 24", gain ? "the gain" : "the rounding");
}

void export_apply(const struct export *export, double *at, size_t samples) {
    for (size_t i = 0; i < samples; i++) {
        at[i] *= export->factor;
        if (export->bits == 32) at[i] = (float)at[i];
    }
}

struct wav export_wav(const struct export *export, uint32_t rate, size_t samples) {
    struct wav wav = {.bits = export->bits, .rate = rate, .samples = samples};
    memcpy(wav.gain, export->gain, sizeof wav.gain);
    return wav;
}

size_t export_clips(const struct export *export, const double *at, size_t samples) {
    size_t count = 0;
    for (size_t i = 0; i < samples; i++) count += fabs(at[i]) > 1;
    return export->bits < 32 ? count : 0;
}
