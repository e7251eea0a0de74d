/* How loud samples are: the peak, the level of some samples, and how far a level is from another. */
#include "desk.h"

#include <math.h>

struct peak peak_of(const double *from, size_t samples) {
    struct peak peak = {.level = samples > 0 ? 0 : -1, .at = 0};
    for (size_t i = 0; i < samples; i++) {
        if (fabs(from[i]) > peak.level) peak = (struct peak){.level = fabs(from[i]), .at = i};
    }
    return peak;
}

/* The root mean square. */
double level_of(const double *from, size_t samples) {
    double sum = 0;
    for (size_t i = 0; i < samples; i++) sum += from[i] * from[i];
    return samples > 0 ? sqrt(sum / (double)samples) : 0;
}

bool is_off_silence(double level, double reference) { return level > 0 && !(reference > 0); }

/* The quotient is rounded, and would be a little below -100 for some references; no level is below 0. */
double percent_off(double level, double reference) {
    if (!(reference > 0)) return level > 0 ? 100 : 0;
    double percent = 100 * (level - reference) / reference;
    return percent < -100 ? -100 : percent;
}

const char *off_words(double level, double reference, char room[OFF_ROOM]) {
    if (!isfinite(level)) return "no level: a sample is no number, or beyond counting";
    if (is_off_silence(level, reference)) return "the render is silent there";
    snprintf(room, OFF_ROOM, "level off by %+.6g %%", percent_off(level, reference));
    return room;
}

void put_peak(FILE *out, struct peak peak, uint32_t rate, bool whole) {
    if (peak.level < 0) {
        fprintf(out, "none: there are no samples\n");
        return;
    }
    fprintf(out, "%.6g at sample %zu", peak.level, peak.at);
    if (rate > 0) fprintf(out, " (%.3f s)", (double)peak.at / rate);
    /* Rounded up, so that a gain lower by that is enough. The lowest whole number, a step below -1, is not clipped. */
    if (peak.level > 1 && !whole) {
        fprintf(out, "; a player clips above 1, and this is %.2f dB above", ceil(2000 * log10(peak.level)) / 100);
    }
    fprintf(out, "\n");
}

void tell_peak(FILE *out, const char *path, struct peak peak, uint32_t rate) {
    fprintf(out, "%s: peak ", path);
    put_peak(out, peak, rate, false);
}
