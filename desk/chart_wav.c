/* The chart of a WAV of the user's: its level, window by window, against the render of its score from sample zero. */
#include "desk.h"

#include <math.h>
#include <string.h>

#define WINDOWS_A_SECOND 10u
#define COLOR "#1f5fa8"
/* How many characters of a file's name fit in the drawing's heading. */
#define MOST_SHOWN 40

static size_t count_differing(const struct from_zero *z, size_t first, size_t samples) {
    size_t count = 0;
    for (size_t i = first; i < first + samples; i++) count += bits_of(z->held[i]) != bits_of(z->zero.at[i]);
    return count;
}

/* A tenth of a second, or longer where that would be more windows than there is room for. */
static size_t window_of(const struct from_zero *z, size_t samples) {
    size_t tenth = z->settings.rate / WINDOWS_A_SECOND, fewest = (samples + CHART_POINTS - 1) / CHART_POINTS;
    return tenth > fewest ? tenth : fewest;
}

static struct wav_row measure(const struct from_zero *z, size_t first, size_t samples) {
    return (struct wav_row){
        .first = first,
        .samples = samples,
        .zero = level_of(z->zero.at + first, samples),
        .held = level_of(z->held + first, samples),
        .differ = count_differing(z, first, samples),
    };
}

/* Where only the render is silent a window has no percent: it is drawn at the largest value. */
static void lift_off_silence(struct wav_chart *chart) {
    double largest = 0;
    for (size_t i = 0; i < chart->points; i++) largest = fmax(largest, chart->percent[i]);
    for (size_t i = 0; i < chart->points; i++) {
        if (is_off_silence(chart->rows[i].held, chart->rows[i].zero)) chart->percent[i] = largest;
    }
}

bool wav_chart_make(const struct from_zero *z, struct wav_chart *chart, struct why *why) {
    size_t samples = from_zero_common(z), window = window_of(z, samples);
    *chart = (struct wav_chart){.beside = z, .samples = samples, .window = window};
    if (samples == 0) return refuse(why, "%s: there are no samples to draw", z->wav_path);
    for (size_t first = 0; first < samples; first += window) {
        size_t part = samples - first < window ? samples - first : window;
        struct wav_row row = measure(z, first, part);
        if (!isfinite(row.held)) {
            return refuse(why,
                          "%s: from sample %zu to %zu there is no level: a sample is no number, or beyond counting",
                          z->wav_path, first, first + part - 1);
        }
        chart->across[chart->points] = ((double)first + 0.5 * (double)part) / z->settings.rate;
        chart->percent[chart->points] = percent_off(row.held, row.zero);
        chart->differ += row.differ;
        chart->rows[chart->points++] = row;
    }
    lift_off_silence(chart);
    return true;
}

/* The last name of a path, without its folder. */
static const char *shown(const char *path) {
    return strcmp(path, "-") == 0 ? "standard input" : path + folder_of(path);
}

void wav_chart_draw(FILE *out, const void *from) {
    const struct wav_chart *chart = from;
    const struct from_zero *z = chart->beside;
    double seconds = (double)chart->samples / z->settings.rate;
    char name[MOST_SHOWN + 1], title[96], words[96];
    snprintf(name, sizeof name, "%s", shown(z->wav_path));
    snprintf(title, sizeof title, "each %g s", (double)chart->window / z->settings.rate);
    snprintf(words, sizeof words, "%zu of %zu samples differ", chart->differ, chart->samples);
    const struct curve curve = {
        .color = COLOR, .points = chart->points, .across = chart->across, .percent = chart->percent};
    const struct drawing drawing = {
        .name = name,
        .panels = 1,
        .panel = {{.left = 60,
                   .width = 640,
                   .across = seconds,
                   .tick = svg_tick(seconds),
                   .title = title,
                   .below = "seconds",
                   .curves = 1,
                   .curve = {curve}}},
        .legends = 1,
        .legend = {{.left = 60, .color = COLOR, .words = words}},
    };
    svg_draw(out, &drawing);
}

void wav_chart_table(FILE *out, const void *from) {
    const struct wav_chart *chart = from;
    const struct from_zero *z = chart->beside;
    double rate = z->settings.rate;
    fprintf(out, "# %s: %zu samples at %u Hz; the render of %s from sample zero: %zu samples at %u Hz.\n", z->wav_path,
            z->wav.samples, z->wav.rate, z->score_path, z->zero.samples, z->settings.rate);
    fprintf(
        out,
        "# Levels are the root mean square of a window (full scale is 1). off: how far from the render from sample\n"
        "# zero, in percent; silent where the render is silent and the WAV is not. differ: samples that have other "
        "bits\n"
        "# than there.\n");
    fprintf(out, "%10s %10s %12s %12s %10s %8s\n", "from s", "to s", "from zero", "WAV", "off %", "differ");
    for (size_t i = 0; i < chart->points; i++) {
        const struct wav_row *row = &chart->rows[i];
        char off[32] = "silent";
        if (!is_off_silence(row->held, row->zero)) snprintf(off, sizeof off, "%.3f", chart->percent[i]);
        fprintf(out, "%10.3f %10.3f %12.6f %12.6f %10s %8zu\n", (double)row->first / rate,
                (double)(row->first + row->samples) / rate, row->zero, row->held, off, row->differ);
    }
}
