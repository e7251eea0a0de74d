/* The chart of the built-in pad: its edits, ours and the old way's, against a render from sample zero. */
#include "desk.h"

#define OURS "#1f5fa8"
#define OLD "#c0392b"
/* Ten windows a second, and the pad's length in windows: where five edits of 20 ms cost the old way 11 percent. */
#define WINDOWS_A_SECOND 10u
#define MOST_LATE_MS 1000

static const struct gav_settings falling = {
    .rate = 48000, .code = GAV_SQUARE, .duty = 0.5, .attack = 0.06, .decay = 10, .sustain = 0, .release = 0.3};

/* The pad has settings of its own, but for the rate and the waveform. */
static bool read_sound(struct setting_texts *texts, struct gav_settings *settings, struct why *why) {
    struct gav_settings given;
    const char **rate = setting_text(texts, "--rate"), **wave = setting_text(texts, "--wave");
    for (size_t i = 0; i < COUNT_OF(texts->of); i++) {
        const char **text = &texts->of[i];
        if (*text && text != rate && text != wave) {
            return misuse(why, "without SCORE and OUT.wav only --rate and --wave of the settings can be given");
        }
    }
    if (!read_settings(texts, &given, why)) return false;
    *settings = falling;
    settings->rate = given.rate;
    if (*wave) settings->code = given.code;
    return true;
}

static bool read_edits(const char *edits_text, const char *late_text, uint64_t *edits, double *late, struct why *why) {
    *edits = 5;
    *late = 20;
    if (edits_text && !read_whole("--edits", "edits", edits_text, PAD_MOST_EDITS, edits, why)) return false;
    if (*edits == 0) return misuse(why, "--edits: 0 edits are no chart");
    if (late_text && !read_number("--late", late_text, late, why)) return false;
    if (*late >= 0 && *late <= MOST_LATE_MS) return true;
    return misuse(why, "--late: %s is not 0 to %d ms", late_text, MOST_LATE_MS);
}

bool read_pad(struct setting_texts *texts, const char *edits_text, const char *late_text, struct pad *pad,
              struct why *why) {
    uint64_t edits;
    double late;
    if (!read_sound(texts, &pad->settings, why) || !read_edits(edits_text, late_text, &edits, &late, why)) return false;
    /* A rate that the library will refuse still needs a window of one sample or more, and of no more than at 192,000
     * Hz. */
    uint32_t given = pad->settings.rate, rate = given < 8000 ? 8000 : given > 192000 ? 192000 : given;
    pad->window = rate / WINDOWS_A_SECOND;
    pad->samples = PAD_POINTS * pad->window;
    pad->late = (size_t)(late * rate / 1000 + 0.5);
    pad->edits = (unsigned)edits;
    return true;
}

/* What the curves of the drawing are made of. */
struct curves {
    double edit[PAD_MOST_EDITS + 1u], ours[PAD_MOST_EDITS + 1u], old[PAD_MOST_EDITS + 1u];
    double second[PAD_POINTS];
};

static void fill_edits(const struct pad_chart *chart, struct curves *curves) {
    for (unsigned i = 0; i <= chart->pad->edits; i++) {
        const struct pad_row *row = &chart->rows[i];
        curves->edit[i] = i;
        curves->ours[i] = percent_off(row->ours, row->zero);
        curves->old[i] = percent_off(row->old, row->zero);
    }
}

static void fill_seconds(const struct pad_chart *chart, struct curves *curves) {
    const struct pad *pad = chart->pad;
    for (size_t i = 0; i < chart->points; i++) {
        curves->second[i] = ((double)i + 0.5) * (double)pad->window / pad->settings.rate;
    }
}

/* Both ways in a panel: the old way is drawn first, under ours. */
static void add_curves(struct panel *panel, size_t points, const double *across, const double *old,
                       const double *ours) {
    panel->curves = 2;
    panel->curve[0] = (struct curve){.color = OLD, .points = points, .across = across, .percent = old};
    panel->curve[1] = (struct curve){.color = OURS, .points = points, .across = across, .percent = ours};
}

void pad_draw(FILE *out, const void *from) {
    const struct pad_chart *chart = from;
    const struct pad *pad = chart->pad;
    double rate = pad->settings.rate, seconds = (double)pad->samples / rate;
    char last[96], whole[96], late[96];
    struct curves curves;
    struct drawing drawing = {
        .name = "a slowly falling pad",
        .panels = 2,
        .panel = {{.left = 60, .width = 280, .across = pad->edits, .tick = 1, .title = last, .below = "edits"},
                  {.left = 420,
                   .width = 280,
                   .across = seconds,
                   .tick = svg_tick(seconds),
                   .title = whole,
                   .below = "seconds"}},
        .legends = 2,
        .legend = {{.left = 60, .color = OURS, .words = "re-render"}, {.left = 180, .color = OLD, .words = late}},
    };
    snprintf(last, sizeof last, "the last %g s, after each edit", (double)pad->window / rate);
    snprintf(whole, sizeof whole, "the whole sound, after %u %s", pad->edits, counted(pad->edits, "edit", "edits"));
    snprintf(late, sizeof late, "the old way: each edit from a state %g ms past the cut",
             1000.0 * (double)pad->late / rate);
    fill_edits(chart, &curves);
    fill_seconds(chart, &curves);
    add_curves(&drawing.panel[0], pad->edits + 1, curves.edit, curves.old, curves.ours);
    add_curves(&drawing.panel[1], chart->points, curves.second, chart->old, chart->ours);
    svg_draw(out, &drawing);
}

void pad_table(FILE *out, const void *from) {
    const struct pad_chart *chart = from;
    const struct pad *pad = chart->pad;
    double rate = pad->settings.rate;
    fprintf(out, "# A slowly falling pad: %zu samples, %.3f s at %u Hz, %s.\n", pad->samples,
            (double)pad->samples / rate, pad->settings.rate, wave_name(pad->settings.code));
    fprintf(
        out,
        "# Levels are the root mean square of the last %g s (full scale is 1). off: how far from the render of the\n"
        "# same score from sample zero, in percent. differ: samples that have other bits than there.\n"
        "# The old way starts each edit from a state %g ms past the cut.\n",
        (double)pad->window / rate, 1000.0 * (double)pad->late / rate);
    fprintf(out, "%4s %9s %10s | %10s %8s %8s | %10s %8s %8s\n", "edit", "cut at s", "from zero", "re-render", "off %",
            "differ", "old way", "off %", "differ");
    for (unsigned i = 0; i <= pad->edits; i++) {
        const struct pad_row *row = &chart->rows[i];
        fprintf(out, "%4u %9.3f %10.6f | %10.6f %8.3f %8zu | %10.6f %8.3f %8zu\n", i, (double)row->cut / rate,
                row->zero, row->ours, percent_off(row->ours, row->zero), row->ours_differ, row->old,
                percent_off(row->old, row->zero), row->old_differ);
    }
}
