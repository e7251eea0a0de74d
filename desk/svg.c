/* A drawing of how many percent levels are off, in panels side by side that share one range of percents. */
#include "desk.h"

#include <math.h>

#define TOP 56.0
#define HEIGHT 200.0
/* A little room at a panel's top. */
#define HEADROOM 12.0
/* No level is below 0. */
#define LOWEST_PERCENT (-100.0)

/* The percents that a drawing shows, in whole steps from 0 on; 0 is within the range. */
struct range {
    double highest, lowest, step;
};

static double x_at(const struct panel *p, double value) { return p->left + p->width * value / p->across; }

static double y_at(const struct range *range, double percent) {
    double part = (range->highest - percent) / (range->highest - range->lowest);
    return TOP + HEADROOM + (HEIGHT - HEADROOM) * part;
}

/* A step between lines that leaves about four of them. */
static double step_for(double height) {
    static const double steps[] = {0.5, 1, 2, 5, 10, 25};
    double step = 0;
    for (size_t i = 0; step == 0 || height > 4 * step; i++) step = i < COUNT_OF(steps) ? steps[i] : 2 * step;
    return step;
}

static void take_in(struct range *range, const struct curve *curve) {
    for (size_t i = 0; i < curve->points; i++) {
        range->highest = fmax(range->highest, curve->percent[i]);
        range->lowest = fmin(range->lowest, curve->percent[i]);
    }
}

static void take_in_panel(struct range *range, const struct panel *p) {
    for (size_t i = 0; i < p->curves; i++) take_in(range, &p->curve[i]);
}

static struct range range_of(const struct drawing *drawing) {
    struct range range = {.highest = 0, .lowest = -1};
    for (size_t i = 0; i < drawing->panels; i++) take_in_panel(&range, &drawing->panel[i]);
    range.step = step_for(range.highest - range.lowest);
    range.highest = range.step * ceil(range.highest / range.step);
    range.lowest = fmax(LOWEST_PERCENT, range.step * floor(range.lowest / range.step));
    return range;
}

/* A text that may hold a path, whose bytes may be anything: a byte that is no printable ASCII is drawn as '?'. */
static void put_text(FILE *out, const char *text) {
    for (; *text; text++) {
        if (*text == '&' || *text == '<' || *text == '>') {
            fprintf(out, "&#%d;", *text);
        } else {
            fputc(*text >= ' ' && *text <= '~' ? *text : '?', out);
        }
    }
}

static void draw_frame(FILE *out, const struct panel *p, const struct range *range) {
    fprintf(out, "<text x=\"%.1f\" y=\"%.1f\" font-size=\"13\">%s</text>\n", p->left, TOP - 8, p->title);
    fprintf(out, "<rect x=\"%.1f\" y=\"%.1f\" width=\"%.1f\" height=\"%.1f\" fill=\"none\" stroke=\"#999\"/>\n",
            p->left, TOP, p->width, HEIGHT);
    for (double percent = range->highest; percent >= range->lowest; percent -= range->step) {
        double y = y_at(range, percent);
        fprintf(out, "<path d=\"M%.1f %.1fh%.1f\" stroke=\"#ddd\"/>\n", p->left, y, p->width);
        fprintf(out, "<text x=\"%.1f\" y=\"%.1f\" text-anchor=\"end\">%g %%</text>\n", p->left - 6, y + 4,
                percent == 0 ? 0.0 : percent);
    }
    fprintf(out, "<text x=\"%.1f\" y=\"%.1f\" text-anchor=\"middle\">%s</text>\n", p->left + p->width / 2,
            TOP + HEIGHT + 34, p->below);
}

static void draw_ticks(FILE *out, const struct panel *p) {
    for (unsigned i = 0; i * p->tick <= p->across; i++) {
        fprintf(out, "<text x=\"%.1f\" y=\"%.1f\" text-anchor=\"middle\">%g</text>\n", x_at(p, i * p->tick),
                TOP + HEIGHT + 16, i * p->tick);
    }
}

static void draw_curve(FILE *out, const struct panel *p, const struct range *range, const struct curve *curve) {
    fprintf(out, "<polyline fill=\"none\" stroke=\"%s\" stroke-width=\"2\" points=\"", curve->color);
    for (size_t i = 0; i < curve->points; i++) {
        fprintf(out, "%.1f,%.1f ", x_at(p, curve->across[i]), y_at(range, curve->percent[i]));
    }
    fprintf(out, "\"/>\n");
}

static void draw_panel(FILE *out, const struct panel *p, const struct range *range) {
    draw_frame(out, p, range);
    draw_ticks(out, p);
    for (size_t i = 0; i < p->curves; i++) draw_curve(out, p, range, &p->curve[i]);
}

static void draw_legend(FILE *out, const struct legend *legend) {
    fprintf(out, "<path d=\"M%d 314h24\" stroke=\"%s\" stroke-width=\"2\"/>\n<text x=\"%d\" y=\"318\">", legend->left,
            legend->color, legend->left + 30);
    put_text(out, legend->words);
    fprintf(out, "</text>\n");
}

void svg_draw(FILE *out, const struct drawing *drawing) {
    struct range range = range_of(drawing);
    fprintf(out, "<svg xmlns=\"http://www.w3.org/2000/svg\" width=\"720\" height=\"332\" viewBox=\"0 0 720 332\" "
                 "font-family=\"sans-serif\" font-size=\"11\" fill=\"#222\">\n"
                 "<title>The level of ");
    put_text(out, drawing->name);
    fprintf(out, ", against a render from sample zero</title>\n"
                 "<rect width=\"720\" height=\"332\" fill=\"#fff\"/>\n"
                 "<text x=\"60\" y=\"22\" font-size=\"15\">How far the level of ");
    put_text(out, drawing->name);
    fprintf(out, " is from a render from sample zero</text>\n");
    for (size_t i = 0; i < drawing->panels; i++) draw_panel(out, &drawing->panel[i], &range);
    for (size_t i = 0; i < drawing->legends; i++) draw_legend(out, &drawing->legend[i]);
    fprintf(out, "</svg>\n");
}

double svg_tick(double across) {
    static const double ticks[] = {0.001, 0.002, 0.005, 0.01, 0.02, 0.05, 0.1, 0.2, 0.5,
                                   1,     2,     5,     10,   20,   50,   100, 200, 500};
    size_t i = 0;
    while (i + 1 < COUNT_OF(ticks) && across > 10 * ticks[i]) i++;
    return ticks[i];
}
