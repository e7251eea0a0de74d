/* The verb chart: how far the level of a WAV is from a render from sample zero, drawn and as a table; of the user's own
   WAV, or of the built-in pad after edits in two ways. */
#include "desk.h"

#include <stdlib.h>

struct chart_call {
    const char *svg_path, *table_path, *edits, *late;
    struct from_zero beside;
    struct pad pad;
    struct pad_chart pad_chart;
    struct wav_chart wav_chart;
};

typedef void put_chart(FILE *out, const void *from);

/* A draft of the drawing or of the table, whole on the disk; the text is made in memory first. */
static bool write_draft(struct draft *draft, const char *path, put_chart *put, const void *from, struct why *why) {
    char *text = NULL;
    size_t len = 0;
    FILE *out = open_memstream(&text, &len);
    if (!out) return refuse(why, "%s: no memory for the chart", path);
    put(out, from);
    bool done = fclose(out) == 0 ? true : refuse(why, "%s: no memory for the chart", path);
    done = done && draft_open(draft, path, why) && draft_write(draft, text, len, why) && draft_seal(draft, why);
    free(text);
    return done;
}

/* Both files are whole on the disk before either takes its name. A table without a file goes to standard output. */
static bool write_files(const struct chart_call *c, put_chart *draw, put_chart *table, const void *from,
                        struct why *why) {
    struct draft drawn = NO_DRAFT, tabled = NO_DRAFT;
    bool done = write_draft(&drawn, c->svg_path, draw, from, why);
    if (c->table_path) done = done && write_draft(&tabled, c->table_path, table, from, why);
    done = done && draft_publish(&drawn, why);
    if (done && c->table_path && !draft_publish(&tabled, why)) {
        done = preface(why, "%s is written already: ", c->svg_path);
    }
    draft_drop(&tabled);
    draft_drop(&drawn);
    if (done && !c->table_path) table(stdout, from);
    return done;
}

/* No file that is read is written over. */
static bool stay_apart(const struct chart_call *c, struct why *why) {
    if (!names_file(c->svg_path, why) || (c->table_path && !names_file(c->table_path, why))) return false;
    const char *const read[] = {c->beside.score_path, c->beside.wav_path, c->beside.shelf_path};
    for (size_t i = 0; i < COUNT_OF(read); i++) {
        if (!read[i]) continue;
        if (same_file(read[i], c->svg_path) || (c->table_path && same_file(read[i], c->table_path))) {
            return misuse(why, "%s would be written over", shown_path(read[i]));
        }
    }
    if (c->table_path && same_file(c->table_path, c->svg_path)) {
        return misuse(why, "the drawing and the table are one file");
    }
    return true;
}

static bool read_chart(char **given, struct chart_call *c, struct why *why) {
    const struct option options[] = {
        {"-o", &c->svg_path},   {"--table", &c->table_path}, {"--shelf", &c->beside.shelf_path},
        {"--edits", &c->edits}, {"--late", &c->late},        {NULL, NULL},
    };
    const struct option operands[] = {{"SCORE", &c->beside.score_path}, {"OUT.wav", &c->beside.wav_path}, {NULL, NULL}};
    const struct arguments takes = {
        .options = options, .operands = operands, .or_no_operands = true, .settings = &c->beside.texts};
    if (!read_arguments(given, &takes, why)) return false;
    if (!c->svg_path) c->svg_path = "chart.svg";
    if (c->beside.score_path && (c->edits || c->late)) {
        return misuse(why, "--edits and --late are of the built-in pad, and not of a score");
    }
    if (!c->beside.score_path && c->beside.shelf_path) return misuse(why, "--shelf needs SCORE and OUT.wav");
    return stay_apart(c, why);
}

static bool chart_pad(struct chart_call *c, struct why *why) {
    return read_pad(&c->beside.texts, c->edits, c->late, &c->pad, why) && pad_run(&c->pad, &c->pad_chart, why) &&
           write_files(c, pad_draw, pad_table, &c->pad_chart, why);
}

static bool chart_wav(struct chart_call *c, struct why *why) {
    return from_zero_make(&c->beside, why) && wav_chart_make(&c->beside, &c->wav_chart, why) &&
           write_files(c, wav_chart_draw, wav_chart_table, &c->wav_chart, why);
}

static bool run_chart(char **given, struct why *why) {
    struct chart_call *c = calloc(1, sizeof *c);
    if (!c) return refuse(why, "no memory for %zu bytes", sizeof *c);
    bool done = read_chart(given, c, why) && (c->beside.score_path ? chart_wav(c, why) : chart_pad(c, why));
    from_zero_free(&c->beside);
    free(c);
    return done;
}

const struct verb chart_verb = {
    .name = "chart",
    .summary = "draws how far a WAV's level is from a render from sample zero; or what edits do to a pad",
    .help = "desk chart SCORE OUT.wav [--shelf FILE] [-o chart.svg] [--table FILE] [options]\n"
            "desk chart [-o chart.svg] [--table FILE] [--edits 5] [--late 20] [--rate 48000] [--wave square]\n"
            "With SCORE and OUT.wav: renders the score from sample zero, and draws how far the level of the WAV is\n"
            "from that, each tenth of a second. Settings and length are the shelf's; without --shelf the options',\n"
            "with the WAV's own rate and length. `desk verify` tells what differs.\n"
            "Without: renders a slowly falling pad and edits it in two ways, by the re-render, and in the old way,\n"
            "each edit from a state some milliseconds past the cut, and draws how far the level of both is from a\n"
            "render of the same score from sample zero. The pad is a square wave, whose level does not depend on\n"
            "where in a cycle it is taken.\n"
            "  -o FILE          the drawing (chart.svg)\n"
            "  --table FILE     the table, instead of standard output\n"
            "  --shelf FILE     the shelf that OUT.wav was rendered with\n"
            "  --edits K        of the pad: how many edits, 1 to 15 (5)\n"
            "  --late MS        of the pad: how late the old way is, 0 to 1000 ms (20)\n"
            "The pad takes --rate and --wave alone, and is a square wave without --wave; of OUT.wav without a shelf:\n",
    .settings = true,
    .run = run_chart,
};
