/* The verb render: a score to a WAV, and to a shelf for later edits. */
#include "desk.h"

#include <errno.h>
#include <stdlib.h>
#include <string.h>
#include <unistd.h>

struct render {
    const char *score_path, *wav_path, *shelf_path;
    struct export export;
    struct shelf_file about;
    struct sound sound;
    struct group group;
    struct content files[GROUP_FILES];
};

static bool is_pipe(const struct render *r) { return strcmp(r->wav_path, "-") == 0; }

/* A shelf is compared with a WAV that can be found again, and no terminal wants samples. */
static bool check_pipe(const struct render *r, struct why *why) {
    if (r->shelf_path) return misuse(why, "--shelf beside -o -: a shelf needs the name of its WAV");
    if (!isatty(STDOUT_FILENO)) return true;
    return misuse(why, "standard output is a terminal: add | aplay, or -o OUT.wav");
}

static bool check_paths(const struct render *r, struct why *why) {
    if (!r->wav_path) return misuse(why, "-o OUT.wav is missing");
    if (is_pipe(r)) return check_pipe(r, why);
    if (r->shelf_path && !names_file(r->shelf_path, why)) return false;
    if (same_file(r->score_path, r->wav_path) || (r->shelf_path && same_file(r->score_path, r->shelf_path))) {
        return misuse(why, "%s would be written over", shown_path(r->score_path));
    }
    if (r->shelf_path && same_file(r->shelf_path, r->wav_path)) {
        return misuse(why, "the WAV and the shelf are one file");
    }
    return true;
}

/* The score is read before the files are locked, since standard input may be slow. */
static bool read_render(char **given, struct render *r, struct why *why) {
    struct setting_texts texts = {.of = {NULL}};
    const char *bits = NULL, *gain = NULL;
    struct option options[] = {{.name = "-o", .value = &r->wav_path},
                               {.name = "--shelf", .value = &r->shelf_path},
                               {.name = "--bits", .value = &bits},
                               {.name = "--gain", .value = &gain},
                               {.name = NULL}};
    struct option operands[] = {{.name = "SCORE", .value = &r->score_path}, {.name = NULL}};
    struct arguments takes = {.options = options, .operands = operands, .settings = &texts};
    struct shelf_file *about = &r->about;
    return read_arguments(given, &takes, why) && check_paths(r, why) &&
           read_export(bits, gain, r->shelf_path, &r->export, why) && read_settings(&texts, &about->settings, why) &&
           read_score(r->score_path, &about->score, why) &&
           read_length(&texts, &about->settings, &about->score, &about->samples, why);
}

static bool render_sound(struct render *r, struct why *why) {
    struct shelf_file *about = &r->about;
    if (!sound_make(&r->sound, about->samples, why)) return false;
    struct asked asked = {
        .old_path = r->score_path, .old_score = &about->score, .settings = &about->settings, .samples = about->samples};
    return accepted(voice_render(&about->settings, &about->score, &r->sound), &asked, why);
}

/* The bytes of both files; without a shelf none for it. */
static bool make_files(struct render *r, struct why *why) {
    struct shelf_file *about = &r->about;
    about->bits = r->export.bits;
    export_apply(&r->export, r->sound.at, about->samples);
    struct wav wav = export_wav(&r->export, about->settings.rate, about->samples);
    struct bytes *wav_file = &r->files[WAV_FILE].bytes, *shelf_file = &r->files[SHELF_FILE].bytes;
    return wav_bytes(&wav, r->sound.at, wav_file, why) &&
           (!r->shelf_path || shelf_bytes(about, &r->sound, &wav, wav_file->at, shelf_file, why));
}

static bool open_files(struct render *r, struct why *why) {
    const char *const paths[GROUP_FILES] = {[WAV_FILE] = r->wav_path, [SHELF_FILE] = r->shelf_path};
    return is_pipe(r) || group_open(&r->group, paths, why);
}

static bool write_files(struct render *r, struct why *why) {
    const struct bytes *wav = &r->files[WAV_FILE].bytes;
    if (!is_pipe(r)) return group_write(&r->group, r->files, why);
    if (write_all(STDOUT_FILENO, wav->at, wav->len)) return true;
    return refuse(why, "standard output: cannot be written: %s", strerror(errno));
}

/* The form of the samples, their peak, and what was cut off. */
static void tell_wav(FILE *out, const char *path, const struct render *r) {
    const struct gav_settings *s = &r->about.settings;
    const struct export *export = &r->export;
    size_t samples = r->about.samples, clips = export_clips(export, r->sound.at, samples);
    fprintf(out, "%s: %zu %s, %.3f s at %u Hz, %s%s, %u-bit %s%s%s%s\n", path, samples,
            counted(samples, "sample", "samples"), (double)samples / s->rate, s->rate, wave_name(s->code),
            s->joined == GAV_JOINED ? ", joined notes" : "", export->bits,
            export->bits < 32 ? "whole numbers" : "floats", *export->gain ? ", gain " : "", export->gain,
            *export->gain ? " dB" : "");
    tell_peak(out, path, peak_of(r->sound.at, samples), s->rate);
    if (clips > 0) fprintf(out, "%s: %zu of %zu samples are above 1, and clipped\n", path, clips, samples);
}

/* What goes into a pipe is told beside it. */
static void tell(const struct render *r) {
    size_t entries = r->sound.sections;
    FILE *out = is_pipe(r) ? stderr : stdout;
    tell_wav(out, is_pipe(r) ? "standard output" : r->wav_path, r);
    tell_unheard(out, r->score_path, &r->about.score, r->about.samples, r->about.settings.rate);
    if (!r->shelf_path) return;
    printf("%s: %zu %s of %d words\n", r->shelf_path, entries, counted(entries, "entry", "entries"), GAV_STATE_WORDS);
}

static bool run_render(char **given, struct why *why) {
    struct render *r = calloc(1, sizeof *r);
    if (!r) return refuse(why, "no memory for %zu bytes", sizeof *r);
    r->group = NO_GROUP;
    bool done = read_render(given, r, why) && open_files(r, why) && render_sound(r, why) && make_files(r, why) &&
                write_files(r, why);
    if (done) tell(r);
    group_drop(&r->group);
    sound_free(&r->sound);
    free(r->files[WAV_FILE].bytes.at);
    free(r->files[SHELF_FILE].bytes.at);
    free(r);
    return done;
}

const struct verb render_verb = {
    .name = "render",
    .summary = "renders a score to a WAV, with a shelf for later edits",
    .help = "desk render SCORE -o OUT.wav [options]\n"
            "Renders every sample of the score from sample zero. SCORE may be - for standard input.\n"
            "A file that is there keeps its mode, and where possible its owner and group. It is replaced as a whole:\n"
            "other names of it (hard links) keep the old file.\n"
            "The sound has at most 16777216 samples (349.5 s at 48000 Hz).\n"
            "An export, by --bits 16 or 24 or by --gain, is for other programs: it has no shelf, since a re-render\n"
            "would go on without its rounding or its gain.\n"
            "  -o OUT.wav       the WAV: one channel; - for standard output: desk render SCORE -o - | aplay\n"
            "  --shelf FILE     what edits need beside the WAV: states, peaks, settings, length and score; see\n"
            "                   `desk rerender --help` and `desk edit --help`\n"
            "  --bits 32|64     floats of so many bits (32)\n"
            "  --bits 16|24     an export: whole numbers, rounded to the nearest; what is above 1 is clipped\n"
            "  --gain DB        an export: louder, or softer where DB is below 0; -200 to 200 dB\n",
    .settings = true,
    .run = run_render,
};
