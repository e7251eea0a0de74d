/* The verb play: samples to standard output, part by part, by the continuing call. */
#include "desk.h"

#include <errno.h>
#include <stdlib.h>
#include <string.h>
#include <unistd.h>

#define MOST_BUFFER 65536u

struct play {
    const char *path;
    struct gav_settings settings;
    struct score score;
    size_t samples, buffer;
    double *part;
    uint8_t *bytes;
};

static bool judged(const struct play *p, uint64_t said, struct why *why) {
    struct asked asked = {.old_path = p->path, .old_score = &p->score, .settings = &p->settings, .samples = p->samples};
    return accepted(said, &asked, why);
}

/* The first call judges everything, also where there is no sample to play. */
static bool play_all(struct play *p, struct why *why) {
    struct state state = voice_fresh();
    size_t at = 0;
    do {
        size_t part = p->samples - at < p->buffer ? p->samples - at : p->buffer;
        if (!judged(p, voice_continue(&p->settings, &p->score, &state, at, p->part, part), why)) return false;
        wav_samples(32, p->part, part, p->bytes);
        if (!write_all(STDOUT_FILENO, p->bytes, 4 * part)) {
            return refuse(why, "standard output: cannot be written after %zu %s: %s", at,
                          counted(at, "sample", "samples"), strerror(errno));
        }
        at += part;
    } while (at < p->samples);
    return true;
}

static bool read_play(char **given, struct play *p, struct why *why) {
    struct setting_texts texts = {.of = {NULL}};
    const char *text = NULL;
    uint64_t buffer = 17;
    struct option options[] = {{.name = "--buffer", .value = &text}, {.name = NULL}};
    struct option operands[] = {{.name = "SCORE", .value = &p->path}, {.name = NULL}};
    struct arguments takes = {.options = options, .operands = operands, .settings = &texts};
    if (!read_arguments(given, &takes, why) || !read_settings(&texts, &p->settings, why)) return false;
    if (text && !read_whole("--buffer", "samples", text, MOST_BUFFER, &buffer, why)) return false;
    if (buffer == 0) return misuse(why, "--buffer: 0 samples are no buffer");
    if (isatty(STDOUT_FILENO)) {
        return misuse(why, "standard output is a terminal: add | aplay -t raw -f FLOAT_LE -c 1 -r %u",
                      p->settings.rate);
    }
    p->buffer = (size_t)buffer;
    return read_score(p->path, &p->score, why) && read_length(&texts, &p->settings, &p->score, &p->samples, why);
}

/* A sound that is too long is refused before a sample of it is written, by a call for no samples past the most. */
static bool fits(const struct play *p, struct why *why) {
    struct state state = voice_fresh();
    if (p->samples <= GAV_MOST_SAMPLES) return true;
    return judged(p, voice_continue(&p->settings, &p->score, &state, p->samples, p->part, 0), why);
}

static bool run_play(char **given, struct why *why) {
    struct play *p = calloc(1, sizeof *p);
    if (!p) return refuse(why, "no memory for %zu bytes", sizeof *p);
    bool done = read_play(given, p, why);
    if (done) {
        p->part = calloc(p->buffer, sizeof *p->part);
        p->bytes = calloc(p->buffer, 4);
        done = p->part && p->bytes ? fits(p, why) && play_all(p, why)
                                   : refuse(why, "no memory for %zu samples", p->buffer);
    }
    free(p->part);
    free(p->bytes);
    free(p);
    return done;
}

const struct verb play_verb = {
    .name = "play",
    .summary = "writes the samples of a score to standard output, for a player",
    .help = "desk play SCORE [--buffer SAMPLES] [options]\n"
            "Writes the samples to standard output as 32-bit floats, low byte first, one channel:\n"
            "  desk play SCORE | aplay -t raw -f FLOAT_LE -c 1 -r 48000\n"
            "They are made part by part, each from the state that the one before it left. SCORE may be - for standard\n"
            "input.\n"
            "  --buffer N       samples of a part, 1 to 65536 (17); the sound does not depend on it\n",
    .settings = true,
    .run = run_play,
};
