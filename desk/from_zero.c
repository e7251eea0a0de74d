/* A WAV, and the render of its score from sample zero: verify tells their differences, chart draws them. The settings
   and the length are those of the shelf, where one is given; else the options', with the rate and the length of the
   WAV. */
#include "desk.h"

#include <stdlib.h>
#include <string.h>

/* The settings come from the shelf or from options, not from both. */
static bool take_settings(struct from_zero *z, struct why *why) {
    for (size_t i = 0; z->shelf_path && i < COUNT_OF(z->texts.of); i++) {
        if (z->texts.of[i]) return misuse(why, "with --shelf no settings and no length are given: the shelf has them");
    }
    return read_settings(&z->texts, &z->settings, why);
}

static bool one_standard_input(const struct from_zero *z, struct why *why) {
    const char *const paths[] = {z->score_path, z->wav_path, z->shelf_path ? z->shelf_path : ""};
    size_t count = 0;
    for (size_t i = 0; i < COUNT_OF(paths); i++) count += strcmp(paths[i], "-") == 0;
    return count < 2 ? true : misuse(why, "standard input can be one of the files, and not %zu", count);
}

static bool load_wav(struct from_zero *z, struct why *why) {
    if (!read_file(z->wav_path, WAV_MOST, &z->file, why)) return false;
    if (!wav_look(z->file.at, z->file.len, &z->wav, why)) return preface(why, "%s: ", z->wav_path);
    z->held = malloc((z->wav.samples + 1) * sizeof *z->held);
    if (!z->held) return refuse(why, "no memory for %zu samples", z->wav.samples);
    wav_values(&z->wav, z->file.at, 0, z->wav.samples, z->held);
    return true;
}

static bool load_shelf(struct from_zero *z, struct why *why) {
    if (!read_file(z->shelf_path, SHELF_MOST, &z->shelf, why)) return false;
    if (!shelf_look(z->shelf.at, z->shelf.len, &z->about, why)) return preface(why, "%s: ", z->shelf_path);
    z->settings = z->about.settings;
    return sound_make(&z->zero, z->about.samples, why);
}

/* Where no option gives a rate or a length, the WAV's is taken. */
static bool take_length(struct from_zero *z, struct why *why) {
    size_t samples = z->wav.samples;
    if (!*setting_text(&z->texts, "--rate")) z->settings.rate = z->wav.rate;
    if (*setting_text(&z->texts, "--seconds") && !read_length(&z->texts, &z->settings, &z->score, &samples, why)) {
        return false;
    }
    return sound_make(&z->zero, samples, why);
}

/* The render's samples, rounded as a WAV of these bits has them. */
static bool render(struct from_zero *z, struct why *why) {
    struct asked asked = {.old_path = z->score_path,
                          .old_score = &z->score,
                          .shelf_path = z->shelf_path,
                          .settings = &z->settings,
                          .samples = z->zero.samples};
    struct export plain = {.bits = z->wav.bits, .factor = 1};
    if (!accepted(voice_render(&z->settings, &z->score, &z->zero), &asked, why)) return false;
    export_apply(&plain, z->zero.at, z->zero.samples);
    return true;
}

bool from_zero_make(struct from_zero *z, struct why *why) {
    return take_settings(z, why) && one_standard_input(z, why) && read_score(z->score_path, &z->score, why) &&
           load_wav(z, why) && (z->shelf_path ? load_shelf(z, why) : take_length(z, why)) && render(z, why);
}

void from_zero_free(struct from_zero *z) {
    sound_free(&z->zero);
    free(z->held);
    free(z->file.at);
    free(z->shelf.at);
}

size_t from_zero_common(const struct from_zero *z) {
    return z->wav.samples < z->zero.samples ? z->wav.samples : z->zero.samples;
}
