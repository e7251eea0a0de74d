/* The verb info: what a file is, its kind first: a WAV, a shelf, a score, or a text that makes one. */
#include "desk.h"

#include <math.h>
#include <stdlib.h>
#include <string.h>

static bool begins_with(const struct bytes *file, const char *mark, size_t len) {
    return file->len >= len && memcmp(file->at, mark, len) == 0;
}

/* A line of what a file is: a name for a reader and for grep; the words follow. */
static void put_name(const char *name) { printf("  %-9s ", name); }

static void tell_records(const struct score *score) {
    size_t records = score->len / RECORD_BYTES, kinds[4] = {0};
    for (size_t i = 0; i < records; i++) kinds[score->at[RECORD_BYTES * i + 6] & 3]++;
    put_name("records");
    printf("%zu, %zu bytes", records, score->len);
    if (records > 0) printf(", samples %u to %u", position_of(score, 0), position_of(score, records - 1));
    printf(": %zu on, %zu off, %zu reset\n", kinds[1], kinds[2], kinds[3]);
}

static void tell_length(size_t samples, uint32_t rate) {
    put_name("samples");
    printf("%zu", samples);
    if (rate > 0) printf(", %.3f s at %u Hz", (double)samples / rate, rate);
    printf("\n");
}

/* A byte of the chunk's name that cannot be printed is a '?'. */
static void tell_chunk(const struct chunk *chunk, size_t at) {
    put_name("chunk");
    for (size_t i = 0; i < 4; i++) putchar(chunk->name[i] >= ' ' && chunk->name[i] <= '~' ? chunk->name[i] : '?');
    printf(", %zu bytes at byte %zu\n", chunk->size, at);
}

/* The chunks other than those that every WAV of the desk has. */
static void tell_chunks(const struct bytes *file) {
    struct chunk chunk;
    for (size_t at = WAV_CHUNKS; at < file->len && wav_chunk(file->at, file->len, at, &chunk); at = chunk.next) {
        if (wav_is_chunk(&chunk, "fmt ") || wav_is_chunk(&chunk, "fact") || wav_is_chunk(&chunk, "data")) continue;
        tell_chunk(&chunk, at);
    }
}

/* The index of the first sample that is no finite number; the number of samples where all are finite. */
static size_t first_wild(const double *values, size_t samples) {
    size_t at = 0;
    while (at < samples && isfinite(values[at])) at++;
    return at;
}

static bool tell_values(const struct bytes *file, const struct wav *wav, struct why *why) {
    double *values = malloc((wav->samples + 1) * sizeof *values);
    if (!values) return refuse(why, "no memory for %zu samples", wav->samples);
    wav_values(wav, file->at, 0, wav->samples, values);
    size_t wild = first_wild(values, wav->samples);
    put_name("peak");
    put_peak(stdout, peak_of(values, wav->samples), wav->rate, wav->bits < 32);
    if (wild < wav->samples) {
        put_name("wild");
        printf("sample %zu is no finite number\n", wild);
    }
    free(values);
    return true;
}

/* Why the desk cannot go on from the WAV, where it cannot: that is no fault of the file. */
static void tell_other(const struct bytes *file, const struct wav *wav) {
    struct why reason = {.status = DONE};
    if (wav->gain[0]) {
        put_name("gain");
        printf("%s dB\n", wav->gain);
    }
    tell_chunks(file);
    if (wav_is_ours(wav, &reason)) return;
    put_name("no render");
    printf("%s\n", reason.text);
}

static bool tell_wav(const char *path, const struct bytes *file, struct why *why) {
    struct wav wav;
    printf("%s: WAV\n", path);
    if (!wav_read(file->at, file->len, &wav, why)) return false;
    bool readable = wav_is_readable(&wav);
    put_name("format");
    printf("%u, %u %s of %u bits, %u Hz\n", wav.format, wav.channels, counted(wav.channels, "channel", "channels"),
           wav.bits, wav.rate);
    if (readable) tell_length(wav.samples, wav.rate);
    if (readable && !tell_values(file, &wav, why)) return false;
    tell_other(file, &wav);
    return !readable || wav_agrees(&wav, why);
}

/* The first of the largest; below 0 where there are no sections. */
static struct peak largest_peak(const uint8_t *file, size_t sections) {
    struct peak largest = {.level = -1};
    for (size_t i = 0; i < sections; i++) {
        struct peak peak = shelf_peak(file, i);
        if (peak.level > largest.level) largest = peak;
    }
    return largest;
}

static bool tell_shelf(const char *path, const struct bytes *file, struct why *why) {
    struct shelf_file about;
    printf("%s: shelf\n", path);
    if (!shelf_look(file->at, file->len, &about, why)) return false;
    size_t entries = gav_sections(about.samples);
    put_name("version");
    printf("%u of the file, %u of the voice\n", SHELF_VERSION, about.voice);
    put_name("settings");
    put_settings(stdout, &about.settings);
    printf("\n");
    tell_length(about.samples, about.settings.rate);
    put_name("sections");
    printf("%zu %s of %d words, one each %d samples\n", entries, counted(entries, "entry", "entries"), GAV_STATE_WORDS,
           GAV_SECTION);
    put_name("peak");
    put_peak(stdout, largest_peak(file->at, entries), about.settings.rate, false);
    put_name("WAV");
    printf("%u-bit floats\n", about.bits);
    tell_records(&about.score);
    if (count_unheard(&about.score, about.samples) > 0) {
        put_name("unheard");
        put_unheard(stdout, &about.score, about.samples, about.settings.rate);
    }
    return true;
}

/* struct score has room for one record more than a score may have; a longer file is cut there, and refused. */
static bool tell_score(const char *path, const struct bytes *file, struct why *why) {
    struct score score = {.len = file->len < sizeof score.at ? file->len : sizeof score.at};
    if (score.len > 0) memcpy(score.at, file->at, score.len);
    printf("%s: %s\n", path, file->len > 0 ? "score" : "empty file: a score of no records");
    if (!check_score(NULL, &score, why)) return false;
    tell_records(&score);
    return true;
}

/* A file that is no WAV, shelf or score can be a text of a score; else it is none of these. */
static bool tell_text(const char *path, const struct bytes *file, struct why *why) {
    struct score score;
    if (file->len > MOST_TEXT) return refuse(why, "it is no WAV, shelf or score, and too long for a text of one");
    if (!score_of_text(file->at, file->len, &score, why)) {
        return preface(why, "it is no WAV, shelf or score, and no text that `desk make` takes: ");
    }
    printf("%s: text of a score, for `desk make`\n", path);
    tell_records(&score);
    return true;
}

static bool tell_file(const char *path, const struct bytes *file, struct why *why) {
    if (begins_with(file, "RIFF", 4)) return tell_wav(path, file, why);
    if (shelf_begins(file->at, file->len)) return tell_shelf(path, file, why);
    if (file->len == 0 || begins_with(file, "\x56\x4E", 2)) return tell_score(path, file, why);
    return tell_text(path, file, why);
}

static bool run_info(char **given, struct why *why) {
    const char *path = NULL;
    const struct option options[] = {{NULL, NULL}};
    const struct option operands[] = {{"FILE", &path}, {NULL, NULL}};
    const struct arguments takes = {.options = options, .operands = operands};
    struct bytes file;
    if (!read_arguments(given, &takes, why) || !read_file(path, WAV_MOST, &file, why)) return false;
    bool told = tell_file(path, &file, why);
    free(file.at);
    return told ? true : preface(why, "%s: ", path);
}

const struct verb info_verb = {
    .name = "info",
    .summary = "tells what a file is: a WAV, a shelf, a score, or a text of one",
    .help = "desk info FILE\n"
            "Tells what the file is, its kind first. Of a WAV: format, length, peak, and chunks of other programs;\n"
            "of a shelf: version, settings, length, sections, peak and the records of its score; of a score, or of\n"
            "a text that `desk make` takes: its records. A file that is damaged, or none of these, ends with status\n"
            "1 and what is wrong. FILE may be - for standard input.\n",
    .run = run_info,
};
