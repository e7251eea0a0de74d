/* The readers of the desk, each on an input of any bytes, with what is promised of them; a promise that does not hold
   ends the program with a message. tests/desk/fuzz.c feeds them with inputs of its own, libFuzzer with those that it
   finds.

   Promised is: an accepted score is listed, and the list makes that score; an accepted text makes a score whose list
   makes it again; an accepted text of edits makes edits of which only an insert into a full score, the removal of a
   record that is not there and a reset with a note or a velocity are refused, each in words, and the others are made as
   the fuzzer makes them; an accepted shelf has as many words as its length asks for, the library answers to them, and
   the desk has words for the answer; each peak of it is a number at a sample of its section, and a re-render makes
   whole sections, whose peaks are then the samples'; the samples of a WAV lie in it, and are the same after its PEAK
   chunks are taken out; what is refused is refused in words. */
#include "fuzz_readers.h"

#include <math.h>
#include <stdlib.h>
#include <string.h>
#include <time.h>

/* The sound of a shelf that is longer than this is not made. */
#define MOST_MADE 20000u
/* Seconds between two lines. */
#define BETWEEN_LINES 5

const char *const reader_names[READERS] = {
    [SCORES] = "scores", [TEXTS] = "texts", [SHELVES] = "shelves", [WAVS] = "WAVs", [EDITS] = "texts of edits"};

static uint64_t inputs;

void hold(bool holds, const char *promise) {
    if (holds) return;
    fprintf(stderr, "fuzz: input %llu: %s\n", (unsigned long long)inputs, promise);
    abort();
}

void tell_now_and_then(uint64_t of) {
    static time_t begun, told;
    time_t now = time(NULL);
    if (!begun) begun = told = now;
    if (now - told < BETWEEN_LINES) return;
    told = now;
    printf("fuzz: %llu inputs", (unsigned long long)inputs);
    if (of) printf(" of %llu, %llu %%", (unsigned long long)of, (unsigned long long)(100 * inputs / of));
    printf(", %lld s\n", (long long)(now - begun));
    fflush(stdout);
}

/* A copy in memory of just its size, so that a sanitizer sees a byte read past its end. */
static uint8_t *exact(const uint8_t *from, size_t len) {
    uint8_t *copy = malloc(len ? len : 1);
    if (!copy) exit(1);
    if (len) memcpy(copy, from, len);
    return copy;
}

/* Room for words, empty. */
static struct why *no_words(void) {
    static struct why why;
    why.status = DONE;
    why.text[0] = '\0';
    return &why;
}

static bool is_told(const struct why *why) { return why->status == REFUSED && why->text[0]; }

/* An accepted score, by way of its list. */
static void hold_inverse(const struct score *score) {
    static uint8_t text[GAV_LIST_ROOM];
    static struct score again;
    struct why *why = no_words();
    uint64_t answer = gav_list(score->at, score->len, text, GAV_LIST_ROOM);
    hold(gav_number(answer) == 0 && gav_count(answer) <= GAV_LIST_ROOM, "an accepted score is not listed");
    uint8_t *copy = exact(text, gav_count(answer));
    hold(score_of_text(copy, gav_count(answer), &again, why), "a list makes no score");
    hold(same_score(&again, score), "a list makes another score");
    free(copy);
}

/* A longer input is a file that fills the room of a score. */
static bool take_score(const uint8_t *at, size_t len) {
    static struct score score;
    struct why *why = no_words();
    score.len = len < sizeof score.at ? len : sizeof score.at;
    memcpy(score.at, at, score.len);
    if (check_score("score", &score, why)) {
        hold_inverse(&score);
        return true;
    }
    hold(is_told(why) && strstr(why->text, "refused ") != NULL, "a score is refused without a number");
    return false;
}

static bool take_text(const uint8_t *at, size_t len) {
    static struct score score;
    struct why *why = no_words();
    if (score_of_text(at, len, &score, why)) {
        hold_inverse(&score);
        return true;
    }
    hold(is_told(why) && strncmp(why->text, "line ", 5) == 0, "a text is refused without a line");
    return false;
}

/* An edit, made as 02 says it; 0, or the number that it is refused with. */
static unsigned make_edit(const uint8_t *edit, struct score *score) {
    const uint8_t *record = edit + GAV_EDIT_BYTES - RECORD_BYTES;
    size_t at = 0;
    if (record[6] == 3 && (record[7] || record[8])) return GAV_EDIT_RECORD_FIELD;
    if (edit[2] == GAV_INSERT) {
        if (score->len == MOST_SCORE) return GAV_EDIT_FULL;
        while (at < score->len && get_u32(score->at + at + 2) <= get_u32(record + 2)) at += RECORD_BYTES;
        memmove(score->at + at + RECORD_BYTES, score->at + at, score->len - at);
        memcpy(score->at + at, record, RECORD_BYTES);
        score->len += RECORD_BYTES;
        return 0;
    }
    while (at < score->len && memcmp(score->at + at, record, RECORD_BYTES) != 0) at += RECORD_BYTES;
    if (at == score->len) return GAV_EDIT_NOT_THERE;
    score->len -= RECORD_BYTES;
    memmove(score->at + at, score->at + at + RECORD_BYTES, score->len - at);
    return 0;
}

/* All of them, on a score; the first that is refused is *place. */
static unsigned make_edits(const struct edits *edits, struct score *score, size_t *place) {
    for (*place = 0; *place < edits->count; ++*place) {
        unsigned number = make_edit(edits->list.at + GAV_EDIT_BYTES * *place, score);
        if (number) return number;
    }
    return 0;
}

/* The first edits of the list that insert, in a score that it can then remove from; so half of the lists find what they
   remove. One list in five, by its number of edits, begins with a score that is full. */
static void first_score(const struct edits *edits, struct score *score) {
    size_t place;
    struct edits some = {.count = 1};
    score->len = 0;
    while (edits->count % 5 == 4 && score->len < MOST_SCORE) add_record(score, 5, 1, 60, 1);
    for (size_t i = 0; i < edits->count; i++) {
        some.list.at = edits->list.at + GAV_EDIT_BYTES * i;
        if (some.list.at[2] == GAV_INSERT && i % 2 == 0) make_edits(&some, score, &place);
    }
}

/* The library makes them on a sound of no samples, and the desk has words for the answer. */
static void use_edits(const struct edits *edits) {
    static struct score before, after, made;
    const struct gav_settings settings = GAV_SETTINGS_DEFAULT;
    struct why *why = no_words();
    struct sound sound;
    size_t place;
    if (!sound_make(&sound, 0, why)) return;
    first_score(edits, &before);
    made = before;
    unsigned number = make_edits(edits, &made, &place);
    uint64_t said = voice_edit(&settings, &before, &edits->list, &sound, &after);
    struct asked asked = {.old_score = &before, .edits = &edits->list, .settings = &settings};
    hold(gav_number(said) == number && gav_count(said) == 0, "edits are refused with another number");
    hold(number == 0 || (gav_place(said) == place && is_of_edit(said)), "edits are refused at another place");
    hold(accepted(said, &asked, why) == (number == 0), "an answer to edits is told as another");
    hold(number == 0 || is_told(why), "edits are refused without words");
    hold(number != 0 || same_score(&made, &after), "edits make another score");
    sound_free(&sound);
}

/* Every edit has the bytes around a record, and a line of its own. */
static void hold_edits(const struct edits *edits, size_t lines) {
    hold(edits->list.len == GAV_EDIT_BYTES * edits->count, "edits are no whole number");
    for (size_t i = 0; i < edits->count; i++) {
        const uint8_t *edit = edits->list.at + GAV_EDIT_BYTES * i;
        hold(edit[0] == 0x45 && edit[1] == 0x44 && (edit[2] == GAV_INSERT || edit[2] == GAV_REMOVE) && edit[3] == 0 &&
                 edit[4] == 0x56 && edit[5] == 0x4E && kind_name(edit[10]) && edit[11] <= 127 && edit[12] <= 127 &&
                 edit[13] == 0,
             "an edit is none");
        hold(edits->line_of[i] > (i ? edits->line_of[i - 1] : 0) && edits->line_of[i] <= lines, "an edit's line");
    }
}

static bool take_edits(const uint8_t *at, size_t len) {
    struct edits edits;
    struct why *why = no_words();
    size_t lines = 1;
    for (size_t i = 0; i < len; i++) lines += at[i] == '\n';
    bool taken = edits_of_text(at, len, &edits, why);
    if (taken) {
        hold_edits(&edits, lines);
        use_edits(&edits);
    } else {
        hold(is_told(why) && strncmp(why->text, "line ", 5) == 0, "a text of edits is refused without a line");
    }
    edits_free(&edits);
    return taken;
}

static void hold_peaks(const uint8_t *file, size_t samples) {
    for (size_t i = 0; i < gav_sections(samples); i++) {
        struct peak peak = shelf_peak(file, i);
        hold(isfinite(peak.level) && !signbit(peak.level), "a peak of an accepted shelf is no number, or below 0");
        hold(peak.at / GAV_SECTION == i && peak.at < samples,
             "a peak of an accepted shelf is in no sample of its section");
        shelf_sum(file, i);
    }
}

/* The peaks of the sections from a sample to another. */
static void hold_new_peaks(const struct sound *sound, size_t from, size_t to) {
    for (size_t first = from; first < to; first += GAV_SECTION) {
        size_t section = first / GAV_SECTION;
        struct peak peak = peak_of(sound->at + first, section_end(sound->samples, section) - first);
        hold(bits_of(peak.level) == bits_of(sound->magnitudes[section]) && first + peak.at == sound->numbers[section],
             "a peak after a re-render is not the samples'");
    }
}

/* What was made starts at the section of the first change, and ends where a section does. */
static void hold_made(const struct score *before, const struct score *after, const struct sound *sound, size_t count) {
    size_t from = first_change(before, after) / GAV_SECTION * GAV_SECTION;
    hold(from < sound->samples && count <= sound->samples - from, "a re-render counts samples past the end");
    hold(from + count == sound->samples || count % GAV_SECTION == 0, "a re-render ends within a section");
    hold_new_peaks(sound, from, from + count);
}

/* The library answers to whatever words an accepted shelf has: the first half of its score is made of it. */
static void use_shelf(const uint8_t *file, const struct shelf_file *about) {
    static struct score after;
    struct why *why = no_words();
    struct sound sound;
    after = about->score;
    after.len -= after.len / RECORD_BYTES / 2 * RECORD_BYTES;
    if (about->samples > MOST_MADE || !sound_make(&sound, about->samples, why)) return;
    shelf_words(file, &sound);
    uint64_t answer = voice_rerender(&about->settings, &about->score, &after, &sound);
    unsigned number = gav_number(answer);
    struct asked asked = {.old_path = "shelf",
                          .old_score = &about->score,
                          .new_path = "new",
                          .new_score = &after,
                          .settings = &about->settings,
                          .samples = about->samples};
    hold(number == 0 || (number >= 6 && number <= 8), "a re-render gives a number that is not its own");
    hold(accepted(answer, &asked, why) == (number == 0), "an answer is told as another");
    if (gav_count(answer) > 0) hold_made(&about->score, &after, &sound, gav_count(answer));
    sound_free(&sound);
}

static bool take_shelf(const uint8_t *at, size_t len) {
    static struct shelf_file about;
    struct why *why = no_words();
    if (shelf_look(at, len, &about, why)) {
        hold_peaks(at, about.samples);
        use_shelf(at, &about);
        return true;
    }
    hold(is_told(why), "a shelf is refused without words");
    return false;
}

/* The values of every WAV whose samples can be read, taken or not, as info reads them. */
static void read_values(const uint8_t *at, size_t len) {
    struct why *why = no_words();
    struct wav wav;
    if (!wav_read(at, len, &wav, why) || !wav_is_readable(&wav)) return;
    hold(wav.data <= len && wav.samples * (wav.bits / 8) <= len - wav.data, "samples lie outside a WAV");
    double *values = malloc((wav.samples + 1) * sizeof *values);
    if (!values) exit(1);
    wav_values(&wav, at, 0, wav.samples, values);
    peak_of(values, wav.samples);
    free(values);
}

static void take_peak_out(const uint8_t *at, size_t len, const struct wav *wav) {
    struct why *why = no_words();
    struct wav after;
    struct chunk chunk;
    uint8_t *copy = exact(at, len);
    size_t left = wav_without_peak(copy, len);
    hold(left <= len && wav_look(copy, left, &after, why), "a WAV is none without its PEAK");
    hold(after.samples == wav->samples && after.bits == wav->bits && after.rate == wav->rate &&
             memcmp(copy + after.data, at + wav->data, wav->bits / 8 * wav->samples) == 0,
         "a WAV has other samples without its PEAK");
    for (size_t i = WAV_CHUNKS; i < left && wav_chunk(copy, left, i, &chunk); i = chunk.next) {
        hold(!wav_is_chunk(&chunk, "PEAK"), "a PEAK is left");
    }
    free(copy);
}

static bool take_wav(const uint8_t *at, size_t len) {
    struct wav wav;
    read_values(at, len);
    struct why *why = no_words();
    if (wav_look(at, len, &wav, why)) {
        take_peak_out(at, len, &wav);
        return true;
    }
    hold(is_told(why), "a WAV is refused without words");
    return false;
}

bool reader_takes(unsigned reader, const uint8_t *at, size_t len) {
    static bool (*const takes[READERS])(const uint8_t *, size_t) = {
        [SCORES] = take_score, [TEXTS] = take_text, [SHELVES] = take_shelf, [WAVS] = take_wav, [EDITS] = take_edits};
    uint8_t *copy = exact(at, len);
    inputs++;
    bool taken = takes[reader](copy, len);
    free(copy);
    return taken;
}

/* For libFuzzer: the first byte chooses the reader. A shelf comes in two ways: as it is, and with its sum made right,
   so that what lies behind the sum is read. */
int LLVMFuzzerTestOneInput(const uint8_t *data, size_t size);
int LLVMFuzzerTestOneInput(const uint8_t *data, size_t size) {
    if (size == 0) return 0;
    unsigned way = data[0] % (READERS + 1u), reader = way < READERS ? way : SHELVES;
    uint8_t *input = exact(data + 1, size - 1);
    if (way == READERS && size >= 9) put_u64(input + size - 9, sum_of(input, size - 9));
    tell_now_and_then(0);
    reader_takes(reader, input, size - 1);
    free(input);
    return 0;
}
