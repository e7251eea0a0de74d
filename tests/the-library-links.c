/* A host of the library: calls each function of gavberin.h on document 01's example score and on input that is refused,
 * and compares every answer and every lent buffer with what 01 says. The proof's account of floats has one NaN, so that
 * only a test can tell whether a NaN in a lent buffer keeps its bits: samples are NaNs of many kinds before a call. */
#include "gavberin.h"

#include <math.h>
#include <stdio.h>
#include <string.h>

#define N 5000
#define RATE 44100
#define ADSR 0.001, 0.1, 0.7, 0.2
#define NO_LFO GAV_SINE, NAN, 0, 0
#define PLAIN NO_LFO, GAV_STRUCK
#define KEYED(joined) RATE, GAV_SAWTOOTH, NAN, ADSR, NO_LFO, joined
#define SETTINGS KEYED(GAV_STRUCK)
#define JOINED KEYED(GAV_JOINED)
#define WORDS GAV_STATE_WORDS
#define SECTIONS 2
#define SUMMARY magnitudes, SECTIONS, numbers, SECTIONS
#define SUMMARY_BEFORE magnitudes_before, SECTIONS, numbers_before, SECTIONS
#define SUMMARY_OF_ALL peaks, SECTIONS, places, SECTIONS
#define LEN(a) (sizeof(a) / sizeof *(a))

#define ON_69 0x56, 0x4E, 0, 0, 0, 0, 1, 69, 127, 0
#define OFF_69_AT_100 0x56, 0x4E, 100, 0, 0, 0, 2, 69, 0, 0
#define AT_4500(kind, note, velocity) 0x56, 0x4E, 0x94, 0x11, 0, 0, kind, note, velocity, 0
#define ON_60 AT_4500(1, 60, 100)
#define OFF_60_AT_0 0x56, 0x4E, 0, 0, 0, 0, 2, 60, 0, 0
#define EDIT(code, ...) 0x45, 0x44, code, 0, __VA_ARGS__
#define INSERT(...) EDIT(GAV_INSERT, __VA_ARGS__)
#define REMOVE(...) EDIT(GAV_REMOVE, __VA_ARGS__)

static const uint8_t example[] = {ON_69, OFF_69_AT_100};
/* the example, and note 60 on at 4,500 */
static const uint8_t longer[] = {ON_69, OFF_69_AT_100, ON_60};
/* the longer score, and a reset at 300 */
static const uint8_t reset[] = {ON_69, OFF_69_AT_100, 0x56, 0x4E, 0x2C, 1, 0, 0, 3, 0, 0, 0, ON_60};
/* note 60 off at 0, which finds no key, and the example */
static const uint8_t stray[] = {OFF_60_AT_0, ON_69, OFF_69_AT_100};
/* the example, and note 60 on at 5,000, where the output has ended */
static const uint8_t late[] = {ON_69, OFF_69_AT_100, 0x56, 0x4E, 0x88, 0x13, 0, 0, 1, 60, 100, 0};
/* note 69 on, and note 60 on at 4,500, while 69 sounds */
static const uint8_t overlapping[] = {ON_69, ON_60};
static const uint8_t wrong_mark[] = {ON_69, 0x56, 0x4F, 100, 0, 0, 0, 2, 69, 0, 0};
static const uint8_t wrong_kind[] = {ON_69, 0x56, 0x4E, 100, 0, 0, 0, 4, 69, 0, 0};
static const uint8_t wrong_note[] = {ON_69, 0x56, 0x4E, 100, 0, 0, 0, 2, 128, 0, 0};
static const uint8_t falling[] = {OFF_69_AT_100, ON_69};

static double out[N], out_before[N], played[N], all[N];
static uint64_t shelf[2 * GAV_STATE_WORDS], shelf_before[LEN(shelf)], entries[LEN(shelf)];
/* one more than the sections, for summaries that are too long */
static double magnitudes[SECTIONS + 1], magnitudes_before[LEN(magnitudes)], peaks[SECTIONS];
static uint64_t numbers[SECTIONS + 1], numbers_before[LEN(numbers)], places[SECTIONS];
static uint64_t state[GAV_STATE_WORDS + 1], state_before[LEN(state)];
static uint8_t text[GAV_LIST_ROOM], text_before[LEN(text)];
/* one byte more than a page writes its score to */
static uint8_t new_score[GAV_SCORE_BYTES + 1], new_score_before[LEN(new_score)], full[GAV_SCORE_BYTES];

static int held, faults;

static void hold(int ok, const char *what, int line) {
    held++;
    if (!ok) {
        faults++;
        printf("line %d: not so: %s\n", line, what);
    }
}
#define HOLD(fact) hold(fact, #fact, __LINE__)

/* Compared by bytes, as many as the first array has: -0.0 and +0.0 differ. */
#define SAME(a, b) (memcmp(a, b, sizeof(a)) == 0)

static uint64_t says(unsigned number, uint32_t place, uint32_t count) {
    return number | (uint64_t)place << 8 | (uint64_t)count << 32;
}

static uint64_t bits(double x) {
    uint64_t word;
    memcpy(&word, &x, sizeof word);
    return word;
}

/* A NaN for each i, written as bits: either sign, quiet and signalling, payloads from 1 to all bits. */
static void put_nan(double *at, size_t i) {
    static const uint64_t kinds[] = {0x7ff8000000000000, 0x7ff0000000000001, 0x7fffffffffffffff, 0x7ff7ffffffffffff};
    uint64_t payload = (i * 0x9e3779b97f4a7c15 >> 12) | 1;
    uint64_t word = i < 2 * LEN(kinds) ? kinds[i / 2] : 0x7ff0000000000000 | payload;
    word |= (uint64_t)(i % 2) << 63;
    memcpy(at, &word, sizeof word);
}

static void put_nans(double *at, size_t n) {
    for (size_t i = 0; i < n; i++) put_nan(at + i, i);
}

static void keep_shelf(void) {
    memcpy(shelf_before, shelf, sizeof shelf);
    memcpy(magnitudes_before, magnitudes, sizeof magnitudes);
    memcpy(numbers_before, numbers, sizeof numbers);
}

/* Every buffer with a pattern that no call leaves, and a copy of each. */
static void spoil(void) {
    put_nans(out, N);
    put_nans(magnitudes, LEN(magnitudes));
    memset(shelf, 0xA5, sizeof shelf);
    memset(numbers, 0xA5, sizeof numbers);
    memset(state, 0xA5, sizeof state);
    memset(text, '~', sizeof text);
    memset(new_score, 0xA5, sizeof new_score);
    memcpy(out_before, out, sizeof out);
    keep_shelf();
    memcpy(state_before, state, sizeof state);
    memcpy(text_before, text, sizeof text);
    memcpy(new_score_before, new_score, sizeof new_score);
}

/* Shelf and summary: as they were, and as those of all. */
static int is_before(void) {
    return SAME(shelf, shelf_before) && SAME(magnitudes, magnitudes_before) && SAME(numbers, numbers_before);
}

static int is_of_all(void) { return SAME(shelf, entries) && SAME(peaks, magnitudes) && SAME(places, numbers); }

static int untouched(void) {
    return SAME(out, out_before) && is_before() && SAME(state, state_before) && SAME(text, text_before) &&
           SAME(new_score, new_score_before);
}

static void answers(void) {
    uint64_t answer = says(21, 4095, GAV_MOST_SAMPLES);
    HOLD(gav_number(answer) == 21 && gav_place(answer) == 4095 && gav_count(answer) == GAV_MOST_SAMPLES);
    HOLD(gav_version() == GAV_VERSION);
    HOLD(strcmp(gav_words(GAV_DONE), "done") == 0 && strcmp(gav_words(says(GAV_DONE, 0, N)), "done") == 0);
    HOLD(strstr(gav_words(says(21, 4095, 0)), "of the new score has a position below that of the record before it") != NULL);
    HOLD(strstr(gav_words(says(51, 7, 0)), "the record of an edit is of a kind that is not 1 (on), 2 (off) or 3 (reset)") != NULL);
    HOLD(strcmp(gav_words(says(GAV_DONE, GAV_SCORE_BYTES, N)), "done") == 0);
    const char *unknown = gav_words(255);
    for (unsigned number = 0; number < 256; number++) {
        int known = number <= 10 || (number >= 17 && number <= 21) || (number >= 33 && number <= 36) || (number >= 50 && number <= 52);
        HOLD((strcmp(gav_words(number), unknown) != 0) == known);
    }
    HOLD(gav_sections(0) == 0 && gav_sections(1) == 1 && gav_sections(4096) == 1 && gav_sections(4097) == 2);
    HOLD(gav_shelf_words(0) == 0 && gav_shelf_words(1) == 13 && gav_shelf_words(4096) == 13 && gav_shelf_words(4097) == 26);
}

static void scores(void) {
    HOLD(gav_check_score(example, LEN(example)) == 0);
    HOLD(gav_check_score(NULL, 0) == 0);
    HOLD(gav_check_score(example, 19) == says(1, 0, 0));
    HOLD(gav_check_score(wrong_mark, LEN(wrong_mark)) == says(2, 1, 0));
    HOLD(gav_check_score(wrong_kind, LEN(wrong_kind)) == says(3, 1, 0));
    HOLD(gav_check_score(wrong_note, LEN(wrong_note)) == says(4, 1, 0));
    HOLD(gav_check_score(falling, LEN(falling)) == says(5, 1, 0));
}

/* 01's worked examples (f) and (g), the top of a sine, and a pulse while it is low; then refusals, with +0. */
static void samples(void) {
    HOLD(gav_sample(GAV_SAWTOOTH, 0.125, 0.25, NAN) == -0.5 && gav_sample_says(GAV_SAWTOOTH, 0.125, 0.25, NAN) == 0);
    HOLD(gav_sample(GAV_SQUARE, 0, 0.25, 2) == 0 && gav_sample_says(GAV_SQUARE, 0, 0.25, 2) == 0);
    HOLD(gav_sample(GAV_SINE, 0.25, 0, NAN) == 1 && gav_sample_says(GAV_SINE, 0.25, 0, NAN) == 0);
    HOLD(gav_sample(GAV_TRIANGLE, 0.25, 0, 0) == 0 && gav_sample_says(GAV_TRIANGLE, 0.25, 0, 0) == 0);
    HOLD(gav_sample(GAV_PULSE, 0.5, 0, 0.25) == -1 && gav_sample_says(GAV_PULSE, 0.5, 0, 0.25) == 0);
    HOLD(bits(gav_sample(GAV_PULSE, 0.5, 0, 2)) == 0 && gav_sample_says(GAV_PULSE, 0.5, 0, 2) == says(6, 0, 0));
    HOLD(bits(gav_sample(5, 0.5, 0, 0.5)) == 0 && gav_sample_says(5, 0.5, 0, 0.5) == says(6, 0, 0));
    HOLD(bits(gav_sample(7, 0.5, 0, 0.5)) == 0 && gav_sample_says(7, 0.5, 0, 0.5) == says(6, 0, 0));
    HOLD(bits(gav_sample(9, NAN, 0, 0.5)) == 0 && gav_sample_says(9, NAN, 0, 0.5) == says(6, 0, 0));
    HOLD(bits(gav_sample(GAV_SQUARE, NAN, 0, 0)) == 0 && gav_sample_says(GAV_SQUARE, NAN, 0, 0) == says(9, 0, 0));
    HOLD(bits(gav_sample(GAV_SINE, 0.25, 5, 0)) == 0 && gav_sample_says(GAV_SINE, 0.25, 5, 0) == says(9, 0, 0));
}

static void renders(void) {
    spoil();
    HOLD(gav_render(7999, GAV_SAWTOOTH, 0.5, ADSR, PLAIN, example, 20, out, N, shelf, 25, SUMMARY) == says(6, 0, 0));
    HOLD(gav_render(RATE, 5, 0.5, ADSR, PLAIN, example, 19, out, N, shelf, 2 * WORDS, SUMMARY) == says(6, 0, 0));
    HOLD(gav_render(RATE, 7, 0.5, ADSR, PLAIN, example, 19, out, N, shelf, 2 * WORDS, SUMMARY) == says(6, 0, 0));
    HOLD(gav_render(RATE, GAV_PULSE, NAN, ADSR, PLAIN, example, 20, out, N, shelf, 2 * WORDS, SUMMARY) == says(6, 0, 0));
    HOLD(gav_render(RATE, GAV_SINE, 0.5, NAN, 0, 0, 0, PLAIN, example, 20, out, N, shelf, 2 * WORDS, SUMMARY) == says(6, 0, 0));
    HOLD(gav_render(SETTINGS, example, 19, out, N, shelf, 2 * WORDS - 1, SUMMARY) == says(7, 0, 0));
    HOLD(gav_render(SETTINGS, example, 19, out, N, shelf, 2 * 12, SUMMARY) == says(7, 0, 0));
    HOLD(gav_render(SETTINGS, wrong_kind, 20, out, N, shelf, 2 * WORDS, SUMMARY) == says(3, 1, 0));
    HOLD(untouched());

    HOLD(gav_render(SETTINGS, NULL, 0, NULL, 0, NULL, 0, NULL, 0, NULL, 0) == 0);
    HOLD(gav_render(SETTINGS, example, 20, out, N, shelf, 2 * WORDS, SUMMARY) == says(0, 0, N));
    /* entry 0 is the fresh state; in entry 1 both records have acted, and the note's pitch and velocity are kept */
    const uint64_t *second = shelf + WORDS;
    HOLD(shelf[0] == 0 && shelf[1] == 0 && shelf[5] == 255 && shelf[6] == bits(440.0) && shelf[7] == 0 && shelf[12] == 0);
    HOLD(second[1] == 4 && second[5] == 255 + 2 * 65536 && second[6] == bits(440.0) && second[7] == bits(1.0));
    /* the attack begins at level 0; a sawtooth at phase 0 and every sample before the release ends is no silence */
    HOLD(out[0] == 0 && out[50] != 0 && out[4999] != 0);
    int sound = 1;
    for (size_t i = 0; i < N; i++) sound &= isfinite(out[i]) && fabs(out[i]) < 2;
    HOLD(sound);
}

/* After renders(): out and shelf are those of the example. */
static void rerenders(void) {
    memcpy(played, out, sizeof out);
    put_nans(out, N);
    memcpy(out_before, out, sizeof out);
    keep_shelf();
    HOLD(gav_rerender(SETTINGS, example, 20, example, 20, out, N, shelf, 2 * WORDS, SUMMARY) == 0);
    HOLD(gav_rerender(RATE, 5, 0, ADSR, PLAIN, example, 19, example, 20, out, N, shelf, 2 * WORDS, SUMMARY) == says(6, 0, 0));
    HOLD(gav_rerender(SETTINGS, example, 20, longer, 30, out, N, shelf, WORDS, SUMMARY) == says(7, 0, 0));
    HOLD(gav_rerender(SETTINGS, example, 19, wrong_kind, 20, out, N, shelf, 2 * WORDS, SUMMARY) == says(1, 0, 0));
    HOLD(gav_rerender(SETTINGS, example, 20, wrong_kind, 20, out, N, shelf, 2 * WORDS, SUMMARY) == says(19, 1, 0));
    HOLD(SAME(out, out_before) && is_before());
    shelf[WORDS + 1] = 5;
    HOLD(gav_rerender(SETTINGS, example, 20, longer, 30, out, N, shelf, 2 * WORDS, SUMMARY) == says(8, 0, 0));
    shelf[WORDS + 1] = 4;
    HOLD(SAME(out, out_before) && is_before());
    memcpy(out, played, sizeof out);
    memcpy(out_before, played, sizeof out);

    /* from section 1 on, sample 4,096, it is the new score's render; what lies before stays, here NaNs of every kind */
    double strange;
    put_nan(&strange, 3);
    put_nan(magnitudes, 3);
    numbers[0] = 77;
    put_nans(out, GAV_SECTION);
    memcpy(played, out, sizeof out);
    HOLD(gav_rerender(SETTINGS, example, 20, longer, 30, out, N, shelf, 2 * WORDS, SUMMARY) == says(0, 0, N - GAV_SECTION));
    HOLD(memcmp(out, played, GAV_SECTION * sizeof *out) == 0);
    HOLD(memcmp(magnitudes, &strange, sizeof strange) == 0 && numbers[0] == 77);
    memcpy(out, out_before, GAV_SECTION * sizeof *out);
    HOLD(gav_render(SETTINGS, longer, 30, all, N, entries, 2 * WORDS, SUMMARY_OF_ALL) == says(0, 0, N));
    magnitudes[0] = peaks[0], numbers[0] = places[0];
    HOLD(SAME(out, all) && is_of_all());
    HOLD(!SAME(out, out_before));
}

/* An edit that stops at section 1: an off at 0 that finds no key. What lies behind the stop stays, here NaNs of every
 * kind, but for the records that have acted, of which there is one more. */
static void stops(void) {
    double strange, behind[N - GAV_SECTION];
    HOLD(gav_render(SETTINGS, stray, 30, all, N, entries, 2 * WORDS, SUMMARY_OF_ALL) == says(0, 0, N));
    HOLD(gav_render(SETTINGS, example, 20, out, N, shelf, 2 * WORDS, SUMMARY) == says(0, 0, N));
    HOLD(SAME(out, all) && shelf[WORDS + 5] >> 16 == 2 && entries[WORDS + 5] >> 16 == 3);
    put_nans(out, N);
    memcpy(behind, out + GAV_SECTION, sizeof behind);
    put_nan(&strange, 3);
    magnitudes[0] = magnitudes[1] = 99, numbers[0] = numbers[1] = 77;
    memcpy(magnitudes + 1, &strange, sizeof strange);
    HOLD(gav_rerender(SETTINGS, example, 20, stray, 30, out, N, shelf, 2 * WORDS, SUMMARY) == says(0, 0, GAV_SECTION));
    HOLD(memcmp(out, all, GAV_SECTION * sizeof *out) == 0 && SAME(behind, out + GAV_SECTION));
    HOLD(magnitudes[0] == peaks[0] && numbers[0] == places[0]);
    HOLD(memcmp(magnitudes + 1, &strange, sizeof strange) == 0 && numbers[1] == 77);
    HOLD(SAME(shelf, entries));
}

/* A page on the score and the buffers. */
static uint64_t page(const uint8_t *score, size_t len, const uint8_t *edits, size_t edits_len) {
    return gav_edit(SETTINGS, score, len, edits, edits_len, out, N, shelf, 2 * WORDS, SUMMARY, new_score, GAV_SCORE_BYTES);
}

/* One edit of the example with a byte that is another; where its record's mark is wrong too, the edit's own byte is told.
 */
static uint64_t edit_with(size_t at, uint8_t byte, uint8_t mark) {
    uint8_t edits[2 * GAV_EDIT_BYTES] = {INSERT(ON_60), INSERT(ON_60)};
    edits[GAV_EDIT_BYTES + 4] = mark;
    edits[GAV_EDIT_BYTES + at] = byte;
    return page(example, 20, edits, sizeof edits);
}

/* Over buffers that nothing was rendered into, so that a page that is right is 8. */
static void refused_pages(void) {
    static const uint8_t add[] = {INSERT(ON_60)}, absent[] = {INSERT(ON_60), REMOVE(AT_4500(1, 60, 101))};
    static const uint8_t first[] = {REMOVE(ON_60), 0}, in_place[] = {REMOVE(ON_69), INSERT(ON_60), INSERT(ON_60)};
    static const uint8_t undone[] = {INSERT(ON_60), REMOVE(ON_60)};
    for (size_t i = 0; i < sizeof full; i++) full[i] = example[i % 10];
    spoil();
    HOLD(gav_edit(RATE, 5, 0, ADSR, PLAIN, example, 19, first, 15, out, N, shelf, 1, SUMMARY, new_score, 1) == says(6, 0, 0));
    HOLD(gav_edit(SETTINGS, example, 19, first, 15, out, N, shelf, 1, SUMMARY, new_score, 1) == says(7, 0, 0));
    HOLD(gav_edit(SETTINGS, example, 19, first, 15, out, N, shelf, 2 * WORDS, SUMMARY, new_score, 1) == says(1, 0, 0));
    HOLD(page(wrong_kind, 20, first, 15) == says(3, 1, 0) && page(falling, 20, first, 15) == says(5, 1, 0));
    HOLD(page(example, 20, first, 15) == says(36, 0, 0) && page(example, 20, first, 13) == says(36, 0, 0));
    for (size_t more = 0; more < 3; more += 2) {
        HOLD(gav_edit(SETTINGS, example, 20, first, 14, out, N, shelf, 2 * WORDS, SUMMARY, new_score, GAV_SCORE_BYTES - 1 + more) ==
             says(36, 0, 0));
    }
    HOLD(gav_edit(SETTINGS, example, 20, NULL, 0, out, N, shelf, 2 * WORDS, SUMMARY, NULL, 0) == says(36, 0, 0));
    HOLD(edit_with(0, 0x44, 0) == says(33, 1, 0) && edit_with(1, 0x45, 0) == says(33, 1, 0));
    HOLD(edit_with(2, 0, 0) == says(33, 1, 0) && edit_with(2, 3, 0) == says(33, 1, 0) && edit_with(3, 1, 0) == says(33, 1, 0));
    HOLD(edit_with(5, 0x4F, 0x56) == says(50, 1, 0) && edit_with(10, 4, 0x56) == says(51, 1, 0));
    HOLD(edit_with(11, 128, 0x56) == says(52, 1, 0) && edit_with(13, 1, 0x56) == says(52, 1, 0));
    HOLD(page(example, 20, first, 14) == says(34, 0, 0) && page(example, 20, absent, LEN(absent)) == says(34, 1, 0));
    HOLD(page(full, sizeof full, add, LEN(add)) == says(35, 0, 0) && page(full, sizeof full, undone, LEN(undone)) == says(35, 0, 0));
    HOLD(page(full, sizeof full, in_place, LEN(in_place)) == says(35, 2, 0));
    HOLD(page(full, sizeof full, in_place, 28) == says(8, 0, 0) && page(example, 20, add, LEN(add)) == says(8, 0, 0));
    HOLD(untouched());

    /* where nothing is made no entry is read; the score is written, and nothing else */
    HOLD(page(example, 20, NULL, 0) == says(0, 20, 0) && memcmp(new_score, example, 20) == 0);
    HOLD(memcmp(new_score + 20, new_score_before + 20, sizeof new_score - 20) == 0);
    HOLD(page(example, 20, undone, LEN(undone)) == says(0, 20, 0) && page(full, sizeof full, NULL, 0) == says(0, 40960, 0));
    HOLD(memcmp(new_score, full, sizeof full) == 0 && new_score[sizeof full] == 0xA5);
    memcpy(new_score, new_score_before, sizeof new_score);
    HOLD(untouched());
}

/* A page leaves what a render of the new score leaves; what lies before the start stays, here NaNs of every kind. */
static void pages(void) {
    static const uint8_t edits[] = {REMOVE(OFF_69_AT_100), INSERT(ON_60), INSERT(OFF_69_AT_100)};
    double strange;
    HOLD(gav_render(SETTINGS, longer, 30, all, N, entries, 2 * WORDS, SUMMARY_OF_ALL) == says(0, 0, N));
    HOLD(gav_render(SETTINGS, example, 20, out, N, shelf, 2 * WORDS, SUMMARY) == says(0, 0, N));
    memset(new_score, 0xA5, sizeof new_score);
    put_nan(&strange, 3);
    put_nan(magnitudes, 3);
    numbers[0] = 77;
    put_nans(out, GAV_SECTION);
    memcpy(played, out, sizeof out);
    HOLD(page(example, 20, edits, LEN(edits)) == says(0, 30, N - GAV_SECTION));
    HOLD(memcmp(out, played, GAV_SECTION * sizeof *out) == 0);
    HOLD(memcmp(magnitudes, &strange, sizeof strange) == 0 && numbers[0] == 77);
    HOLD(memcmp(out + GAV_SECTION, all + GAV_SECTION, (N - GAV_SECTION) * sizeof *out) == 0 && SAME(shelf, entries));
    HOLD(magnitudes[1] == peaks[1] && numbers[1] == places[1]);
    HOLD(memcmp(new_score, longer, 30) == 0 && new_score[30] == 0xA5 && new_score[GAV_SCORE_BYTES] == 0xA5);
}

/* A page that stops at section 1: the off at 0, behind the key there. What lies behind the stop stays, but for the
 * records that have acted. */
static void pages_stop(void) {
    static const uint8_t edits[] = {INSERT(OFF_60_AT_0)}, after[] = {ON_69, OFF_60_AT_0, OFF_69_AT_100};
    double strange, behind[N - GAV_SECTION];
    HOLD(gav_render(SETTINGS, after, 30, all, N, entries, 2 * WORDS, SUMMARY_OF_ALL) == says(0, 0, N));
    HOLD(gav_render(SETTINGS, example, 20, out, N, shelf, 2 * WORDS, SUMMARY) == says(0, 0, N));
    put_nans(out, N);
    memcpy(behind, out + GAV_SECTION, sizeof behind);
    put_nan(&strange, 3);
    memcpy(magnitudes + 1, &strange, sizeof strange);
    numbers[1] = 77;
    HOLD(page(example, 20, edits, LEN(edits)) == says(0, 30, GAV_SECTION) && memcmp(new_score, after, 30) == 0);
    HOLD(memcmp(out, all, GAV_SECTION * sizeof *out) == 0 && SAME(behind, out + GAV_SECTION));
    HOLD(magnitudes[0] == peaks[0] && memcmp(magnitudes + 1, &strange, sizeof strange) == 0 && numbers[1] == 77);
    HOLD(SAME(shelf, entries));
}

/* After rerenders(): out is the render of the longer score. The old score and the new one in one buffer. */
static void overlaps(void) {
    HOLD(gav_rerender(SETTINGS, longer, 30, longer, 20, out, N, shelf, 2 * WORDS, SUMMARY) == says(0, 0, N - GAV_SECTION));
    HOLD(SAME(out, out_before) && is_before());
    HOLD(gav_rerender(SETTINGS, longer, 20, longer, 20, out, N, shelf, 2 * WORDS, SUMMARY) == 0);
    HOLD(SAME(out, out_before) && is_before());
    HOLD(gav_rerender(SETTINGS, longer, 20, longer, 30, out, N, shelf, 2 * WORDS, SUMMARY) == says(0, 0, N - GAV_SECTION));
    HOLD(SAME(out, all) && is_of_all());
    HOLD(gav_rerender(SETTINGS, longer, 30, longer + 1, 20, out, N, shelf, 2 * WORDS, SUMMARY) == says(18, 0, 0));
    HOLD(SAME(out, all) && is_of_all());
    /* the second record is the first of the new score, so it begins at entry 0 */
    HOLD(gav_rerender(SETTINGS, longer, 30, longer + 10, 20, out, N, shelf, 2 * WORDS, SUMMARY) == says(0, 0, N));
    HOLD(gav_render(SETTINGS, longer + 10, 20, played, N, shelf_before, 2 * WORDS, SUMMARY_BEFORE) == says(0, 0, N));
    HOLD(SAME(out, played) && is_before());
}

/* The wrappers hand each setting on in its place: pulses of their own duties, settings that all differ, and keys that
 * are joined. */
#define PULSE 9000, GAV_PULSE, 0.25, 0.01, 0.1, 0.7, 0.02, GAV_PULSE, 0.375, 7, 0.875, GAV_JOINED
static void wrappers(void) {
    struct gav_settings s = GAV_SETTINGS_DEFAULT;
    HOLD(s.rate == 48000 && s.code == GAV_SAWTOOTH && s.duty == 0.5);
    HOLD(s.attack == 0.01 && s.decay == 0.1 && s.sustain == 0.7 && s.release == 0.3);
    HOLD(s.lfo_code == GAV_SINE && s.lfo_duty == 0.5 && s.lfo_frequency == 0 && s.lfo_depth == 0);
    HOLD(s.joined == GAV_STRUCK);
    s.rate = 9000;
    s.code = s.lfo_code = GAV_PULSE;
    s.duty = 0.25;
    s.release = 0.02;
    s.lfo_duty = 0.375;
    s.lfo_frequency = 7;
    s.lfo_depth = 0.875;
    s.joined = GAV_JOINED;
    HOLD(gav_render(PULSE, overlapping, 20, out, N, shelf, 2 * WORDS, SUMMARY) == says(0, 0, N));
    HOLD(gav_render_with(&s, overlapping, 20, played, N, shelf_before, 2 * WORDS, SUMMARY_BEFORE) == says(0, 0, N));
    HOLD(SAME(out, played) && is_before());
    const uint64_t done = says(0, 0, N - GAV_SECTION);
    HOLD(gav_render_with(&s, overlapping, 10, played, N, shelf_before, 2 * WORDS, SUMMARY_BEFORE) == says(0, 0, N));
    HOLD(gav_rerender(PULSE, overlapping, 20, overlapping, 10, out, N, shelf, 2 * WORDS, SUMMARY) == done);
    HOLD(SAME(out, played) && is_before());
    HOLD(gav_rerender(PULSE, overlapping, 10, overlapping, 20, out, N, shelf, 2 * WORDS, SUMMARY) == done);
    HOLD(gav_rerender_with(&s, overlapping, 10, overlapping, 20, played, N, shelf_before, 2 * WORDS, SUMMARY_BEFORE) == done);
    HOLD(SAME(out, played) && is_before());
    const uint8_t edits[] = {REMOVE(ON_60), INSERT(AT_4500(1, 61, 100))};
    const uint64_t made = says(0, 20, N - GAV_SECTION);
    HOLD(gav_edit(PULSE, overlapping, 20, edits, 28, out, N, shelf, 2 * WORDS, SUMMARY, new_score, GAV_SCORE_BYTES) == made);
    HOLD(gav_edit_with(&s, overlapping, 20, edits, 28, played, N, shelf_before, 2 * WORDS, SUMMARY_BEFORE, new_score_before,
                       GAV_SCORE_BYTES) == made);
    HOLD(SAME(out, played) && is_before() && new_score[17] == 61 && memcmp(new_score, new_score_before, 20) == 0);
    HOLD(gav_rerender_with(&s, new_score, 20, overlapping, 20, out, N, shelf, 2 * WORDS, SUMMARY) == done);
    HOLD(gav_fresh(state, WORDS) == 0);
    HOLD(gav_continue_with(&s, overlapping, 20, state, WORDS, 0, played, N) == says(0, 0, N));
    HOLD(SAME(out, played));
}

/* After rerenders(): all is the render of the longer score, and entries its shelf. */
static void continues(void) {
    static const size_t parts[] = {100, 1, 0, 63, 64, 3868, 4, 400, 500};
    spoil();
    HOLD(gav_fresh(state, WORDS - 1) == says(9, 0, 0));
    HOLD(gav_fresh(state, WORDS + 1) == says(9, 0, 0));
    HOLD(gav_fresh(NULL, 0) == says(9, 0, 0));
    HOLD(untouched());
    HOLD(gav_fresh(state, WORDS) == 0);
    HOLD(memcmp(state, entries, WORDS * sizeof *state) == 0 && state[WORDS] == state_before[WORDS]);

    memcpy(state_before, state, sizeof state);
    HOLD(gav_continue(RATE, 9, 0, ADSR, PLAIN, longer, 29, state, WORDS - 1, GAV_MOST_SAMPLES, out, N) == says(6, 0, 0));
    HOLD(gav_continue(SETTINGS, longer, 29, state, WORDS - 1, GAV_MOST_SAMPLES, out, 1) == says(7, 0, 0));
    HOLD(gav_continue(SETTINGS, longer, 29, state, WORDS - 1, UINT64_MAX, out, N) == says(7, 0, 0));
    HOLD(gav_continue(SETTINGS, falling, 20, state, WORDS - 1, 0, out, N) == says(5, 1, 0));
    HOLD(gav_continue(SETTINGS, longer, 30, state, WORDS - 1, 0, out, N) == says(10, 0, 0));
    HOLD(gav_continue(SETTINGS, longer, 30, state, WORDS + 1, 0, out, N) == says(10, 0, 0));
    HOLD(gav_continue(SETTINGS, longer, 30, state, WORDS, 1, out, N) == says(10, 0, 0));
    HOLD(untouched());

    /* the last position there is, and nothing after it */
    HOLD(gav_continue(SETTINGS, NULL, 0, state, WORDS, GAV_MOST_SAMPLES, NULL, 0) == 0);
    HOLD(untouched());

    /* the third record comes late, but before its sample */
    size_t position = 0;
    for (size_t i = 0; i < LEN(parts); i++) {
        size_t known = position < 4000 ? 20 : 30;
        HOLD(gav_continue(SETTINGS, longer, known, state, WORDS, position, played + position, parts[i]) == says(0, 0, (uint32_t)parts[i]));
        position += parts[i];
        if (position == 4096) HOLD(memcmp(state, entries + WORDS, WORDS * sizeof *state) == 0);
    }
    HOLD(position == N && SAME(played, all));
    HOLD(state[5] == 60 + 256 + 512 + 3 * 65536 && state[WORDS] == state_before[WORDS]);
    /* one key is held, note 60 at velocity 100 */
    HOLD(state[8] == 60 + 256 * 100 && state[9] == 0 && state[10] == 0 && state[11] == 0);
}

/* 02's tremolo, by single samples of the waveform: what the dry samples, in played, are multiplied by. The LFO's phase
 * is reduced where the oscillator's is, and set to 0 by the reset at 300. */
static void tremolo_of(uint32_t code, double duty, double frequency, double depth) {
    const double tau = 6.283185307179586, step = frequency / RATE * tau, dt = step * (1 / tau);
    double phase = 0, lfo;
    int right = 1;
    HOLD(gav_render(RATE, GAV_SAWTOOTH, NAN, ADSR, code, duty, frequency, depth, GAV_STRUCK, reset, 40, out, N, shelf,
                    2 * WORDS, SUMMARY) == says(0, 0, N));
    for (size_t i = 0; i < N; i++) {
        if (i == GAV_SECTION) HOLD(shelf[WORDS + 12] == bits(phase));
        if (i % 64 == 0 || i == 100 || i == 300 || i == 4500) phase = i == 300 ? 0 : fmod(phase, tau);
        lfo = gav_sample(code, fmod(phase, tau) * (1 / tau), dt, duty) * depth;
        right &= bits(out[i]) == bits(played[i] * (1 - depth / 2 + lfo / 2));
        phase += step;
    }
    HOLD(right);
    /* all else of the entries is as without a tremolo */
    shelf[WORDS + 12] = entries[WORDS + 12];
    HOLD(SAME(shelf, entries));
}

/* A part of ten samples from position 1 on, whose LFO of 100 Hz begins at some phase. */
#define FAST 8000, GAV_SINE, NAN, ADSR, GAV_SINE, NAN, 100, 1, GAV_STRUCK
static uint64_t from_phase(uint64_t phase) {
    HOLD(gav_fresh(state, WORDS) == 0);
    state[12] = phase;
    return gav_continue(FAST, NULL, 0, state, WORDS, 1, out, 10);
}

#define SLOW RATE, GAV_SQUARE, NAN, ADSR, GAV_TRIANGLE, NAN, 12.5, 0.9, GAV_STRUCK
static void tremolos(void) {
    HOLD(gav_render(SETTINGS, reset, 40, played, N, entries, 2 * WORDS, SUMMARY_OF_ALL) == says(0, 0, N));
    tremolo_of(GAV_SINE, NAN, 5, 1);
    tremolo_of(GAV_SQUARE, 2, 33.3, 0.5);
    tremolo_of(GAV_SAWTOOTH, NAN, 100, 1);
    tremolo_of(GAV_TRIANGLE, -1, 100, 1);
    tremolo_of(GAV_PULSE, 0.25, 99.9, 0.75);
    tremolo_of(GAV_ROUNDED_TRIANGLE, 2, 100, 1);
    /* past TAU just before the entry, and just before the record at 4,500 */
    tremolo_of(GAV_TRIANGLE, NAN, 93.33, 1);
    tremolo_of(GAV_SAWTOOTH, NAN, 94.61, 1);
    tremolo_of(GAV_SINE, NAN, -0.0, 1);
    tremolo_of(GAV_TRIANGLE, NAN, 7, 0);
    HOLD(SAME(out, played));
    tremolo_of(GAV_PULSE, 1, 7, -0.0);
    HOLD(SAME(out, played));

    /* an edit with a tremolo, and parts of any lengths */
    HOLD(gav_render(SLOW, example, 20, out, N, shelf, 2 * WORDS, SUMMARY) == says(0, 0, N));
    HOLD(gav_rerender(SLOW, example, 20, longer, 30, out, N, shelf, 2 * WORDS, SUMMARY) == says(0, 0, N - GAV_SECTION));
    HOLD(gav_render(SLOW, longer, 30, all, N, entries, 2 * WORDS, SUMMARY_OF_ALL) == says(0, 0, N));
    HOLD(SAME(out, all) && is_of_all());
    HOLD(gav_fresh(state, WORDS) == 0);
    for (size_t at = 0; at < N; at += 250) {
        HOLD(gav_continue(SLOW, longer, 30, state, WORDS, at, played + at, 250) == says(0, 0, 250));
    }
    HOLD(SAME(played, all));
}

/* Each of the four calls is 6, before all else: the score, the shelf, the list and the state are wrong too. */
static int are_six(uint32_t code, double duty, double frequency, double depth, uint32_t joined) {
#define WRONG RATE, GAV_SAWTOOTH, NAN, ADSR, code, duty, frequency, depth, joined
    return gav_render(WRONG, example, 19, out, N, shelf, 1, SUMMARY) == says(6, 0, 0) &&
           gav_rerender(WRONG, example, 19, example, 19, out, N, shelf, 1, SUMMARY) == says(6, 0, 0) &&
           gav_edit(WRONG, example, 19, example, 19, out, N, shelf, 1, SUMMARY, new_score, 1) == says(6, 0, 0) &&
           gav_continue(WRONG, example, 19, state, 1, UINT64_MAX, out, N) == says(6, 0, 0);
}

static int is_six(uint32_t code, double duty, double frequency, double depth) {
    return are_six(code, duty, frequency, depth, GAV_STRUCK);
}

static void refused_tremolos(void) {
    spoil();
    HOLD(is_six(5, 0.5, 0, 0) && is_six(7, 0.5, 0, 0) && is_six(UINT32_MAX, 0.5, 0, 0));
    HOLD(is_six(GAV_SINE, 0.5, 101, 0) && is_six(GAV_SINE, 0.5, nextafter(100, 101), 0) && is_six(GAV_SINE, 0.5, -1, 0));
    HOLD(is_six(GAV_SINE, 0.5, NAN, 0) && is_six(GAV_SINE, 0.5, INFINITY, 0));
    HOLD(is_six(GAV_SINE, 0.5, 0, 1.5) && is_six(GAV_SINE, 0.5, 0, nextafter(1, 2)) && is_six(GAV_SINE, 0.5, 0, -1));
    HOLD(is_six(GAV_SINE, 0.5, 0, NAN));
    HOLD(is_six(GAV_PULSE, 2, 0, 0) && is_six(GAV_PULSE, -1, 0, 0) && is_six(GAV_PULSE, NAN, 0, 0));
    HOLD(untouched());

    /* word 12 of a state; past 1,000 it is handed back all the same, and then no state */
    HOLD(from_phase(bits(-1)) == says(10, 0, 0) && from_phase(bits(1000)) == says(10, 0, 0));
    HOLD(from_phase(bits(NAN)) == says(10, 0, 0) && from_phase(bits(INFINITY)) == says(10, 0, 0));
    HOLD(from_phase(bits(-0.0)) == says(0, 0, 10) && from_phase(bits(nextafter(1000, 0))) == says(0, 0, 10));
    HOLD(from_phase(bits(999.9)) == says(0, 0, 10) && state[12] > bits(1000.0) && state[12] < bits(1001.0));
    HOLD(gav_continue(FAST, NULL, 0, state, WORDS, 11, out, 1) == says(10, 0, 0));
    /* and of the entry that a re-render starts from */
    HOLD(gav_render(SETTINGS, example, 20, out, N, shelf, 2 * WORDS, SUMMARY) == says(0, 0, N));
    memcpy(out_before, out, sizeof out);
    shelf[WORDS + 12] = bits(1000.0);
    HOLD(gav_rerender(SETTINGS, example, 20, longer, 30, out, N, shelf, 2 * WORDS, SUMMARY) == says(8, 0, 0));
    HOLD(SAME(out, out_before));
}

/* N samples from the fresh state, struck or joined; state is then the one after them. */
static void play_keyed(uint32_t joined, const uint8_t *score, size_t len, double *part) {
    HOLD(gav_fresh(state, WORDS) == 0);
    HOLD(gav_continue(KEYED(joined), score, len, state, WORDS, 0, part, N) == says(0, 0, N));
}

/* The score's last record, at 4,500, is a key that joins: before it all is as struck, and so are phase, keys, pitch and
 * velocity after it; the envelope, words 1 to 4, goes on as without the record. */
static void joins(const uint8_t *score, size_t len) {
    static uint64_t alone[GAV_STATE_WORDS], struck[GAV_STATE_WORDS];
    play_keyed(GAV_JOINED, score, len - 10, played);
    memcpy(alone, state, sizeof alone);
    play_keyed(GAV_STRUCK, score, len, out);
    memcpy(struck, state, sizeof struck);
    play_keyed(GAV_JOINED, score, len, played);
    HOLD(memcmp(out, played, 4500 * sizeof *out) == 0 && !SAME(out, played));
    HOLD(state[0] == struck[0] && memcmp(state + 5, struck + 5, 8 * sizeof *state) == 0);
    HOLD(memcmp(state + 1, alone + 1, 4 * sizeof *state) == 0);
    HOLD(memcmp(state + 1, struck + 1, 4 * sizeof *state) != 0);
}

/* No key of the score joins. */
static void strikes(const uint8_t *score, size_t len) {
    play_keyed(GAV_STRUCK, score, len, out);
    memcpy(state_before, state, sizeof state);
    play_keyed(GAV_JOINED, score, len, played);
    HOLD(SAME(out, played) && SAME(state, state_before));
}

/* 02's joined notes: the note that sounds just before a record acts decides. */
static void joined_notes(void) {
    static const uint8_t again[] = {ON_69, AT_4500(1, 69, 100)};
    static const uint8_t off_then_on[] = {ON_69, AT_4500(2, 69, 0), ON_60};
    static const uint8_t nought_then_on[] = {ON_69, AT_4500(1, 69, 0), ON_60};
    static const uint8_t reset_then_on[] = {ON_69, AT_4500(3, 0, 0), ON_60};
    static const uint8_t on_then_off[] = {ON_69, ON_60, AT_4500(2, 69, 0)};
    joins(overlapping, LEN(overlapping));
    joins(again, LEN(again));
    strikes(off_then_on, LEN(off_then_on));
    strikes(nought_then_on, LEN(nought_then_on));
    strikes(reset_then_on, LEN(reset_then_on));
    /* in the tail of a release no note sounds */
    strikes(longer, LEN(longer));
    play_keyed(GAV_JOINED, overlapping, LEN(overlapping), played);
    play_keyed(GAV_JOINED, on_then_off, LEN(on_then_off), out);
    HOLD(SAME(out, played));
}

static void put_key(uint8_t *record, uint32_t position, uint8_t kind, uint8_t note) {
    const uint8_t bytes[10] = {0x56, 0x4E, (uint8_t)position, (uint8_t)(position >> 8), 0, 0, kind, note, 100, 0};
    memcpy(record, bytes, sizeof bytes);
}

/* Neither the held keys decide, nor the stage. */
static void joined_to_none_held(void) {
    static uint8_t keys[10 * 34];
    /* seventeen keys go down and the sixteen that are held up: the seventeenth sounds */
    for (uint8_t i = 0; i < 16; i++) {
        put_key(keys + 10 * i, 0, 1, (uint8_t)(40 + i));
        put_key(keys + 10 * (17 + i), 100, 2, (uint8_t)(40 + i));
    }
    put_key(keys + 160, 0, 1, 60);
    put_key(keys + 330, 4500, 1, 62);
    joins(keys, sizeof keys);
    play_keyed(GAV_JOINED, keys, sizeof keys - 10, out);
    HOLD(state[5] == 60 + 256 + 33 * 65536 && state[8] == 0);

    /* a made-up state in which note 60 sounds while the envelope is idle: joined, key 69 leaves it so, in silence */
    for (uint32_t joined = GAV_STRUCK; joined <= GAV_JOINED; joined++) {
        HOLD(gav_fresh(state, WORDS) == 0);
        state[5] = 60 + 256;
        HOLD(gav_continue(KEYED(joined), example, 10, state, WORDS, 0, out, 100) == says(0, 0, 100));
        HOLD(state[1] == (joined ? 0 : 2) && (out[50] == 0) == joined && state[5] == 69 + 256 + 512 + 65536);
    }
}

/* An edit that joins a key, and parts of any lengths. */
static void joined_edits(void) {
    HOLD(gav_render(JOINED, overlapping, 20, all, N, entries, 2 * WORDS, SUMMARY_OF_ALL) == says(0, 0, N));
    HOLD(gav_render(JOINED, overlapping, 10, out, N, shelf, 2 * WORDS, SUMMARY) == says(0, 0, N));
    HOLD(!SAME(out, all));
    HOLD(gav_rerender(JOINED, overlapping, 10, overlapping, 20, out, N, shelf, 2 * WORDS, SUMMARY) == says(0, 0, 904));
    HOLD(SAME(out, all) && is_of_all());
    HOLD(gav_fresh(state, WORDS) == 0);
    for (size_t at = 0; at < N; at += 250) {
        HOLD(gav_continue(JOINED, overlapping, 20, state, WORDS, at, played + at, 250) == says(0, 0, 250));
    }
    HOLD(SAME(played, all));
}

static void refused_keyings(void) {
    spoil();
    HOLD(are_six(NO_LFO, 2) && are_six(NO_LFO, 256) && are_six(NO_LFO, 257) && are_six(NO_LFO, 2147483648));
    HOLD(are_six(NO_LFO, UINT32_MAX) && are_six(9, 2, 101, 2, 2));
    HOLD(untouched());
}

/* 02's correction of a corner, and the triangle with it, each operation rounded once. */
static double rounded_blamp(double t, double dt) {
    const double third = 1.0 / 3.0;
    if (t < dt) {
        double x = t / dt, x2 = x * x, x3 = x2 * x;
        return (x2 - x3 * third - x + third) * dt;
    }
    if (t > 1 - dt) {
        double x = (t - 1) / dt, x2 = x * x, x3 = x2 * x;
        return (x3 * third + x2 + x + third) * dt;
    }
    return 0;
}

static double rounded(double phase, double dt) {
    double naive = phase < 0.5 ? 4 * phase - 1 : 3 - 4 * phase, half = phase + 0.5 - floor(phase + 0.5);
    return naive + 4 * rounded_blamp(phase, dt) - 4 * rounded_blamp(half, dt);
}

/* From sample 200 on level and velocity are 1, so that a sample is the waveform's value. */
static void rounded_note(uint32_t rate, uint8_t note, double frequency) {
    const uint8_t key[] = {0x56, 0x4E, 0, 0, 0, 0, 1, note, 127, 0};
    const double tau = 6.283185307179586, step = frequency / rate * tau, dt = step * (1 / tau);
    double phase = 0;
    int right = 1;
    HOLD(gav_render(rate, GAV_ROUNDED_TRIANGLE, 2, 0.001, 0.001, 1, 0.2, PLAIN, key, 10, out, N, shelf, 2 * WORDS, SUMMARY) ==
         says(0, 0, N));
    for (size_t i = 0; i < N; i++) {
        if (i % 64 == 0) phase = fmod(phase, tau);
        right &= i < 200 || bits(out[i]) == bits(rounded(fmod(phase, tau) * (1 / tau), dt));
        phase += step;
    }
    HOLD(right);
}

/* 02's rounded triangle: at a corner, between corners, at its peak, and far from -1 to 1; the duty is not read. The
 * triangle's own corners stay sharp. */
static void rounded_samples(void) {
    static const double dts[] = {0, 0.0202, 0.25, 0.5, 1.568, 4};
    HOLD(gav_sample(GAV_ROUNDED_TRIANGLE, 0, 0.25, NAN) == -1 + 4 * (0.25 * (1.0 / 3.0)));
    HOLD(gav_sample(GAV_ROUNDED_TRIANGLE, 0.25, 0.25, 2) == 0);
    HOLD(gav_sample(GAV_TRIANGLE, 0, 0.25, 0) == -1 && gav_sample(GAV_TRIANGLE, 0.5, 0.25, 0) == 1);
    HOLD(gav_sample(GAV_TRIANGLE, 1, 0.25, 0) == -1);
    HOLD(fabs(gav_sample(GAV_ROUNDED_TRIANGLE, 0.5, 0.0202, 0) - 0.9731) < 0.00005);
    HOLD(fabs(gav_sample(GAV_ROUNDED_TRIANGLE, 1, 4, 0) + 2.3229) < 0.00005);
    HOLD(gav_sample_says(GAV_ROUNDED_TRIANGLE, 0, 0, 0) == 0);
    HOLD(gav_sample_says(GAV_ROUNDED_TRIANGLE, 1, 4, NAN) == 0);
    HOLD(gav_sample_says(GAV_ROUNDED_TRIANGLE, 1, 4.5, 0) == says(9, 0, 0));
    int right = 1;
    for (size_t i = 0; i < 1025 * LEN(dts); i++) {
        double phase = (double)(i % 1025) / 1024, dt = dts[i / 1025];
        right &= bits(gav_sample(GAV_ROUNDED_TRIANGLE, phase, dt, NAN)) == bits(rounded(phase, dt));
    }
    HOLD(right);
}

/* As a waveform of notes, low, high and above the rate; an edit, and parts of any lengths. */
#define ROUNDED RATE, GAV_ROUNDED_TRIANGLE, 2, ADSR, GAV_ROUNDED_TRIANGLE, NAN, 12.5, 0.9, GAV_STRUCK
static void rounded_renders(void) {
    rounded_note(RATE, 69, 440);
    rounded_note(RATE, 105, 3520);
    rounded_note(8000, 117, 7040);
    rounded_note(8000, 127, 12543.85546875);
    HOLD(gav_render(ROUNDED, example, 20, out, N, shelf, 2 * WORDS, SUMMARY) == says(0, 0, N));
    HOLD(gav_rerender(ROUNDED, example, 20, longer, 30, out, N, shelf, 2 * WORDS, SUMMARY) == says(0, 0, N - GAV_SECTION));
    HOLD(gav_render(ROUNDED, longer, 30, all, N, entries, 2 * WORDS, SUMMARY_OF_ALL) == says(0, 0, N));
    HOLD(SAME(out, all) && is_of_all());
    HOLD(gav_fresh(state, WORDS) == 0);
    for (size_t at = 0; at < N; at += 250) {
        HOLD(gav_continue(ROUNDED, longer, 30, state, WORDS, at, played + at, 250) == says(0, 0, 250));
    }
    HOLD(SAME(played, all));
}

/* 02's peaks, of samples that lie there: as the document says them, one by one. */
static int are_peaks(const double *samples, size_t n, const double *m, const uint64_t *at) {
    int right = 1;
    for (size_t k = 0; k < gav_sections(n); k++) {
        size_t first = GAV_SECTION * k, end = n - first < GAV_SECTION ? n : first + GAV_SECTION, where = first;
        for (size_t i = first; i < end; i++) right &= fabs(samples[i]) <= m[k];
        while (where < end && bits(fabs(samples[where])) != bits(m[k])) where++;
        right &= where < end && at[k] == where;
    }
    return right;
}

/* A render of so many samples, over NaNs, whose summary has the length that it must have and is right. */
static int is_summed_up(const struct gav_settings *s, const uint8_t *score, size_t len, size_t n) {
    spoil();
    uint64_t said = gav_render_with(s, score, len, out, n, shelf, gav_shelf_words(n), magnitudes, gav_sections(n),
                                    numbers, gav_sections(n));
    int right = said == says(0, 0, (uint32_t)n) && are_peaks(out, n, magnitudes, numbers);
    /* nothing is written after the last section */
    for (size_t k = gav_sections(n); k < LEN(magnitudes); k++) {
        right &= bits(magnitudes[k]) == bits(magnitudes_before[k]) && numbers[k] == numbers_before[k];
    }
    return right;
}

static void summaries(void) {
    static const size_t lengths[] = {0, 1, 100, 4095, 4096, 4097, N};
    static const uint8_t loud[] = {0x56, 0x4E, 0, 0, 0, 0, 1, 127, 127, 0};
    struct gav_settings s = GAV_SETTINGS_DEFAULT;
    for (size_t i = 0; i < LEN(lengths); i++) {
        HOLD(is_summed_up(&s, longer, 30, lengths[i]));
        HOLD(is_summed_up(&s, NULL, 0, lengths[i]));
    }
    /* in silence samples are +0 or -0, and the peak is +0 at the section's first sample */
    HOLD(bits(magnitudes[0]) == 0 && numbers[0] == 0 && bits(magnitudes[1]) == 0 && numbers[1] == 4096);
    int has_minus_zero = 0;
    for (size_t i = 0; i < N; i++) has_minus_zero |= bits(out[i]) == bits(-0.0);
    HOLD(has_minus_zero);
    /* of equal magnitudes the first counts, here of a square after its decay */
    s.code = GAV_SQUARE;
    s.decay = 0.01;
    HOLD(is_summed_up(&s, example, 10, N) && magnitudes[1] == fabs(out[numbers[1] + 1]));
    /* nothing clamps a triangle of few samples a cycle, nor the LFO's */
    s.rate = 8000;
    s.code = s.lfo_code = GAV_TRIANGLE;
    s.lfo_frequency = 100;
    s.lfo_depth = 1;
    HOLD(is_summed_up(&s, loud, 10, N) && magnitudes[0] > 1);
}

/* A summary of other lengths is 7, after 6 and before the score. */
static void refused_summaries(void) {
    static const size_t wrong[][2] = {{2, 1}, {1, 2}, {3, 2}, {2, 3}, {0, 0}, {1, 1}, {3, 3}, {2, 0}, {0, 2}};
    const size_t n = 4097, words = gav_shelf_words(n);
    spoil();
    for (size_t i = 0; i < LEN(wrong); i++) {
        const size_t m = wrong[i][0], at = wrong[i][1];
        HOLD(gav_render(SETTINGS, example, 20, out, n, shelf, words, magnitudes, m, numbers, at) == says(7, 0, 0));
        HOLD(gav_render(SETTINGS, example, 19, out, n, shelf, words, magnitudes, m, numbers, at) == says(7, 0, 0));
        HOLD(gav_render(0, GAV_SINE, 0, ADSR, PLAIN, example, 19, out, n, shelf, words, magnitudes, m, numbers, at) == says(6, 0, 0));
        HOLD(gav_rerender(SETTINGS, example, 20, longer, 30, out, n, shelf, words, magnitudes, m, numbers, at) == says(7, 0, 0));
        HOLD(gav_rerender(SETTINGS, example, 20, example, 20, out, n, shelf, words, magnitudes, m, numbers, at) == says(7, 0, 0));
        HOLD(gav_rerender(SETTINGS, example, 19, longer, 29, out, n, shelf, words, magnitudes, m, numbers, at) == says(7, 0, 0));
        HOLD(gav_rerender(0, GAV_SINE, 0, ADSR, PLAIN, example, 19, longer, 29, out, n, shelf, words, magnitudes, m, numbers, at) == says(6, 0, 0));
    }
    HOLD(gav_render(SETTINGS, example, 20, out, 0, shelf, 0, magnitudes, 1, NULL, 0) == says(7, 0, 0));
    HOLD(gav_render(SETTINGS, example, 20, out, 4096, shelf, WORDS, magnitudes, 1, numbers, 2) == says(7, 0, 0));
    HOLD(untouched());
}

/* A re-render works sections out from the samples that it writes: a wrong peak from the start on is mended, one before
 * it stays. Equal scores and a late change leave both. */
static void summed_edits(void) {
    HOLD(gav_render(SETTINGS, longer, 30, all, N, entries, 2 * WORDS, SUMMARY_OF_ALL) == says(0, 0, N));
    HOLD(gav_render(SETTINGS, example, 20, out, N, shelf, 2 * WORDS, SUMMARY) == says(0, 0, N));
    HOLD(are_peaks(out, N, magnitudes, numbers) && are_peaks(all, N, peaks, places));
    magnitudes[1] = 99, numbers[1] = UINT64_MAX;
    keep_shelf();
    HOLD(gav_rerender(SETTINGS, example, 20, example, 20, out, N, shelf, 2 * WORDS, SUMMARY) == 0 && is_before());
    HOLD(gav_rerender(SETTINGS, example, 20, late, 30, out, N, shelf, 2 * WORDS, SUMMARY) == 0 && is_before());
    HOLD(gav_rerender(SETTINGS, example, 20, longer, 30, out, N, shelf, 2 * WORDS, SUMMARY) == says(0, 0, N - GAV_SECTION));
    HOLD(SAME(out, all) && is_of_all());
    HOLD(gav_rerender(SETTINGS, longer, 30, example, 20, out, N, shelf, 2 * WORDS, SUMMARY) == says(0, 0, N - GAV_SECTION));
    HOLD(are_peaks(out, N, magnitudes, numbers) && !SAME(peaks, magnitudes));
}

/* The header's advice to a host that lacks the samples of section 1: with its entry spoilt an edit that would stop there
 * goes on. A call that is refused or makes nothing leaves the entry spoilt, and the next edit there is 8; with the copy
 * put back it is right. */
static void spoilt_entries(void) {
    uint64_t kept[WORDS], ones[WORDS];
    memset(ones, 0xFF, sizeof ones);
    HOLD(gav_render(SETTINGS, example, 20, out, N, shelf, 2 * WORDS, SUMMARY) == says(0, 0, N));
    memcpy(kept, shelf + WORDS, sizeof kept);
    memcpy(shelf + WORDS, ones, sizeof ones);
    HOLD(gav_rerender(SETTINGS, example, 20, wrong_kind, 20, out, N, shelf, 2 * WORDS, SUMMARY) == says(19, 1, 0));
    HOLD(SAME(ones, shelf + WORDS));
    HOLD(gav_rerender(SETTINGS, example, 20, late, 30, out, N, shelf, 2 * WORDS, SUMMARY) == 0);
    HOLD(SAME(ones, shelf + WORDS));
    HOLD(gav_rerender(SETTINGS, example, 20, longer, 30, out, N, shelf, 2 * WORDS, SUMMARY) == says(8, 0, 0));
    memcpy(shelf + WORDS, kept, sizeof kept);
    HOLD(gav_rerender(SETTINGS, example, 20, longer, 30, out, N, shelf, 2 * WORDS, SUMMARY) == says(0, 0, N - GAV_SECTION));
    HOLD(gav_render(SETTINGS, longer, 30, all, N, entries, 2 * WORDS, SUMMARY_OF_ALL) == says(0, 0, N));
    HOLD(SAME(out, all) && is_of_all());

    HOLD(gav_render(SETTINGS, example, 20, out, N, shelf, 2 * WORDS, SUMMARY) == says(0, 0, N));
    put_nans(out + GAV_SECTION, N - GAV_SECTION);
    put_nan(magnitudes + 1, 3);
    memcpy(shelf + WORDS, ones, sizeof ones);
    HOLD(gav_rerender(SETTINGS, example, 20, stray, 30, out, N, shelf, 2 * WORDS, SUMMARY) == says(0, 0, N));
    HOLD(gav_render(SETTINGS, stray, 30, all, N, entries, 2 * WORDS, SUMMARY_OF_ALL) == says(0, 0, N));
    HOLD(SAME(out, all) && is_of_all());
}

static void lists(void) {
    static const char printed[] = "records 2\n0 on 69 127\n100 off 69 0\n";
    static const char refused[] = "refused 3 1\n";
    spoil();
    HOLD(gav_list(example, 20, text, GAV_LIST_ROOM - 1) == says(7, 0, 0));
    HOLD(gav_list(example, 20, NULL, 0) == says(7, 0, 0));
    HOLD(untouched());
    HOLD(gav_list(example, 20, text, GAV_LIST_ROOM) == says(0, 0, sizeof printed - 1));
    HOLD(memcmp(text, printed, sizeof printed - 1) == 0);
    HOLD(memcmp(text + sizeof printed - 1, text_before, sizeof text - sizeof printed + 1) == 0);
    HOLD(gav_list(wrong_kind, 20, text, GAV_LIST_ROOM) == says(0, 0, sizeof refused - 1));
    HOLD(memcmp(text, refused, sizeof refused - 1) == 0);
}

int main(void) {
    answers();
    scores();
    samples();
    renders();
    rerenders();
    overlaps();
    continues();
    lists();
    wrappers();
    tremolos();
    refused_tremolos();
    joined_notes();
    joined_to_none_held();
    joined_edits();
    refused_keyings();
    rounded_samples();
    rounded_renders();
    summaries();
    refused_summaries();
    summed_edits();
    stops();
    spoilt_entries();
    refused_pages();
    pages();
    pages_stop();
    printf("%d facts held, %d faults\n", held - faults, faults);
    return faults != 0;
}
