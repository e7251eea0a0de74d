/* How much stack each call of gavberin.h takes. A call runs on a thread whose stack is painted; what is no longer paint
 * afterwards was used. The stack is far larger than what is allowed, so that a call which takes too much is told and
 * does not crash. Then it runs once more, on a thread whose stack is just what is allowed. Prints the bytes of each
 * call, long sines and pages of edits apart, and exits with 1 where one is above GAV's 64 KB, or 128 KB of a page. */
#include "gavberin.h"

#include <math.h>
#include <pthread.h>
#include <stdio.h>
#include <stdlib.h>
#include <string.h>

#define ALLOWED 65536
#define ALLOWED_OF_PAGES 131072
#define ROOM (1024 * 1024)
#define PAINT 0xA7
#define RECORDS 4096
#define RELEASE 2000 /* a record that is one, at 48,000 */
#define N 100000
#define LEN(list) (sizeof(list) / sizeof *(list))

static _Alignas(65536) unsigned char stack[ROOM];
static unsigned char *entered;

static double out[GAV_MOST_SAMPLES];
static uint64_t shelf[GAV_MOST_SAMPLES / GAV_SECTION * GAV_STATE_WORDS], state[GAV_STATE_WORDS];
static double magnitudes[GAV_MOST_SAMPLES / GAV_SECTION];
static uint64_t numbers[GAV_MOST_SAMPLES / GAV_SECTION];
static uint8_t score[10 * RECORDS], edited[10 * RECORDS], released[10 * RECORDS], text[GAV_LIST_ROOM];
static uint8_t made[GAV_SCORE_BYTES], first[2 * GAV_EDIT_BYTES], last[2 * GAV_EDIT_BYTES], wrong[2 * GAV_EDIT_BYTES];
static struct gav_settings settings = GAV_SETTINGS_DEFAULT;

/* A call with its arguments; what it answers has to be that number, so that it did the work and was not refused early.
 */
struct call {
    const char *name;
    uint64_t (*make)(void);
    unsigned number;
};

static uint64_t version(void) { return gav_version() == GAV_VERSION ? 0 : 1; }
static uint64_t words(void) { return gav_words(GAV_NEW_SCORE_ORDER)[0] != 0 && gav_words(255)[0] != 0 ? 0 : 1; }
static uint64_t check(void) { return gav_check_score(score, sizeof score); }
static uint64_t check_length(void) { return gav_check_score(score, 19); }
static uint64_t list(void) { return gav_list(score, sizeof score, text, sizeof text); }
static uint64_t list_refused(void) { return gav_list(score, 19, text, sizeof text); }
static uint64_t list_short(void) { return gav_list(score, sizeof score, text, 1); }
static uint64_t fresh(void) { return gav_fresh(state, GAV_STATE_WORDS); }
static uint64_t fresh_refused(void) { return gav_fresh(state, 1); }

static uint64_t samples(void) {
    static const uint32_t codes[] = {GAV_SINE, GAV_SQUARE, GAV_SAWTOOTH, GAV_TRIANGLE, GAV_PULSE, GAV_ROUNDED_TRIANGLE};
    uint64_t said = 0;
    for (size_t i = 0; i < LEN(codes); i++) {
        for (double phase = 0; phase <= 1; phase += 0.125) {
            said |= gav_sample_says(codes[i], phase, 0.3, 0.5);
            out[0] = gav_sample(codes[i], phase, 0.3, 0.5);
        }
    }
    return said;
}
static uint64_t sample_refused(void) {
    return gav_sample_says(GAV_PULSE, 0.5, 0.1, 2) | (uint64_t)gav_sample(9, 0, 0, 0);
}

static uint64_t render_of(uint32_t code, size_t n) {
    settings.code = code;
    return gav_render_with(&settings, score, sizeof score, out, n, shelf, gav_shelf_words(n), magnitudes,
                           gav_sections(n), numbers, gav_sections(n));
}
/* With a tremolo; the other calls have none. */
static uint64_t tremolo_of(uint32_t code, uint32_t lfo_code, uint64_t (*make)(uint32_t)) {
    const struct gav_settings before = settings;
    settings.lfo_code = lfo_code;
    settings.lfo_frequency = 5;
    settings.lfo_depth = 1;
    uint64_t said = make(code);
    settings = before;
    return said;
}
static uint64_t render_some(uint32_t code) { return render_of(code, N); }
static uint64_t tremolo_sines(void) { return tremolo_of(GAV_SINE, GAV_SINE, render_some); }
static uint64_t tremolo_sine(void) { return tremolo_of(GAV_SAWTOOTH, GAV_SINE, render_some); }
static uint64_t tremolo_of_sine(void) { return tremolo_of(GAV_SINE, GAV_TRIANGLE, render_some); }
static uint64_t tremolo_triangle(void) { return tremolo_of(GAV_SAWTOOTH, GAV_TRIANGLE, render_some); }
static uint64_t tremolo_rounded(void) { return tremolo_of(GAV_SAWTOOTH, GAV_ROUNDED_TRIANGLE, render_some); }
static uint64_t tremolo_pulse(void) { return tremolo_of(GAV_SQUARE, GAV_PULSE, render_some); }
static uint64_t tremolo_refused(void) { return tremolo_of(GAV_SQUARE, GAV_PULSE + 1, render_some); }
/* Not struck, as the other calls are. */
static uint64_t keying_of(uint32_t joined, uint64_t (*make)(uint32_t)) {
    settings.joined = joined;
    uint64_t said = make(GAV_SAWTOOTH);
    settings.joined = GAV_STRUCK;
    return said;
}
static uint64_t render_joined(void) { return keying_of(GAV_JOINED, render_some); }
static uint64_t keying_refused(void) { return keying_of(GAV_JOINED + 1, render_some); }
static uint64_t render_longest(void) { return render_of(GAV_SINE, GAV_MOST_SAMPLES); }
static uint64_t render_sine(void) { return render_of(GAV_SINE, N); }
static uint64_t render_square(void) { return render_of(GAV_SQUARE, N); }
static uint64_t render_sawtooth(void) { return render_of(GAV_SAWTOOTH, N); }
static uint64_t render_triangle(void) { return render_of(GAV_TRIANGLE, N); }
static uint64_t render_rounded(void) { return render_of(GAV_ROUNDED_TRIANGLE, N); }
static uint64_t render_pulse(void) { return render_of(GAV_PULSE, N); }
static uint64_t render_refused(void) { return render_of(GAV_PULSE + 1, N); }
static uint64_t summary_refused(void) {
    return gav_render_with(&settings, score, sizeof score, out, N, shelf, gav_shelf_words(N), magnitudes,
                           gav_sections(N), numbers, gav_sections(N) - 1);
}

/* After a render. */
static uint64_t rerender_of(const uint8_t *old, const uint8_t *new_, size_t new_len) {
    return gav_rerender_with(&settings, old, sizeof score, new_, new_len, out, N, shelf, gav_shelf_words(N), magnitudes,
                             gav_sections(N), numbers, gav_sections(N));
}
/* The edit is in the last record, which lies before N. */
static uint64_t rerender_late(void) { return rerender_of(score, edited, sizeof edited); }
/* A release's velocity is not heard, so that it stops at the next section, and what is rendered is that of both. */
static uint64_t rerender_stops(void) {
    uint64_t said = rerender_of(score, released, sizeof released);
    return gav_count(said) == GAV_SECTION ? said : 255;
}
static uint64_t rerender_all(void) { return rerender_of(edited, score, 0); }
static uint64_t rerender_equal(void) { return rerender_of(score, score, sizeof score); }
static uint64_t rerender_refused(void) { return rerender_of(score, score, 19); }
static uint64_t rerender_start(void) {
    memset(shelf, 0xFF, sizeof shelf);
    return rerender_of(score, score, 0);
}

/* After a render. */
static uint64_t edit_by(const uint8_t *edits, size_t len, size_t new_len) {
    return gav_edit_with(&settings, score, sizeof score, edits, len, out, N, shelf, gav_shelf_words(N), magnitudes,
                         gav_sections(N), numbers, gav_sections(N), made, new_len);
}
/* A page on the render of a waveform: of the first record, after which all is made again, or of the last. */
static uint64_t page_of(uint32_t code, const uint8_t *edits) {
    uint64_t said = render_of(code, N);
    return gav_number(said) ? said : edit_by(edits, sizeof first, sizeof made);
}
static uint64_t page_first(uint32_t code) { return page_of(code, first); }
static uint64_t page_sine(void) { return page_of(GAV_SINE, first); }
static uint64_t page_late_sine(void) { return page_of(GAV_SINE, last); }
static uint64_t page_sines(void) { return tremolo_of(GAV_SINE, GAV_SINE, page_first); }
static uint64_t page_of_sine(void) { return tremolo_of(GAV_SINE, GAV_TRIANGLE, page_first); }
static uint64_t page_lfo_sine(void) { return tremolo_of(GAV_SAWTOOTH, GAV_SINE, page_first); }
static uint64_t page_square(void) { return page_of(GAV_SQUARE, first); }
static uint64_t page_sawtooth(void) { return page_of(GAV_SAWTOOTH, first); }
static uint64_t page_triangle(void) { return page_of(GAV_TRIANGLE, first); }
static uint64_t page_rounded(void) { return page_of(GAV_ROUNDED_TRIANGLE, first); }
static uint64_t page_pulse(void) { return page_of(GAV_PULSE, first); }
static uint64_t page_pulses(void) { return tremolo_of(GAV_PULSE, GAV_PULSE, page_first); }
static uint64_t page_joined(void) { return keying_of(GAV_JOINED, page_first); }
static uint64_t page_late(void) { return page_of(GAV_SAWTOOTH, last); }
static uint64_t page_empty(void) { return edit_by(first, 0, sizeof made); }
static uint64_t page_keying(void) { return keying_of(GAV_JOINED + 1, page_first); }
static uint64_t page_odd(void) { return edit_by(first, 13, sizeof made); }
static uint64_t page_short(void) { return edit_by(first, sizeof first, sizeof made - 1); }
static uint64_t page_full(void) { return edit_by(first + GAV_EDIT_BYTES, GAV_EDIT_BYTES, sizeof made); }
static uint64_t page_not_there(void) {
    memcpy(wrong, first, sizeof wrong);
    memcpy(wrong + GAV_EDIT_BYTES, first, GAV_EDIT_BYTES);
    wrong[12] = 1;
    return edit_by(wrong, sizeof wrong, sizeof made);
}
/* The second edit with a byte that is wrong: the edit's own bytes, and then its record's. */
static uint64_t page_wrong(size_t place) {
    memcpy(wrong, first, sizeof wrong);
    wrong[GAV_EDIT_BYTES + place] = 0xFF;
    return edit_by(wrong, sizeof wrong, sizeof made);
}
static uint64_t page_frame(void) { return page_wrong(2); }
static uint64_t page_mark(void) { return page_wrong(4); }
static uint64_t page_kind(void) { return page_wrong(10); }
static uint64_t page_field(void) { return page_wrong(11); }
static uint64_t page_start(void) {
    memset(shelf, 0xFF, sizeof shelf);
    return edit_by(first, sizeof first, sizeof made);
}

/* In parts of so many samples. */
static uint64_t continue_by(uint32_t code, size_t most) {
    uint64_t said = gav_fresh(state, GAV_STATE_WORDS);
    settings.code = code;
    for (size_t at = 0; at < N && said == 0; at += most) {
        size_t n = N - at < most ? N - at : most;
        said = gav_number(gav_continue_with(&settings, score, sizeof score, state, GAV_STATE_WORDS, at, out, n));
    }
    return said;
}
static uint64_t continue_of(uint32_t code) { return continue_by(code, 997); }
static uint64_t continue_whole(uint32_t code) { return continue_by(code, N); }
static uint64_t long_sine(void) { return continue_whole(GAV_SINE); }
static uint64_t long_sines_both(void) { return tremolo_of(GAV_SINE, GAV_SINE, continue_whole); }
static uint64_t long_tremolo_of_sine(void) { return tremolo_of(GAV_SINE, GAV_TRIANGLE, continue_whole); }
static uint64_t long_tremolo_sine(void) { return tremolo_of(GAV_SAWTOOTH, GAV_SINE, continue_whole); }
static uint64_t long_pulse(void) { return tremolo_of(GAV_PULSE, GAV_PULSE, continue_whole); }
static uint64_t continue_sine(void) { return continue_of(GAV_SINE); }
static uint64_t continue_triangle(void) { return continue_of(GAV_TRIANGLE); }
static uint64_t continue_rounded(void) { return continue_of(GAV_ROUNDED_TRIANGLE); }
static uint64_t continue_pulse(void) { return continue_of(GAV_PULSE); }
static uint64_t continue_tremolo(void) { return tremolo_of(GAV_SAWTOOTH, GAV_SINE, continue_of); }
static uint64_t continue_roundeds(void) { return tremolo_of(GAV_ROUNDED_TRIANGLE, GAV_ROUNDED_TRIANGLE, continue_of); }
static uint64_t continue_tremolos(void) { return tremolo_of(GAV_SINE, GAV_TRIANGLE, continue_of); }
static uint64_t continue_joined(void) { return keying_of(GAV_JOINED, continue_of); }
static uint64_t continue_refused(void) {
    return gav_continue_with(&settings, score, sizeof score, state, 1, 0, out, 1);
}

/* The calls that unfold the sine's wave, and all others. */
static const struct call long_sines[] = {
    {"gav_render, the longest sine", render_longest, 0},
    {"gav_render, sine", render_sine, 0},
    {"gav_rerender, sine, a release's velocity", rerender_stops, 0},
    {"gav_render, sine, with a tremolo of a sine", tremolo_sines, 0},
    {"gav_render, sine, with a tremolo of a triangle", tremolo_of_sine, 0},
    {"gav_render, sawtooth, with a tremolo of a sine", tremolo_sine, 0},
    {"gav_continue, a long sine", long_sine, 0},
    {"gav_continue, a long sine, with a tremolo of a sine", long_sines_both, 0},
    {"gav_continue, a long sine, with a tremolo of a triangle", long_tremolo_of_sine, 0},
    {"gav_continue, a long sawtooth, with a tremolo of a sine", long_tremolo_sine, 0},
};

static const struct call calls[] = {
    {"gav_version", version, 0},
    {"gav_words", words, 0},
    {"gav_check_score, 4,096 records", check, 0},
    {"gav_check_score, refused", check_length, GAV_SCORE_LENGTH},
    {"gav_sample, gav_sample_says", samples, 0},
    {"gav_sample, refused", sample_refused, GAV_SETTING},
    {"gav_fresh", fresh, 0},
    {"gav_fresh, refused", fresh_refused, GAV_ARGUMENT},
    {"gav_list, 4,096 records", list, 0},
    {"gav_list, a refused score", list_refused, 0},
    {"gav_list, refused", list_short, GAV_SIZE},
    {"gav_render, square", render_square, 0},
    {"gav_render, sawtooth", render_sawtooth, 0},
    {"gav_render, triangle", render_triangle, 0},
    {"gav_render, rounded triangle", render_rounded, 0},
    {"gav_render, sawtooth, with a tremolo of a triangle", tremolo_triangle, 0},
    {"gav_render, sawtooth, with a tremolo of a rounded triangle", tremolo_rounded, 0},
    {"gav_render, square, with a tremolo of a pulse", tremolo_pulse, 0},
    {"gav_render, a refused tremolo", tremolo_refused, GAV_SETTING},
    {"gav_render, sawtooth, joined", render_joined, 0},
    {"gav_render, a refused keying", keying_refused, GAV_SETTING},
    {"gav_render, refused", render_refused, GAV_SETTING},
    {"gav_render, pulse", render_pulse, 0},
    {"gav_render, a refused summary", summary_refused, GAV_SIZE},
    {"gav_rerender, a release's velocity", rerender_stops, 0},
    {"gav_rerender, the last record", rerender_late, 0},
    {"gav_rerender, into no record", rerender_all, 0},
    {"gav_rerender, equal scores", rerender_equal, 0},
    {"gav_rerender, a refused score", rerender_refused, GAV_NEW_SCORE_LENGTH},
    {"gav_rerender, no state", rerender_start, GAV_START_ENTRY},
    {"gav_continue, sine", continue_sine, 0},
    {"gav_continue, triangle", continue_triangle, 0},
    {"gav_continue, rounded triangle", continue_rounded, 0},
    {"gav_continue, rounded triangle, with a tremolo of one", continue_roundeds, 0},
    {"gav_continue, pulse", continue_pulse, 0},
    {"gav_continue, sawtooth, with a tremolo of a sine", continue_tremolo, 0},
    {"gav_continue, sine, with a tremolo of a triangle", continue_tremolos, 0},
    {"gav_continue, sawtooth, joined", continue_joined, 0},
    {"gav_continue, a long pulse, with a tremolo of a pulse", long_pulse, 0},
    {"gav_continue, refused", continue_refused, GAV_GIVEN_STATE},
};

/* Those that make a score in their own room: a page of edits, which unfolds the sine's wave, and all others. */
static const struct call long_sine_pages[] = {
    {"gav_edit, sine", page_sine, 0},
    {"gav_edit, sine, the last record", page_late_sine, 0},
    {"gav_edit, sine, with a tremolo of a sine", page_sines, 0},
    {"gav_edit, sine, with a tremolo of a triangle", page_of_sine, 0},
    {"gav_edit, sawtooth, with a tremolo of a sine", page_lfo_sine, 0},
};

static const struct call pages[] = {
    {"gav_edit, square", page_square, 0},
    {"gav_edit, sawtooth", page_sawtooth, 0},
    {"gav_edit, triangle", page_triangle, 0},
    {"gav_edit, rounded triangle", page_rounded, 0},
    {"gav_edit, pulse", page_pulse, 0},
    {"gav_edit, pulse, with a tremolo of a pulse", page_pulses, 0},
    {"gav_edit, sawtooth, joined", page_joined, 0},
    {"gav_edit, the last record", page_late, 0},
    {"gav_edit, no edit", page_empty, 0},
    {"gav_edit, a refused keying", page_keying, GAV_SETTING},
    {"gav_edit, a refused list", page_odd, GAV_EDIT_SIZE},
    {"gav_edit, a refused room", page_short, GAV_EDIT_SIZE},
    {"gav_edit, a full score", page_full, GAV_EDIT_FULL},
    {"gav_edit, nothing equal", page_not_there, GAV_EDIT_NOT_THERE},
    {"gav_edit, a wrong code", page_frame, GAV_EDIT_FRAME},
    {"gav_edit, a record's wrong mark", page_mark, GAV_EDIT_RECORD_MARK},
    {"gav_edit, a record's wrong kind", page_kind, GAV_EDIT_RECORD_KIND},
    {"gav_edit, a record's wrong note", page_field, GAV_EDIT_RECORD_FIELD},
    {"gav_edit, no state", page_start, GAV_START_ENTRY},
};

/* A record of the score removed, and one with another note or velocity put in its place. */
static void make_page(uint8_t *edits, const uint8_t *record) {
    static const uint8_t remove[] = {0x45, 0x44, GAV_REMOVE, 0}, insert[] = {0x45, 0x44, GAV_INSERT, 0};
    memcpy(edits, remove, sizeof remove);
    memcpy(edits + sizeof remove, record, 10);
    edits += GAV_EDIT_BYTES;
    memcpy(edits, insert, sizeof insert);
    memcpy(edits + sizeof insert, record, 10);
    edits[sizeof insert + 7]++;
}

/* 4,096 records, 24 samples apart: keys down and up, and now and then a reset. */
static void make_scores(void) {
    for (uint32_t i = 0; i < RECORDS; i++) {
        const uint32_t at = 24 * i;
        const uint8_t kind = i % 100 == 99 ? 3 : 1 + i % 3 / 2;
        const uint8_t note = kind == 3 ? 0 : (uint8_t)(40 + i * 7 % 60);
        const uint8_t record[10] = {0x56, 0x4E, (uint8_t)at, (uint8_t)(at >> 8),  (uint8_t)(at >> 16),
                                    0,    kind, note,        kind == 1 ? 100 : 0, 0};
        memcpy(score + 10 * i, record, sizeof record);
    }
    memcpy(edited, score, sizeof score);
    edited[sizeof edited - 3] = 77;
    edited[sizeof edited - 4] = 1;
    memcpy(released, score, sizeof score);
    released[10 * RELEASE + 8] = 9;
    make_page(first, score);
    make_page(last, score + sizeof score - 10);
}

/* Takes more than any call may, to see that it is told. */
static uint64_t waste(void) {
    volatile unsigned char much[ALLOWED_OF_PAGES + 1000];
    for (size_t i = 0; i < sizeof much; i++) much[i] = 1;
    return much[0] == 1 ? 0 : 1;
}

static void *on_thread(void *given) {
    static uint64_t said;
    const struct call *call = given;
    entered = __builtin_frame_address(0);
    said = call->make();
    return &said;
}

/* Makes a call on a thread whose stack is the upper bytes of the room; how many are no longer paint, from the frame
 * that made it down. */
static size_t run(const struct call *call, size_t size) {
    pthread_attr_t attributes;
    pthread_t thread;
    void *said;
    memset(stack, PAINT, sizeof stack);
    if (pthread_attr_init(&attributes) || pthread_attr_setstack(&attributes, stack + sizeof stack - size, size) ||
        pthread_create(&thread, &attributes, on_thread, (void *)(uintptr_t)call) || pthread_join(thread, &said)) {
        printf("no thread could be run\n");
        exit(1);
    }
    pthread_attr_destroy(&attributes);
    if (gav_number(*(uint64_t *)said) != call->number) {
        printf("%s: answers %u, and not %u\n", call->name, gav_number(*(uint64_t *)said), call->number);
        exit(1);
    }
    unsigned char *low = stack;
    while (low < entered && *low == PAINT) low++;
    return (size_t)(entered - low);
}

/* On a stack with room for more, and then on one of what is allowed: its bytes lie at the room's end, so that one byte
 * written below them is seen. */
static int keeps_to(const struct call *call, size_t allowed, size_t *used) {
    *used = run(call, sizeof stack);
    if (*used > allowed) return 0;
    run(call, allowed);
    return stack[sizeof stack - allowed - 1] == PAINT;
}

/* Whether all keep to what is allowed. */
static int measure_all(const struct call *list, size_t n, size_t allowed) {
    size_t most = 0, used, kept = 0;
    for (size_t i = 0; i < n; i++) {
        const int keeps = keeps_to(&list[i], allowed, &used);
        printf("%6zu bytes  %s%s\n", used, list[i].name, keeps ? "" : ": TOO MUCH");
        if (used > most) most = used;
        kept += keeps;
    }
    printf("at most %zu bytes, %zu KB\n", most, (most + 1023) / 1024);
    return kept == n;
}

int main(void) {
    static const struct call wasteful = {"a wasteful call", waste, 0};
    size_t used;
    make_scores();
    if (keeps_to(&wasteful, ALLOWED_OF_PAGES, &used)) {
        printf("a wasteful call is measured at %zu bytes: the measure is wrong\n", used);
        return 1;
    }
    const int unfolding = measure_all(long_sines, LEN(long_sines), ALLOWED);
    const int other = measure_all(calls, LEN(calls), ALLOWED);
    const int unfolding_pages = measure_all(long_sine_pages, LEN(long_sine_pages), ALLOWED_OF_PAGES);
    const int other_pages = measure_all(pages, LEN(pages), ALLOWED_OF_PAGES);
    return !(unfolding && other && unfolding_pages && other_pages);
}
