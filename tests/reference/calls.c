/* The calls of gavberin.h by 01's "The score", "The shelf" and "What a call says": judged in 01's order, then played.
 */
#include "voice.h"

#include <math.h>
#include <stdio.h>

/* "A reset has note and velocity 0." */
static bool are_fields(const uint8_t *record) {
    uint8_t most = record[6] == RESET ? 0 : 127;
    return record[7] <= most && record[8] <= most && record[9] == 0;
}

/* 2, 3, 4 and 5, in this order; 0 for a record that is right after one at a position. */
static unsigned record_fault(const uint8_t *record, uint32_t before) {
    if (record[0] != 0x56 || record[1] != 0x4E) return 2;
    if (record[6] < ON || record[6] > RESET) return 3;
    if (!are_fields(record)) return 4;
    if (record_position(record) < before) return 5;
    return 0;
}

/* "In a score 1 first, then each record 2, 3, 4, 5. Place is the record's index, else 0." */
uint64_t reference_check_score(const uint8_t *score, size_t len) {
    uint32_t before = 0;
    if (len % RECORD != 0 || len / RECORD > MOST_RECORDS) return says(1, 0, 0);
    for (size_t i = 0; i < len / RECORD; i++) {
        unsigned fault = record_fault(score + RECORD * i, before);
        if (fault) return says(fault, i, 0);
        before = record_position(score + RECORD * i);
    }
    return 0;
}

/* "at the desk also a waveform code above 4"; but "6 accepts the new choice, which is code 6 at the desk; 5, the Rust's
 * Noise, stays refused". */
static bool is_code(uint32_t code) { return code <= GAV_PULSE || code == GAV_ROUNDED_TRIANGLE; }

/* The duty "is read and judged for Pulse only". */
static bool is_wave(uint32_t code, double duty) {
    return is_code(code) && (code != GAV_PULSE || is_within(0.0, duty, 1.0));
}

static bool is_rate(uint32_t rate) { return rate >= 8000 && rate <= 192000; }

/* "frequency 0 to 20,000 Hz (LFO 0 to 100), depth 0 to 1" */
static bool is_lfo(const struct gav_settings *s) {
    return is_wave(s->lfo_code, s->lfo_duty) && is_within(0.0, s->lfo_frequency, 100.0) &&
           is_within(0.0, s->lfo_depth, 1.0);
}

/* "A setting chooses joined or struck". */
static bool is_keying(uint32_t joined) { return joined == GAV_STRUCK || joined == GAV_JOINED; }

/* "ADSR settings may be anything but NaN." Of the LFO's: "6 covers the new settings". */
static bool are_settings(const struct gav_settings *s) {
    return is_rate(s->rate) && is_wave(s->code, s->duty) && !isnan(s->attack) && !isnan(s->decay) &&
           !isnan(s->sustain) && !isnan(s->release) && is_lfo(s) && is_keying(s->joined);
}

/* "Order: 6, 7, the old or only score, the new score (same numbers plus 16), then 8 or 10" */
static uint64_t judged(const struct gav_settings *s, bool fits, const uint8_t *score, size_t len) {
    if (!are_settings(s)) return says(6, 0, 0);
    if (!fits) return says(7, 0, 0);
    return reference_check_score(score, len);
}

/* "N above 16,777,216, or shelf not 12 words per entry"; then "7 asks for 13 words an entry", and "7 also when the
 * summary has not one entry a section", which is a magnitude and a number. */
static bool is_room(size_t n, size_t words, size_t magnitudes, size_t numbers) {
    return n <= GAV_MOST_SAMPLES && words == gav_shelf_words(n) && magnitudes == gav_sections(n) &&
           numbers == gav_sections(n);
}

/* "A continuing call that would pass 16,777,216 is 7." */
static bool is_stretch(uint64_t position, size_t n) {
    return position <= GAV_MOST_SAMPLES && n <= GAV_MOST_SAMPLES - position;
}

static size_t records_below(struct records score, uint64_t position) {
    size_t below = 0;
    while (below < score.count && record_position(score.bytes + RECORD * below) < position) below++;
    return below;
}

/* Words from which a part of a score can be played at a position: a state whose records acted are those below it. */
static bool is_start(struct voice *voice, const uint64_t *words, struct records score, uint64_t position) {
    return voice_read(voice, words) && voice->acted == records_below(score, position);
}

/* The samples from a position on. "Entry k holds the state before sample 4096k is begun"; a shelf of none is no shelf.
 */
static void play(const struct gav_settings *settings, struct records score, struct voice *voice, uint64_t position,
                 double *out, size_t n, uint64_t *shelf) {
    const struct gav_settings s = clamped(settings);
    for (size_t i = 0; i < n; i++) {
        uint64_t at = position + i;
        if (shelf && at % GAV_SECTION == 0) voice_words(voice, shelf + at / GAV_SECTION * GAV_STATE_WORDS);
        voice_begin(&s, voice, score, at);
        out[i] = voice_make(&s, voice);
    }
}

/* "for each 4,096-sample section, the largest magnitude and the number, from the output's start, of the first sample
 * where it stands; the last section may be short": of the sections from a sample on. */
static void sum_up(const double *out, size_t from, size_t n, double *magnitudes, uint64_t *numbers) {
    for (size_t i = from; i < n; i++) {
        size_t k = i / GAV_SECTION;
        if (i % GAV_SECTION == 0) magnitudes[k] = 0.0, numbers[k] = i;
        if (fabs(out[i]) > magnitudes[k]) magnitudes[k] = fabs(out[i]), numbers[k] = i;
    }
}

uint64_t reference_render(const struct gav_settings *s, const uint8_t *score, size_t len, double *out, size_t n,
                          uint64_t *shelf, size_t words, double *magnitudes, size_t magnitudes_len, uint64_t *numbers,
                          size_t numbers_len) {
    uint64_t refusal = judged(s, is_room(n, words, magnitudes_len, numbers_len), score, len);
    if (refusal) return refusal;
    struct voice voice = voice_fresh();
    play(s, (struct records){score, len / RECORD}, &voice, 0, out, n, shelf);
    sum_up(out, 0, n, magnitudes, numbers);
    return says(0, 0, n);
}

/* "P is the lower position of the two at the first index where they differ, or of the one that remains where the other
 * has ended." */
uint64_t first_change(const uint8_t *old, size_t old_len, const uint8_t *new_, size_t new_len) {
    size_t at = 0;
    while (at < old_len && at < new_len && memcmp(old + at, new_ + at, RECORD) == 0) at += RECORD;
    uint64_t p = at < old_len ? record_position(old + at) : NOWHERE;
    uint64_t q = at < new_len ? record_position(new_ + at) : NOWHERE;
    return p < q ? p : q;
}

/* "the two scores' records from that position on are the same": all ten bytes of each, past the output's end too. */
static bool same_from(struct records old, struct records new_, uint64_t position) {
    size_t i = records_below(old, position), j = records_below(new_, position);
    if (old.count - i != new_.count - j) return false;
    for (; i < old.count; i++, j++) {
        if (memcmp(old.bytes + RECORD * i, new_.bytes + RECORD * j, RECORD) != 0) return false;
    }
    return true;
}

/* "if the state there equals the stored one apart from records acted"; "An entry compared but not a state is simply
 * unequal." Equal is every bit: -0 is not 0. */
static bool is_stored(const struct voice *voice, const uint64_t *entry) {
    uint64_t here[GAV_STATE_WORDS], there[GAV_STATE_WORDS];
    struct voice stored;
    if (!voice_read(&stored, entry)) return false;
    stored.acted = voice->acted;
    voice_words(voice, here);
    voice_words(&stored, there);
    return memcmp(here, there, sizeof here) == 0;
}

/* "Entries from the stop on get as records-acted number the new score's records below their position": states or not,
 * and the low 16 bits of the word stay. */
static void recount(struct records score, uint64_t *shelf, size_t stop, size_t n) {
    for (size_t at = stop; at < n; at += GAV_SECTION) {
        uint64_t *keys = shelf + at / GAV_SECTION * GAV_STATE_WORDS + 5;
        *keys = *keys % 65536 + 65536 * (uint64_t)records_below(score, at);
    }
}

/* "The re-render may stop at a later entry", and "stops at the first such entry past the start": plays sections from a
 * mark on, and gives the mark of that entry, or n where there is none. An entry is compared as it came. */
static size_t play_to_stop(const struct gav_settings *s, struct records old, struct records new_, struct voice *voice,
                           size_t from, double *out, size_t n, uint64_t *shelf) {
    size_t at = from;
    while (at < n) {
        size_t length = n - at < GAV_SECTION ? n - at : GAV_SECTION;
        play(s, new_, voice, at, out + at, length, shelf);
        at += length;
        if (at == n) break;
        if (same_from(old, new_, at) && is_stored(voice, shelf + at / GAV_SECTION * GAV_STATE_WORDS)) break;
    }
    return at;
}

/* "It starts at entry floor(P/4096). Equal scores, or P at or above N, write nothing and count 0." It "touches only
 * sections from its start entry on". From the stop on "nothing else" than the counts "is written", and the count "is
 * the samples from start to stop, or to the end where no entry stops it". */
uint64_t reference_rerender(const struct gav_settings *s, const uint8_t *old, size_t old_len, const uint8_t *new_,
                            size_t new_len, double *out, size_t n, uint64_t *shelf, size_t words, double *magnitudes,
                            size_t magnitudes_len, uint64_t *numbers, size_t numbers_len) {
    uint64_t refusal = judged(s, is_room(n, words, magnitudes_len, numbers_len), old, old_len);
    if (refusal) return refusal;
    refusal = reference_check_score(new_, new_len);
    if (refusal) return refusal + 16;
    uint64_t p = first_change(old, old_len, new_, new_len), from = p / GAV_SECTION * GAV_SECTION;
    if (p >= n) return says(0, 0, 0);
    struct records before = {old, old_len / RECORD}, score = {new_, new_len / RECORD};
    struct voice voice;
    if (!is_start(&voice, shelf + from / GAV_SECTION * GAV_STATE_WORDS, score, from)) return says(8, 0, 0);
    size_t stop = play_to_stop(s, before, score, &voice, from, out, n, shelf);
    sum_up(out, from, stop, magnitudes, numbers);
    recount(score, shelf, stop, n);
    return says(0, 0, stop - from);
}

uint64_t reference_continue(const struct gav_settings *s, const uint8_t *score, size_t len, uint64_t *state,
                            size_t state_words, uint64_t position, double *part, size_t n) {
    uint64_t refusal = judged(s, is_stretch(position, n), score, len);
    if (refusal) return refusal;
    struct records records = {score, len / RECORD};
    struct voice voice;
    if (state_words != GAV_STATE_WORDS || !is_start(&voice, state, records, position)) return says(10, 0, 0);
    play(s, records, &voice, position, part, n, NULL);
    voice_words(&voice, state);
    return says(0, 0, n);
}

uint64_t reference_fresh(uint64_t *state, size_t state_words) {
    if (state_words != GAV_STATE_WORDS) return says(9, 0, 0);
    struct voice voice = voice_fresh();
    voice_words(&voice, state);
    return 0;
}

/* "A single sample takes code, normalised phase, dt and a duty"; "9 after 6". */
uint64_t reference_sample_says(uint32_t code, double phase, double dt, double duty) {
    if (!is_wave(code, duty)) return says(6, 0, 0);
    if (!is_within(0.0, phase, 1.0) || !is_within(0.0, dt, 4.0)) return says(9, 0, 0);
    return 0;
}

double reference_sample(uint32_t code, double phase, double dt, double duty) {
    return reference_sample_says(code, phase, dt, duty) ? 0.0 : wave_at(code, duty, phase, dt);
}

static size_t put_line(char *text, const uint8_t *record) {
    static const char *const KINDS[] = {"", "on", "off", "reset"};
    return (size_t)sprintf(text, "%lu %s %u %u\n", (unsigned long)record_position(record), KINDS[record[6]], record[7],
                           record[8]);
}

/* "a refused score prints only one line with `refused`, number and place" */
uint64_t reference_list(const uint8_t *score, size_t len, uint8_t *text, size_t text_len) {
    static char listed[GAV_LIST_ROOM + 1];
    if (text_len < GAV_LIST_ROOM) return says(7, 0, 0);
    uint64_t fault = reference_check_score(score, len);
    size_t used = fault ? (size_t)sprintf(listed, "refused %u %u\n", gav_number(fault), (unsigned)gav_place(fault))
                        : (size_t)sprintf(listed, "records %u\n", (unsigned)(len / RECORD));
    for (size_t i = 0; i < len / RECORD && !fault; i++) used += put_line(listed + used, score + RECORD * i);
    memcpy(text, listed, used);
    return says(0, 0, used);
}

/* "After the block, phase is reduced by TAU". */
uint64_t reference_block(const struct block *b, double *phase, double *out, size_t n) {
    if (!is_rate(b->rate) || !is_wave(b->code, b->duty)) return says(6, 0, 0);
    bool fits = is_within(0.0, b->frequency, b->highest) && is_within(0.0, b->depth, 1.0);
    if (!fits || !(*phase >= 0.0 && *phase < 1000.0)) return says(9, 0, 0);
    double step = b->frequency / b->rate * TAU;
    for (size_t i = 0; i < n; i++) {
        out[i] = wave_in(b->code, b->duty, *phase, step) * b->depth;
        *phase += step;
    }
    *phase = reduced(*phase);
    return says(0, 0, n);
}
