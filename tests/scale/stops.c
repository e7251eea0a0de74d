/* Re-renders whose count is known beforehand: which entry is the first that is equal, what counts as a record from
 * there on, and what becomes of the entries behind. Each is made over what the old render left, and over rubbish. */
#include "scale.h"

#include <stdio.h>

#define MOST_NOTES 5
#define LAST UINT32_MAX /* the highest position */
#define MOST_SECTIONS (GAV_MOST_SAMPLES / GAV_SECTION)

struct note {
    uint32_t position;
    enum kind kind; /* none after the last */
    uint8_t note, velocity;
};

struct stop {
    const char *name;
    size_t n, count; /* the samples from start to stop, or to the end */
    struct note old[MOST_NOTES], new_[MOST_NOTES];
};

/* Under the usual settings: Attack to sample 480, Decay to 5,280, a release of 14,400 samples. */
static const struct stop STOPS[] = {
    {"an off's velocity at 5,000 and another's at 8,192",
     16384,
     8192,
     {{0, ON, 60, 100}, {5000, OFF, 60, 1}, {8192, OFF, 60, 1}},
     {{0, ON, 60, 100}, {5000, OFF, 60, 2}, {8192, OFF, 60, 2}}},
    {"an off's velocity at 5,000 and another's at 8,191",
     16384,
     4096,
     {{0, ON, 60, 100}, {5000, OFF, 60, 1}, {8191, OFF, 60, 1}},
     {{0, ON, 60, 100}, {5000, OFF, 60, 2}, {8191, OFF, 60, 2}}},
    {"an off's velocity at 5,000, and a key past the end",
     16384,
     12288,
     {{0, ON, 60, 100}, {5000, OFF, 60, 1}},
     {{0, ON, 60, 100}, {5000, OFF, 60, 2}, {20000, ON, 64, 100}}},
    {"an off's velocity at 5,000, and that of one past the end",
     16385,
     12289,
     {{0, ON, 60, 100}, {5000, OFF, 60, 1}, {16385, OFF, 60, 1}},
     {{0, ON, 60, 100}, {5000, OFF, 60, 2}, {16385, OFF, 60, 2}}},
    {"an off's velocity at 5,000, and a record at the highest position",
     16384,
     12288,
     {{0, ON, 60, 100}, {5000, OFF, 60, 1}},
     {{0, ON, 60, 100}, {5000, OFF, 60, 2}, {LAST, OFF, 60, 1}}},
    {"a record at the highest position taken out, and a velocity at 0",
     9000,
     9000,
     {{0, OFF, 60, 1}, {LAST, OFF, 60, 1}},
     {{0, OFF, 60, 2}}},
    {"no record, then an off at 0", 16384, 4096, {{0}}, {{0, OFF, 60, 0}}},
    {"an off at 0, then no record", 16384, 4096, {{0, OFF, 60, 0}}, {{0}}},
    {"an off at 4,096 more, among others at that position",
     12289,
     4096,
     {{4096, OFF, 60, 0}, {8192, OFF, 60, 0}},
     {{4096, OFF, 60, 0}, {4096, OFF, 61, 0}, {8192, OFF, 60, 0}}},
    {"an off at 4,095 moved to 4,096", 12289, 8192, {{4095, OFF, 60, 0}}, {{4096, OFF, 60, 0}}},
    {"an off at 4,096 moved to 4,095", 12289, 8192, {{4096, OFF, 60, 0}}, {{4095, OFF, 60, 0}}},
    {"an on's velocity, the next on at 20,000",
     24577,
     20480,
     {{0, ON, 60, 100}, {9000, OFF, 60, 0}, {20000, ON, 64, 100}},
     {{0, ON, 60, 50}, {9000, OFF, 60, 0}, {20000, ON, 64, 100}}},
    {"another note at 0, a reset at 8,192",
     20000,
     12288,
     {{0, ON, 60, 100}, {8192, RESET, 0, 0}},
     {{0, ON, 64, 100}, {8192, RESET, 0, 0}}},
    {"another note at 0, a reset at 8,191",
     20000,
     8192,
     {{0, ON, 60, 100}, {8191, RESET, 0, 0}},
     {{0, ON, 64, 100}, {8191, RESET, 0, 0}}},
    {"another note at 0, no reset",
     20000,
     20000,
     {{0, ON, 60, 100}, {8000, OFF, 60, 0}},
     {{0, ON, 64, 100}, {8000, OFF, 64, 0}}},
    {"an off moved within Sustain, the key struck again at 16,000",
     20480,
     12288,
     {{0, ON, 60, 100}, {8000, OFF, 60, 0}, {16000, ON, 60, 100}},
     {{0, ON, 60, 100}, {8128, OFF, 60, 0}, {16000, ON, 60, 100}}},
    {"an off moved within Decay, the next off at 18,000",
     24577,
     20480,
     {{0, ON, 60, 100}, {3008, OFF, 60, 0}, {16000, ON, 60, 100}, {18000, OFF, 60, 0}},
     {{0, ON, 60, 100}, {3072, OFF, 60, 0}, {16000, ON, 60, 100}, {18000, OFF, 60, 0}}},
    {"equal scores", 16384, 0, {{0, ON, 60, 100}, {5000, OFF, 60, 1}}, {{0, ON, 60, 100}, {5000, OFF, 60, 1}}},
    {"a key at the end", 8192, 0, {{0, ON, 60, 100}}, {{0, ON, 60, 100}, {8192, ON, 64, 100}}},
    {"a key at the last sample", 8192, 4096, {{0, ON, 60, 100}}, {{0, ON, 60, 100}, {8191, ON, 64, 100}}},
};

static void write_score(const struct note *notes, struct score *score) {
    size_t count = 0;
    for (; count < MOST_NOTES && notes[count].kind != 0; count++) {
        const struct note *note = notes + count;
        put_record(score->bytes + RECORD * count, note->position, note->kind, note->note, note->velocity);
    }
    score->len = RECORD * count;
}

/* Lends the render of the old score; the new one, and the render that it is due. */
static void begin(struct round *r, const struct stop *stop, struct score *new_, struct heard *due) {
    r->n = stop->n;
    write_score(stop->old, &r->score);
    write_score(stop->new_, new_);
    judge_hear(r, &r->score, &r->heard);
    judge_hear(r, new_, due);
    run_render(r);
    snprintf(r->what, sizeof r->what, "%s", stop->name);
}

static void same_count(const struct round *r, const struct stop *stop, size_t count) {
    if (count != stop->count) differ(r, "the judge's count is %zu, and %zu is due", count, stop->count);
}

/* Rubbish: all sound, what lies before the start, and the entries behind the stop, or where there is none behind the
 * start, which are no states then. */
static void spoil(struct round *r, size_t start, size_t stop) {
    const size_t sections = gav_sections(r->n), behind = stop < sections ? stop + 1 : start + 1;
    uint64_t *shelf = words_of(&r->lent, SHELF);
    spoil_sound(r, 0, sections);
    rubbish(&r->chance, shelf, start * GAV_STATE_WORDS);
    for (size_t at = behind * GAV_STATE_WORDS; at < sections * GAV_STATE_WORDS; at++) shelf[at] = UINT64_MAX;
}

static void run_stop(struct round *r, const struct stop *stop) {
    static struct score new_;
    static struct heard due;
    begin(r, stop, &new_, &due);
    same_count(r, stop, rerender(r, &new_, &due, r->heard.shelf));
    same_render(r, &due);
    begin(r, stop, &new_, &due);
    const size_t start = start_of(r, &new_), end = start * GAV_SECTION + stop->count;
    spoil(r, start, end < r->n ? end / GAV_SECTION : gav_sections(r->n));
    same_count(r, stop, rerender(r, &new_, &due, words_of(&r->lent, SHELF)));
    r->tally->rerenders.spoilt++;
}

/* Two renders that part in the sign of a release level alone: -0 is not 0. */
static void run_minus_zero(struct round *r) {
    static const struct stop STOP = {"a release level of -0",
                                     9000,
                                     9000,
                                     {{0, ON, 0, 100}, {2000, OFF, 0, 0}},
                                     {{0, ON, 0, 100}, {1999, ON, 0, 100}, {2000, OFF, 0, 0}}};
    static struct score new_;
    static struct heard due;
    r->settings = (struct gav_settings)GAV_SETTINGS_DEFAULT;
    r->settings.rate = 192000;
    r->settings.attack = 0.001, r->settings.decay = 0.002, r->settings.sustain = -0.0, r->settings.release = 0.003;
    begin(r, &STOP, &new_, &due);
    const uint64_t *old = r->heard.shelf + GAV_STATE_WORDS, *now = due.shelf + GAV_STATE_WORDS;
    uint64_t alike[GAV_STATE_WORDS];
    memcpy(alike, now, sizeof alike);
    alike[4] = old[4];
    if (!is_same_state(old, alike) || old[4] != bits(-0.0) || now[4] != 0) differ(r, "entry 1 is not as it was");
    run_stop(r, &STOP);
}

static void same_entry(const struct round *r, const uint64_t *entry, uint64_t keys) {
    for (size_t i = 0; i < GAV_STATE_WORDS; i++) {
        if (entry[i] != (i == 5 ? keys : UINT64_MAX)) differ(r, "word %zu of the entry is another", i);
    }
}

/* An entry that is no state is counted too, and keeps what else it has. */
static void run_recount(struct round *r) {
    static const struct stop STOP = {
        "two records, entry 2 all ones", 12288, 4096, {{0, OFF, 60, 0}}, {{0, OFF, 60, 0}, {0, OFF, 61, 0}}};
    static struct score new_;
    static struct heard due;
    begin(r, &STOP, &new_, &due);
    uint64_t *entry = words_of(&r->lent, SHELF) + 2 * GAV_STATE_WORDS;
    memset(entry, 0xFF, 8 * GAV_STATE_WORDS);
    same_count(r, &STOP, rerender(r, &new_, &due, words_of(&r->lent, SHELF)));
    same_entry(r, entry, 0x2FFFF);
}

/* Another bit in the one entry that would stop: then it does not, but for a bit of the records acted. */
static void run_bit(struct round *r, size_t word, unsigned bit) {
    const size_t n = 4097, count = word == 5 && bit >= 16 ? 4096 : 4097;
    const struct stop stop = {"another bit", n, count, {{0, ON, 60, 100}}, {{0, ON, 60, 100}, {0, OFF, 61, 0}}};
    static struct score new_;
    static struct heard due;
    begin(r, &stop, &new_, &due);
    snprintf(r->what, sizeof r->what, "another bit %u of word %zu", bit, word);
    words_of(&r->lent, SHELF)[GAV_STATE_WORDS + word] ^= UINT64_C(1) << bit;
    same_count(r, &stop, rerender(r, &new_, &due, words_of(&r->lent, SHELF)));
}

static void run_bits(struct round *r) {
    static const unsigned BITS[] = {0, 15, 16, 51, 63};
    for (size_t i = 0; i < GAV_STATE_WORDS * COUNT_OF(BITS); i++)
        run_bit(r, i / COUNT_OF(BITS), BITS[i % COUNT_OF(BITS)]);
}

void run_stops(struct round *r) {
    r->settings = (struct gav_settings)GAV_SETTINGS_DEFAULT;
    for (size_t i = 0; i < COUNT_OF(STOPS); i++) run_stop(r, STOPS + i);
    run_recount(r);
    run_bits(r);
    run_minus_zero(r);
}

/* The longest output, of the library alone: what it is lent, and the shelf that it must hold afterwards. */
static struct longest {
    double out[GAV_MOST_SAMPLES], magnitudes[MOST_SECTIONS];
    uint64_t shelf[MOST_SECTIONS * GAV_STATE_WORDS], due[MOST_SECTIONS * GAV_STATE_WORDS], numbers[MOST_SECTIONS];
} longest;

/* Offs that find no key: one at 0, and one at the start of each section but the last. */
static void write_longest(struct score *score) {
    score->len = RECORD * MOST_RECORDS;
    for (size_t i = 0; i < MOST_RECORDS; i++) {
        const size_t section = i > 0 ? i - 1 : 0;
        put_record(score->bytes + RECORD * i, (uint32_t)(section * GAV_SECTION), OFF, i > 0 ? 60 : 61, 0);
    }
}

/* The entries from one on have so many records acted more than there are sections before them. */
static void expect_longest(size_t from, uint64_t more) {
    for (size_t k = from; k < MOST_SECTIONS; k++) {
        uint64_t *keys = longest.due + k * GAV_STATE_WORDS + 5;
        *keys = *keys % 65536 | (k + more) << 16;
    }
}

static void rerender_longest(const struct round *r, const struct score *old, const struct score *new_) {
    uint64_t said = gav_rerender_with(&r->settings, old->bytes, old->len, new_->bytes, new_->len, longest.out,
                                      GAV_MOST_SAMPLES, longest.shelf, COUNT_OF(longest.shelf), longest.magnitudes,
                                      MOST_SECTIONS, longest.numbers, MOST_SECTIONS);
    if (said != says(0, 0, GAV_SECTION)) differ(r, "it answers %llx", (unsigned long long)said);
    if (memcmp(longest.shelf, longest.due, sizeof longest.due) != 0) differ(r, "the shelf is another");
}

/* With the record at 0 and without it. */
void run_longest(struct round *r) {
    static struct score all, fewer;
    snprintf(r->what, sizeof r->what, "a stop among 4,096 entries and 4,096 records");
    r->settings = (struct gav_settings)GAV_SETTINGS_DEFAULT;
    write_longest(&all);
    fewer.len = all.len - RECORD;
    memcpy(fewer.bytes, all.bytes + RECORD, fewer.len);
    uint64_t said =
        gav_render_with(&r->settings, fewer.bytes, fewer.len, longest.out, GAV_MOST_SAMPLES, longest.shelf,
                        COUNT_OF(longest.shelf), longest.magnitudes, MOST_SECTIONS, longest.numbers, MOST_SECTIONS);
    if (said != says(0, 0, GAV_MOST_SAMPLES)) differ(r, "the render answers %llx", (unsigned long long)said);
    memcpy(longest.due, longest.shelf, sizeof longest.due);
    expect_longest(0, 0);
    if (memcmp(longest.shelf, longest.due, sizeof longest.due) != 0) differ(r, "the render's shelf is another");
    expect_longest(1, 1);
    rerender_longest(r, &fewer, &all);
    expect_longest(1, 0);
    rerender_longest(r, &all, &fewer);
}
