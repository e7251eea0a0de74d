/* Wrong stops: a re-render that is made here, of the library's parts of a section each, with one fault. Without a fault
 * it is right. */
#include "wrong.h"

/* The new score from the start on. */
static double sound[LONGEST];
static uint64_t states[MOST_ENTRIES * GAV_STATE_WORDS];

static size_t entry_of(size_t section) { return section * GAV_STATE_WORDS; }

/* The first sample after a section. */
static size_t end_of(const struct lent_edit *e, size_t section) {
    size_t end = (section + 1) * GAV_SECTION;
    return end < e->lent.n ? end : e->lent.n;
}

size_t first_written(const struct lent_edit *e, uint64_t answer) {
    if (gav_count(answer) == 0) return e->lent.n;
    return (size_t)first_change(e->old, e->old_len, e->new_, e->new_len) / GAV_SECTION * GAV_SECTION;
}

static void hear(const struct lent_edit *e, size_t start) {
    uint64_t state[GAV_STATE_WORDS];
    memcpy(state, e->shelf + entry_of(start), sizeof state);
    for (size_t k = start; k < gav_sections(e->lent.n); k++) {
        size_t at = k * GAV_SECTION;
        memcpy(states + entry_of(k), state, sizeof state);
        __real_gav_continue(GAV_SETTINGS_OF(&e->settings), e->new_, e->new_len, state, GAV_STATE_WORDS, at, sound + at,
                            end_of(e, k) - at);
    }
}

static uint64_t count_below(const uint8_t *score, size_t len, uint64_t position) {
    uint64_t below = 0;
    while (below < len / RECORD && record_position(score + RECORD * below) < position) below++;
    return below;
}

static bool is_same_record(enum stopping how, const uint8_t *a, const uint8_t *b) {
    if (how == NUMBER_ALONE) return true;
    if (how == POSITIONS_ALONE) return record_position(a) == record_position(b);
    bool is_silent = how == SILENT_LEFT_OUT && a[6] == OFF;
    return memcmp(a, b, is_silent ? 8 : RECORD) == 0;
}

/* The bytes of a score that are compared. */
static size_t compared(enum stopping how, const struct lent_edit *e, const uint8_t *score, size_t len) {
    return how == PAST_END_LEFT_OUT ? RECORD * count_below(score, len, e->lent.n) : len;
}

/* The position of the last of so many bytes of a score; -1 where there is none. */
static int64_t last_position(const uint8_t *score, size_t len) {
    return len > 0 ? (int64_t)record_position(score + len - RECORD) : -1;
}

static bool are_ends_same(enum stopping how, const struct lent_edit *e, int64_t position) {
    size_t i = compared(how, e, e->old, e->old_len), j = compared(how, e, e->new_, e->new_len);
    while (i > 0 && j > 0 && is_same_record(how, e->old + i - RECORD, e->new_ + j - RECORD)) i -= RECORD, j -= RECORD;
    int64_t p = last_position(e->old, i), q = last_position(e->new_, j), last = p > q ? p : q;
    if (how == SCORES_LEFT_OUT) return true;
    if (how == LOWER_OF_TWO) last = p < q ? p : q;
    if (how == OLD_ALONE) last = p;
    if (how == NEW_ALONE) last = q;
    if (how == MARK_LEFT_OUT) last -= 1;
    if (how == MARK_AND_BEFORE) last += 1;
    if (how == LAST_WRAPS) last = (int64_t)(uint32_t)(last + 1) - 1;
    if (how == MARK_WRAPS) return position >= (int64_t)(uint32_t)((last + GAV_SECTION) / GAV_SECTION * GAV_SECTION);
    return position > last;
}

static bool is_same_word(enum stopping how, size_t at, uint64_t came, uint64_t due) {
    bool is_float = at != 1 && at != 5 && (at < 8 || at > 11);
    if (how == (enum stopping)(WORD_LEFT_OUT + at)) return true;
    if (at == 5 && how != ACTED_COMPARED) return came % 65536 == due % 65536;
    return came == due || (how == AS_NUMBERS && is_float && number(came) == number(due));
}

static bool is_equal(enum stopping how, const struct lent_edit *e, size_t section) {
    const uint64_t *came = e->shelf + entry_of(section), *due = states + entry_of(section);
    struct voice voice;
    if (how == KEPT_FIRST || (how == NO_STATE_STOPS && !voice_read(&voice, came))) return true;
    if (how == ACTED_OF_OLD && came[5] >> 16 != count_below(e->old, e->old_len, section * GAV_SECTION)) return false;
    for (size_t i = 0; i < GAV_STATE_WORDS; i++) {
        if (!is_same_word(how, i, came[i], due[i])) return false;
    }
    return true;
}

static size_t stop_of(enum stopping how, const struct lent_edit *e, size_t start, size_t sections) {
    size_t stop = sections;
    for (size_t k = start + 1; k < sections && how != NEVER_STOPS; k++) {
        if ((how == NEXT_LEFT_OUT && k == start + 1) || (how == LAST_LEFT_OUT && k + 1 == sections)) continue;
        if (!are_ends_same(how, e, (int64_t)(k * GAV_SECTION)) || !is_equal(how, e, k)) continue;
        stop = k;
        if (how != LAST_EQUAL) break;
    }
    return how == ONE_LATER && stop < sections ? stop + 1 : stop;
}

static void put_samples(const struct lent_edit *e, size_t section) {
    size_t at = section * GAV_SECTION;
    memcpy(e->lent.out + at, sound + at, (end_of(e, section) - at) * sizeof *sound);
}

/* The peak of the samples that are lent. */
static void put_peak(const struct lent_edit *e, size_t section) {
    judge_peaks(e->lent.out, section * GAV_SECTION, end_of(e, section), e->lent.magnitudes, e->lent.numbers);
}

static void put_section(enum stopping how, const struct lent_edit *e, size_t section, bool is_last) {
    const size_t entry = entry_of(section);
    if (!is_last || how != SAMPLES_LEFT) put_samples(e, section);
    if (!is_last || how != ENTRY_LEFT) memcpy(e->shelf + entry, states + entry, 8 * GAV_STATE_WORDS);
    if (!is_last || how != PEAK_LEFT) put_peak(e, section);
}

/* Word 5 of an entry with the records acted of the new score. */
static uint64_t counted(enum stopping how, const struct lent_edit *e, size_t section, size_t stop) {
    const uint64_t *entry = e->shelf + entry_of(section), came = entry[5], position = section * GAV_SECTION;
    uint64_t acted = count_below(e->new_, e->new_len, position), olds = count_below(e->old, e->old_len, position);
    struct voice voice;
    if (how == NOT_RECOUNTED || (how == STOP_ALONE && section != stop)) return came;
    if ((how == STOP_PASSED && section == stop) || (how == STATES_ALONE && !voice_read(&voice, entry))) return came;
    if (how == STOPS_COUNT) acted = count_below(e->new_, e->new_len, stop * GAV_SECTION);
    if (how == BY_DIFFERENCE) acted = (came >> 16) + acted - olds;
    if (how == MARK_COUNTED) acted = count_below(e->new_, e->new_len, position + 1);
    if (how == ALL_COUNTED) acted = e->new_len / RECORD;
    if (how == OLD_COUNTED) acted = olds;
    return (how == LOW_LOST ? 0 : came % 65536) | acted << 16;
}

static void leave_section(enum stopping how, const struct lent_edit *e, size_t section, size_t stop) {
    const size_t at = section * GAV_SECTION;
    uint64_t *entry = e->shelf + entry_of(section), keys = counted(how, e, section, stop);
    if (how == SAMPLES_CLEARED) memset(e->lent.out + at, 0, (end_of(e, section) - at) * sizeof *sound);
    if (how == PEAKS_CLEARED) e->lent.magnitudes[section] = 0.0, e->lent.numbers[section] = at;
    if (how == ENTRIES_CLEARED) memset(entry, 0, 8 * GAV_STATE_WORDS);
    if (how == SAMPLES_MORE && section == stop) put_samples(e, section);
    if (how == PEAK_MORE && section == stop) put_peak(e, section);
    entry[5] = keys;
}

static void count_all(const struct lent_edit *e, size_t sections) {
    for (size_t k = 0; k < sections; k++) e->shelf[entry_of(k) + 5] = counted(STOPS_RIGHT, e, k, 0);
}

static void put_sections(enum stopping how, const struct lent_edit *e, size_t start, size_t stop) {
    const bool is_early = stop < gav_sections(e->lent.n);
    for (size_t k = start; k < stop; k++) put_section(how, e, k, k + 1 == stop && is_early);
}

static void leave_sections(enum stopping how, const struct lent_edit *e, size_t stop, size_t sections) {
    for (size_t k = stop; k < sections; k++) leave_section(how, e, k, stop);
}

uint64_t wrong_rerender(enum stopping how, const struct lent_edit *e, uint64_t answer) {
    const size_t sections = gav_sections(e->lent.n), from = first_written(e, answer), start = from / GAV_SECTION;
    if (gav_number(answer) == 0 && gav_count(answer) == 0 && how == NOTHING_COUNTED) count_all(e, sections);
    if (gav_count(answer) == 0) return answer;
    hear(e, start);
    const size_t stop = stop_of(how, e, start, sections), to = end_of(e, stop - 1);
    put_sections(how, e, start, stop);
    leave_sections(how, e, stop, sections);
    if (how == EARLIER_COUNTED) count_all(e, start);
    return says(0, 0, how == COUNT_TO_END ? e->lent.n - from : how == COUNT_FROM_START ? to : to - from);
}
