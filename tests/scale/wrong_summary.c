/* Wrong summaries, worked out of what a right call has left and of what it was lent. */
#include "wrong.h"

#include <math.h>

static double came[LONGEST], came_magnitudes[MOST_ENTRIES + 1];
static uint64_t came_numbers[MOST_ENTRIES + 1];

bool is_summary(const struct lent_summary *lent) {
    return lent->magnitudes_len == gav_sections(lent->n) && lent->numbers_len == gav_sections(lent->n);
}

bool is_wrongly_taken(enum summary how, const struct lent_summary *lent) {
    const size_t sections = gav_sections(lent->n), m = lent->magnitudes_len, at = lent->numbers_len;
    if (is_summary(lent) || lent->words != gav_shelf_words(lent->n)) return false;
    if (how == ANY_MAGNITUDES) return at == sections;
    if (how == ANY_NUMBERS) return m == sections;
    if (how == MORE_TAKEN) return m >= sections && at >= sections;
    return how == EQUAL_TAKEN && m == at;
}

void keep_summary(const struct lent_summary *lent) {
    if (lent->n > LONGEST) return;
    keep(came, lent->out, lent->n * sizeof *came);
    keep(came_magnitudes, lent->magnitudes, lent->magnitudes_len * sizeof *came_magnitudes);
    keep(came_numbers, lent->numbers, lent->numbers_len * sizeof *came_numbers);
}

/* The peaks of the sections from one on, up to a sample, by one of the wrong rules or by the right one. */
static void sum_up(enum summary how, const struct lent_summary *lent, const double *samples, size_t from, size_t to) {
    double largest = 0.0;
    uint64_t at = 0;
    for (size_t i = from * GAV_SECTION; i < to; i++) {
        double x = how == LARGEST_SIGNED ? samples[i] : fabs(samples[i]);
        bool is_first = i % GAV_SECTION == 0 && (how != CARRIED || i == from * GAV_SECTION);
        if (is_first) largest = how == LARGEST_SIGNED ? samples[i] : 0.0, at = i;
        if (x > largest || (how == LATER_EQUAL && x == largest && x > 0.0)) largest = x, at = i;
        lent->magnitudes[i / GAV_SECTION] = largest;
        lent->numbers[i / GAV_SECTION] = at;
    }
}

/* A section's peak as it came. */
static void put_back(const struct lent_summary *lent, size_t section) {
    lent->magnitudes[section] = came_magnitudes[section];
    lent->numbers[section] = came_numbers[section];
}

static void spoil_section(enum summary how, const struct lent_summary *lent, size_t section, bool is_first) {
    double *magnitude = lent->magnitudes + section;
    uint64_t *at = lent->numbers + section;
    const size_t begin = section * GAV_SECTION, end = begin + GAV_SECTION;
    if (how == SIGN_KEPT && lent->out[*at] < 0.0) *magnitude = -*magnitude;
    if (how == MINUS_ZERO && *magnitude == 0.0) *magnitude = -0.0;
    if (how == SILENCE_LAST && *magnitude == 0.0) *at = (end < lent->n ? end : lent->n) - 1;
    if (how == FROM_ONE) *at += 1;
    if (how == IN_SECTION) *at -= begin;
    if (how == LARGER_KEPT && came_magnitudes[section] > *magnitude) put_back(lent, section);
    if (how == AS_FLOAT) *magnitude = (float)*magnitude;
    if (how == CLAMPED && *magnitude > 1.0) *magnitude = 1.0;
    if (how == WHOLE_ALONE && end > lent->n) put_back(lent, section);
    if (how == FIRST_ALONE && !is_first) put_back(lent, section);
    if (how == LEFT_ALONE) put_back(lent, section);
}

void spoil_summary(enum summary how, const struct lent_summary *lent, size_t from, size_t to) {
    const size_t start = from / GAV_SECTION, stop = gav_sections(to), sections = gav_sections(lent->n);
    if (from == to) {
        if (how == NOTHING_CHANGES) sum_up(RIGHT, lent, lent->out, 0, lent->n);
        return;
    }
    if (how == LATER_EQUAL || how == LARGEST_SIGNED || how == CARRIED) sum_up(how, lent, lent->out, start, to);
    if (how == STALE) sum_up(RIGHT, lent, came, start, to);
    if (how == FROM_ZERO) sum_up(RIGHT, lent, lent->out, 0, to);
    if (how == SECTION_BEFORE && start > 0) sum_up(RIGHT, lent, lent->out, start - 1, to);
    for (size_t k = start; k < stop; k++) spoil_section(how, lent, k, k == start);
    if (how == PAST_THE_END && lent->n % GAV_SECTION == 0) lent->numbers[sections] = lent->n;
}
