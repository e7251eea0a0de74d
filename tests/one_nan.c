/* A library that the statements allow, since their account of floats has one NaN, and that a host can tell: every NaN
 * that a call leaves as it came, among the samples or among the magnitudes, is afterwards that one NaN. Linked into
 * tests/the-library-links.c with --wrap for all four calls; SPOILT is the case in which it does so. */
#include "gavberin.h"

#include "settings.h"

#include <stdbool.h>

/* Of the samples, and all but the last again of the magnitudes. */
enum {
    RENDER_REFUSED,
    RERENDER_REFUSED,
    BEFORE_THE_START,
    BEHIND_THE_STOP,
    PAGE_REFUSED,
    BEFORE_THE_PAGE,
    BEHIND_THE_PAGE,
    CONTINUE_REFUSED,
    OF_PEAKS,
    RENDER_REFUSED_PEAKS = OF_PEAKS,
    RERENDER_REFUSED_PEAKS,
    BEFORE_THE_START_PEAKS,
    BEHIND_THE_STOP_PEAKS,
    PAGE_REFUSED_PEAKS,
    BEFORE_THE_PAGE_PEAKS,
    BEHIND_THE_PAGE_PEAKS
};

#define SCORE const uint8_t *score, size_t len
#define NEW const uint8_t *new_, size_t new_len
#define EDITS const uint8_t *edits, size_t edits_len
#define MADE uint8_t *made, size_t made_len
#define SOUND double *out, size_t n, uint64_t *shelf, size_t words, SUMMARY
#define STATE uint64_t *state, size_t words, uint64_t position, double *part, size_t n

uint64_t __real_gav_render(SETTINGS, SCORE, SOUND);
uint64_t __real_gav_rerender(SETTINGS, SCORE, NEW, SOUND);
uint64_t __real_gav_edit(SETTINGS, SCORE, EDITS, SOUND, MADE);
uint64_t __real_gav_continue(SETTINGS, SCORE, STATE);
uint64_t __wrap_gav_render(SETTINGS, SCORE, SOUND);
uint64_t __wrap_gav_rerender(SETTINGS, SCORE, NEW, SOUND);
uint64_t __wrap_gav_edit(SETTINGS, SCORE, EDITS, SOUND, MADE);
uint64_t __wrap_gav_continue(SETTINGS, SCORE, STATE);

static void with_one_nan(int where, double *at, size_t count) {
    for (size_t i = 0; where == SPOILT && i < count; i++) {
        if (at[i] != at[i]) at[i] = __builtin_nan("");
    }
}

/* Of the samples from one to before another, which the call did not write, and of the magnitudes of their sections. */
static void with_one_of_both(int where, double *out, size_t from, size_t to, double *magnitudes, bool is_summary) {
    with_one_nan(where, out + from, to - from);
    if (!is_summary) return;
    with_one_nan(OF_PEAKS + where, magnitudes + gav_sections(from), gav_sections(to) - gav_sections(from));
}

uint64_t __wrap_gav_render(SETTINGS, SCORE, SOUND) {
    uint64_t said = __real_gav_render(GIVEN, score, len, out, n, shelf, words, PEAKS);
    with_one_of_both(RENDER_REFUSED, out, gav_count(said), n, magnitudes, gav_sections(n) == magnitudes_len);
    return said;
}

uint64_t __wrap_gav_rerender(SETTINGS, SCORE, NEW, SOUND) {
    uint64_t said = __real_gav_rerender(GIVEN, score, len, new_, new_len, out, n, shelf, words, PEAKS);
    const bool is_summary = gav_sections(n) == magnitudes_len;
    const int before = gav_number(said) == GAV_DONE ? BEFORE_THE_START : RERENDER_REFUSED;
    const size_t start = gav_count(said) > 0 ? start_of_edit(score, len, new_, new_len) : n;
    with_one_of_both(before, out, 0, start, magnitudes, is_summary);
    with_one_of_both(BEHIND_THE_STOP, out, start + gav_count(said), n, magnitudes, is_summary);
    return said;
}

uint64_t __wrap_gav_edit(SETTINGS, SCORE, EDITS, SOUND, MADE) {
    uint64_t said = __real_gav_edit(GIVEN, score, len, edits, edits_len, out, n, shelf, words, PEAKS, made, made_len);
    const bool is_summary = gav_sections(n) == magnitudes_len;
    const int before = gav_number(said) == GAV_DONE ? BEFORE_THE_PAGE : PAGE_REFUSED;
    const size_t start = gav_count(said) > 0 ? start_of_edit(score, len, made, gav_place(said)) : n;
    with_one_of_both(before, out, 0, start, magnitudes, is_summary);
    with_one_of_both(BEHIND_THE_PAGE, out, start + gav_count(said), n, magnitudes, is_summary);
    return said;
}

uint64_t __wrap_gav_continue(SETTINGS, SCORE, STATE) {
    uint64_t said = __real_gav_continue(GIVEN, score, len, state, words, position, part, n);
    if (gav_number(said) != GAV_DONE) with_one_nan(CONTINUE_REFUSED, part, n);
    return said;
}
