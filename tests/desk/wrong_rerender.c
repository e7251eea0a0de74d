/* Wrong re-renders, for linking the desk with --wrap=gav_rerender. Without WRONG in the environment what is made is a
   hundredth too soft, and the chart must show it. WRONG=early counts a section too few, and WRONG=stale leaves the
   records acted from the stop on as they came: `desk verify` must tell both. WRONG=far makes what lies after the stop
   too soft, and no file may show that. */
#include "gavberin.h"

#include "../settings.h"

#include <stdlib.h>
#include <string.h>

#define SCORES const uint8_t *before, size_t before_len, const uint8_t *after, size_t after_len
#define SOUND double *out, size_t n, uint64_t *shelf, size_t words, SUMMARY

uint64_t __real_gav_rerender(SETTINGS, SCORES, SOUND);
uint64_t __wrap_gav_rerender(SETTINGS, SCORES, SOUND);

static void soften(double *from, size_t samples) {
    for (size_t i = 0; i < samples; i++) from[i] *= 0.99;
}

static uint64_t *copy_of(const uint64_t *shelf, size_t words) {
    uint64_t *copy = malloc((words + 1) * sizeof *copy);
    if (!copy) abort();
    if (words > 0) memcpy(copy, shelf, words * sizeof *copy);
    return copy;
}

uint64_t __wrap_gav_rerender(SETTINGS, SCORES, SOUND) {
    const char *wrong = getenv("WRONG");
    uint64_t *kept = copy_of(shelf, words);
    uint64_t said = __real_gav_rerender(GIVEN, before, before_len, after, after_len, out, n, shelf, words, PEAKS);
    size_t count = gav_count(said), from = count ? start_of_edit(before, before_len, after, after_len) : n,
           stop = from + count;
    if (!wrong) {
        soften(out + from, count);
    } else if (strcmp(wrong, "far") == 0) {
        soften(out + stop, n - stop);
    } else if (strcmp(wrong, "early") == 0 && count > GAV_SECTION) {
        said -= (uint64_t)GAV_SECTION << 32;
    } else if (strcmp(wrong, "stale") == 0) {
        for (size_t i = gav_shelf_words(stop) + 5; i < words; i += GAV_STATE_WORDS) shelf[i] = kept[i];
    }
    free(kept);
    return said;
}
