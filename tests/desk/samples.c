/* What the library renders, for comparing: samples SETTING.. N <SCORE
   The settings are those of struct gav_settings, in its order. Writes the answer, N samples, the shelf's words, and
   the magnitudes and the numbers of the peaks to standard output, 8 bytes each as this machine has them. */
#include "gavberin.h"

#include <stdio.h>
#include <stdlib.h>

static uint32_t whole(const char *text) { return (uint32_t)strtoul(text, NULL, 10); }
static double number(const char *text) { return strtod(text, NULL); }

int main(int argc, char **argv) {
    static uint8_t score[40961];
    if (argc != 14) return 2;
    const struct gav_settings settings = {
        .rate = whole(argv[1]),
        .code = whole(argv[2]),
        .duty = number(argv[3]),
        .attack = number(argv[4]),
        .decay = number(argv[5]),
        .sustain = number(argv[6]),
        .release = number(argv[7]),
        .lfo_code = whole(argv[8]),
        .lfo_duty = number(argv[9]),
        .lfo_frequency = number(argv[10]),
        .lfo_depth = number(argv[11]),
        .joined = whole(argv[12]),
    };
    size_t len = fread(score, 1, sizeof score, stdin);
    size_t n = strtoul(argv[13], NULL, 10), sections = (n + 4095) / 4096, words = sections * GAV_STATE_WORDS;
    double *out = calloc(n + 1, sizeof *out), *magnitudes = calloc(sections + 1, sizeof *magnitudes);
    uint64_t *shelf = calloc(words + 1, sizeof *shelf), *numbers = calloc(sections + 1, sizeof *numbers);
    if (!out || !shelf || !magnitudes || !numbers) return 1;
    uint64_t said =
        gav_render_with(&settings, score, len, out, n, shelf, words, magnitudes, sections, numbers, sections);
    fwrite(&said, sizeof said, 1, stdout);
    fwrite(out, sizeof *out, n, stdout);
    fwrite(shelf, sizeof *shelf, words, stdout);
    fwrite(magnitudes, sizeof *magnitudes, sections, stdout);
    fwrite(numbers, sizeof *numbers, sections, stdout);
    free(out);
    free(magnitudes);
    free(shelf);
    free(numbers);
    return fflush(stdout) == 0 ? 0 : 1;
}
