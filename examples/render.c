/* A host in C: renders the score on standard input from sample zero, and writes its samples to standard output as they
 * are in memory, one channel of doubles; or, with --peaks, as text, the peak of each section of 4,096 samples and the
 * sample where it stands.
 *
 *     cc -O2 examples/render.c $(pkg-config --cflags --libs gavberin) -o render
 *     ./render 288000 <tune.score >tune.f64
 *     ./render 288000 --peaks <tune.score
 *
 * With nothing installed: cc -O2 -ffp-contract=off -Iinclude examples/render.c build/libgavberin.a -lm -o render
 */
#include <gavberin.h>

#include <stdio.h>
#include <stdlib.h>
#include <string.h>

/* One byte more than a score may have, so that the library refuses a longer file. */
static uint8_t score[40961];

int main(int argc, char **argv) {
    struct gav_settings settings = GAV_SETTINGS_DEFAULT;
    const int peaks = argc == 3 && strcmp(argv[2], "--peaks") == 0;
    if (argc != 2 && !peaks) {
        fprintf(stderr, "usage: render SAMPLES [--peaks] <SCORE >OUT\n");
        return 2;
    }
    size_t n = strtoul(argv[1], NULL, 10), words = gav_shelf_words(n), sections = gav_sections(n);
    size_t len = fread(score, 1, sizeof score, stdin);
    double *out = calloc(n + 1, sizeof *out), *magnitudes = calloc(sections + 1, sizeof *magnitudes);
    uint64_t *shelf = calloc(words + 1, sizeof *shelf), *numbers = calloc(sections + 1, sizeof *numbers);
    if (!out || !shelf || !magnitudes || !numbers) {
        fprintf(stderr, "render: no memory for %zu samples\n", n);
        return 1;
    }
    uint64_t said =
        gav_render_with(&settings, score, len, out, n, shelf, words, magnitudes, sections, numbers, sections);
    if (gav_number(said) != GAV_DONE) {
        fprintf(stderr, "render: refused %u at place %u: %s\n", gav_number(said), gav_place(said), gav_words(said));
        return 1;
    }
    for (size_t k = 0; peaks && k < sections; k++) {
        printf("%.17g %llu\n", magnitudes[k], (unsigned long long)numbers[k]);
    }
    int arrived = (peaks || fwrite(out, sizeof *out, n, stdout) == n) && fflush(stdout) == 0;
    free(out);
    free(magnitudes);
    free(shelf);
    free(numbers);
    return arrived ? 0 : 1;
}
