/* A live host in C: keys are played while the sound is made, in buffers of the odd lengths that a driver asks for. The
 * keys come as text on standard input, as `desk list` prints a score, and the voice gets each key only with the buffer
 * that the key falls into. Writes the samples to standard output as they are in memory, one channel of doubles. The
 * samples are those of one render of the whole score.
 *
 *     cc -O2 examples/live.c $(pkg-config --cflags --libs gavberin) -o live
 *     ./live 288000 <tune.txt >tune.f64
 *
 * With nothing installed: cc -O2 -ffp-contract=off -Iinclude examples/live.c build/libgavberin.a -lm -o live
 */
#include <gavberin.h>

#include <stdio.h>
#include <stdlib.h>
#include <string.h>

#define MOST_KEYS 4096
#define LONGEST 512 /* the most samples of a buffer */
#define LEN(list) (sizeof(list) / sizeof *(list))

struct key {
    uint32_t at;
    uint8_t kind, note, velocity;
};

/* All that the voice needs from one buffer to the next. */
struct live {
    struct gav_settings settings;
    uint64_t state[GAV_STATE_WORDS];
    size_t position;
    uint8_t score[10 * MOST_KEYS];
    size_t len;
};

/* A key becomes the next record of the score, which has room: at most MOST_KEYS keys are read. */
static void press(struct live *live, const struct key *key) {
    uint8_t *record = live->score + live->len;
    record[0] = 0x56;
    record[1] = 0x4E;
    for (int i = 0; i < 4; i++) record[2 + i] = (uint8_t)(key->at >> 8 * i);
    record[6] = key->kind;
    record[7] = key->note;
    record[8] = key->velocity;
    record[9] = 0;
    live->len += 10;
}

/* What the driver calls: nothing here allocates, locks, waits or calls the system. */
static uint64_t fill(struct live *live, double *buffer, size_t n) {
    uint64_t said = gav_continue_with(&live->settings, live->score, live->len, live->state, GAV_STATE_WORDS,
                                      live->position, buffer, n);
    live->position += gav_count(said);
    return said;
}

/* A value above 255 becomes 255, which the library refuses. */
static uint8_t byte_of(unsigned value) { return (uint8_t)(value < 255 ? value : 255); }

/* The keys of a text; a line that is no key is passed over. */
static size_t read_keys(FILE *text, struct key *keys) {
    char line[80], kind[6];
    unsigned at, note, velocity;
    size_t count = 0;
    while (count < MOST_KEYS && fgets(line, sizeof line, text)) {
        if (sscanf(line, "%u %5s %u %u", &at, kind, &note, &velocity) != 4) continue;
        struct key key = {.at = at, .note = byte_of(note), .velocity = byte_of(velocity)};
        key.kind = strcmp(kind, "on") == 0 ? 1 : strcmp(kind, "off") == 0 ? 2 : 3;
        keys[count++] = key;
    }
    return count;
}

int main(int argc, char **argv) {
    static const size_t odd[] = {17, 480, 1, 333, 64, 127, LONGEST, 3, 250};
    static struct live live = {.settings = GAV_SETTINGS_DEFAULT};
    static struct key keys[MOST_KEYS];
    static double buffer[LONGEST];
    if (argc != 2) {
        fprintf(stderr, "usage: live SAMPLES <TEXT >OUT\n");
        return 2;
    }
    size_t n = strtoul(argv[1], NULL, 10), count = read_keys(stdin, keys), pressed = 0;
    gav_fresh(live.state, GAV_STATE_WORDS);
    for (size_t turn = 0; live.position < n; turn++) {
        size_t part = odd[turn % LEN(odd)];
        if (part > n - live.position) part = n - live.position;
        while (pressed < count && keys[pressed].at < live.position + part) press(&live, &keys[pressed++]);
        uint64_t said = fill(&live, buffer, part);
        if (gav_number(said) != GAV_DONE) {
            fprintf(stderr, "live: refused %u at place %u: %s\n", gav_number(said), gav_place(said), gav_words(said));
            return 1;
        }
        if (fwrite(buffer, sizeof *buffer, part, stdout) != part) return 1;
    }
    return fflush(stdout) == 0 ? 0 : 1;
}
