/* Compares the reference voice with the rows that the original wrote: rows PART FILE, PART being pitch, blocks or
 * render; oracle/README.md has their layout; the file has no head (oracle/parts.py). Every word is compared; the
 * samples in which a sine is heard, which is ours, lie within a millionth of their scale, since the row's are the sines
 * of another library. Says how many rows are equal; exit status 1 where one is not, or where an op lacks one of its
 * numbers. */
#include "voice.h"

#include <math.h>
#include <stdio.h>
#include <stdlib.h>

#define UNWRITTEN 42.0
#define MOST_OPS 6
#define RERENDER 2 /* the op of render that is one */

/* For each op a set of bits: the numbers of the answers that were met. */
struct tally {
    size_t total, equal;
    double largest;
    unsigned met[MOST_OPS];
};

/* A part's rows as words, the first of which is the next to read. */
struct rows {
    const uint64_t *next, *end;
};

static void give_up(const char *why) {
    fprintf(stderr, "rows: %s\n", why);
    exit(2);
}

static void *room(size_t bytes) {
    void *made = malloc(bytes + 1);
    if (!made) give_up("no memory");
    return made;
}

/* Low byte first. */
static uint64_t read_word(FILE *file) {
    uint64_t word = 0;
    for (int i = 0; i < 64; i += 8) word |= (uint64_t)(uint8_t)fgetc(file) << i;
    return word;
}

static struct rows read_rows(const char *name) {
    FILE *file = fopen(name, "rb");
    if (!file || fseek(file, 0, SEEK_END)) give_up(name);
    size_t count = (size_t)ftell(file) / sizeof(uint64_t);
    uint64_t *words = room(count * sizeof *words);
    rewind(file);
    for (size_t i = 0; i < count; i++) words[i] = read_word(file);
    fclose(file);
    return (struct rows){words, words + count};
}

static const uint64_t *take(struct rows *rows, uint64_t words) {
    const uint64_t *here = rows->next;
    if (words > (uint64_t)(rows->end - here)) give_up("the last row is cut short");
    rows->next += words;
    return here;
}

static bool same_words(const void *ours, const uint64_t *theirs, size_t words) {
    return memcmp(ours, theirs, words * sizeof *theirs) == 0;
}

/* A sample in which a sine is heard. */
static bool near(struct tally *tally, double ours, double theirs, double scale) {
    double off = fabs(ours - theirs);
    if (off > tally->largest) tally->largest = off;
    return off <= 0.000001 * scale;
}

/* Two numbers that are made with sines of two C libraries. */
static bool alike(double x, double y) { return fabs(x - y) <= 1e-15; }

static void pitch_row(struct rows *rows, struct tally *tally) {
    const uint64_t *row = take(rows, 4);
    double answered = row[0] < 128 ? pitch((uint8_t)row[0]) : 0.0;
    float narrow = (float)answered;
    uint32_t pattern;
    memcpy(&pattern, &narrow, sizeof pattern);
    tally->met[0] |= 1u << row[1];
    tally->equal += row[1] == (row[0] < 128 ? 0 : 9) && row[2] == pattern && row[3] == bits(answered);
}

static bool near_block(struct tally *tally, const struct block *b, double phase, const double *out,
                       const uint64_t *theirs, size_t n) {
    bool fine = true;
    for (size_t i = 0; i < n; i++) {
        double theirs_i = number(theirs[i]);
        fine &= near(tally, out[i], theirs_i, b->depth) && alike(theirs_i, sin(phase) * b->depth);
        phase += b->frequency / b->rate * TAU;
    }
    return fine;
}

/* Op, waveform, duty, rate, frequency, depth, start phase, samples; answer, phase after; the samples. Ops 1 and 4 are
 * the LFO's; 3 and 4 set the phase back before they play. */
static void block_row(struct rows *rows, struct tally *tally) {
    const uint64_t *row = take(rows, 10), *theirs = take(rows, row[7]);
    const struct block b = {(uint32_t)row[3], (uint32_t)row[1],          number(row[2]),
                            number(row[4]),   row[0] % 3 == 1 ? 100 : 20000, number(row[5])};
    size_t n = (size_t)row[7];
    double start = row[0] == 3 || row[0] == 4 ? 0.0 : number(row[6]), phase = start, *out = room(n * sizeof *out);
    for (size_t i = 0; i < n; i++) out[i] = UNWRITTEN;
    uint64_t answer = reference_block(&b, &phase, out, n);
    bool is_sine = b.code == GAV_SINE && answer == says(0, 0, n);
    bool fine = is_sine ? near_block(tally, &b, start, out, theirs, n) : same_words(out, theirs, n);
    tally->met[row[0] % MOST_OPS] |= 1u << gav_number(row[8]);
    tally->equal += fine && answer == row[8] && bits(phase) == row[9];
    free(out);
}

/* A row of render: what is given, and where its answers are. A re-render has an old score too, and the samples and
 * words that it starts with. */
struct asked {
    struct gav_settings settings;
    struct records records;
    uint8_t *score, *old;
    size_t n, len, old_len, words;
    uint64_t position;
    const uint64_t *state, *found, *answer, *samples, *scales, *shelf;
    /* No row has a summary: it is lent, and not compared. */
    double *magnitudes;
    uint64_t *numbers;
    size_t sections;
};

/* Takes so many bytes of the row, padded to whole words. */
static uint8_t *take_bytes(const uint64_t **here, size_t len) {
    uint8_t *bytes = room(len);
    for (size_t i = 0; i < len; i++) bytes[i] = (uint8_t)((*here)[i / 8] >> 8 * (i % 8));
    *here += (len + 7) / 8;
    return bytes;
}

static void read_asked(struct rows *rows, struct asked *a) {
    const uint64_t *row = take(rows, 45), *here = take(rows, row[1]);
    a->settings = (struct gav_settings){(uint32_t)row[2], (uint32_t)row[3], number(row[4]),  number(row[5]),
                                        number(row[6]),   number(row[7]),   number(row[8]),  (uint32_t)row[9],
                                        number(row[10]),  number(row[11]),  number(row[12]), (uint32_t)row[13]};
    a->n = (size_t)row[14], a->len = (size_t)row[15], a->words = (size_t)row[16];
    a->position = row[17], a->state = row + 18, a->answer = row + 31;
    bool is_sine = has_sine(&a->settings) && gav_number(a->answer[0]) == 0, is_edit = row[0] == RERENDER;
    a->old_len = is_edit ? (size_t)a->position : 0;
    a->score = take_bytes(&here, a->len);
    a->old = take_bytes(&here, a->old_len);
    a->found = here;
    if (is_edit) here += a->n + a->words;
    a->scales = is_sine ? here : NULL;
    a->samples = is_sine ? here + a->n : here;
    a->shelf = a->samples + a->n;
    a->sections = gav_sections(a->n);
    a->magnitudes = room(a->sections * sizeof *a->magnitudes);
    a->numbers = room(a->sections * sizeof *a->numbers);
    a->records = (struct records){a->score, a->len / RECORD};
}

/* A waveform's value with the C library's sine. */
static double heard(uint32_t code, double duty, double phase, double step) {
    return code == GAV_SINE ? sin(phase) : wave_in(code, duty, phase, step);
}

/* The row's sample and its scale, worked out again with the C library's sines from the voice before the sample and the
 * level after it. */
static bool is_heard(const struct gav_settings *s, const struct voice *before, double level, double sample,
                     double scale) {
    double value = heard(s->code, s->duty, before->phase, before->frequency / s->rate * TAU);
    double lfo = heard(s->lfo_code, s->lfo_duty, before->lfo_phase, s->lfo_frequency / s->rate * TAU) * s->lfo_depth;
    double dry = value * level * before->velocity, factor = 1.0 - s->lfo_depth / 2.0 + lfo / 2.0;
    double own = s->code == GAV_SINE ? fabs(level * before->velocity * factor) : 0.0;
    double slow = s->lfo_code == GAV_SINE ? 0.5 * s->lfo_depth * fabs(dry) : 0.0;
    return alike(sample, dry * factor) && alike(scale, own + slow);
}

/* The samples one by one from a state, beside those that the call made; and the state after them. */
static bool same_walk(struct tally *tally, const struct asked *a, uint64_t *state, const double *out) {
    const struct gav_settings s = clamped(&a->settings);
    struct voice voice;
    bool fine = voice_read(&voice, state);
    for (size_t i = 0; i < a->n; i++) {
        voice_begin(&s, &voice, a->records, a->position + i);
        struct voice before = voice;
        double sample = voice_make(&s, &voice);
        fine &= bits(sample) == bits(out[i]);
        if (!a->scales) continue;
        double theirs = number(a->samples[i]), scale = number(a->scales[i]);
        fine &= near(tally, sample, theirs, scale) && is_heard(&s, &before, voice.envelope.level, theirs, scale);
    }
    voice_words(&voice, state);
    return fine;
}

/* The call that the row asks for, into samples and a shelf that are not written. The state is the one after it. */
static bool same_call(struct tally *tally, const struct asked *a, bool is_render, double *out, uint64_t *shelf) {
    uint64_t state[GAV_STATE_WORDS], after[GAV_STATE_WORDS], answer;
    memcpy(state, a->state, sizeof state);
    if (is_render) reference_fresh(state, GAV_STATE_WORDS);
    memcpy(after, state, sizeof after);
    if (is_render) {
        answer = reference_render(&a->settings, a->score, a->len, out, a->n, shelf, a->words, a->magnitudes,
                                  a->sections, a->numbers, a->sections);
    } else {
        answer = reference_continue(&a->settings, a->score, a->len, after, GAV_STATE_WORDS, a->position, out, a->n);
    }
    bool fine = answer == a->answer[0];
    if (gav_number(answer) == 0) fine &= same_walk(tally, a, state, out);
    return fine && same_words(state, a->answer + 1, GAV_STATE_WORDS) &&
           (is_render || same_words(after, state, GAV_STATE_WORDS));
}

/* A re-render, over the samples and words that the row has for it. Where a sine is heard the samples from start to stop
 * are ours; all others, before the start and from the stop on, are those that it found, and the row's by every bit. */
static bool same_edit(struct tally *tally, const struct asked *a, double *out, uint64_t *shelf) {
    memcpy(out, a->found, a->n * sizeof *out);
    memcpy(shelf, a->found + a->n, a->words * sizeof *shelf);
    uint64_t answer = reference_rerender(&a->settings, a->old, a->old_len, a->score, a->len, out, a->n, shelf, a->words,
                                         a->magnitudes, a->sections, a->numbers, a->sections);
    bool fine = answer == a->answer[0], is_ours = a->scales && gav_count(answer) > 0;
    uint64_t p = is_ours ? first_change(a->old, a->old_len, a->score, a->len) : 0;
    size_t start = (size_t)p / GAV_SECTION * GAV_SECTION, stop = start + gav_count(answer);
    for (size_t i = 0; i < a->n; i++) {
        bool is_sine = is_ours && i >= start && i < stop;
        fine &=
            is_sine ? near(tally, out[i], number(a->samples[i]), number(a->scales[i])) : bits(out[i]) == a->samples[i];
    }
    return fine;
}

static void render_row(struct rows *rows, struct tally *tally) {
    uint64_t op = rows->next[0];
    struct asked a;
    read_asked(rows, &a);
    double *out = room(a.n * sizeof *out);
    uint64_t *shelf = room(a.words * sizeof *shelf);
    for (size_t i = 0; i < a.n; i++) out[i] = UNWRITTEN;
    memset(shelf, 0x2A, a.words * sizeof *shelf);
    bool fine = op == RERENDER ? same_edit(tally, &a, out, shelf) : same_call(tally, &a, op == 0, out, shelf);
    tally->met[op % MOST_OPS] |= 1u << gav_number(a.answer[0]);
    tally->equal += fine && (a.scales || same_words(out, a.samples, a.n)) && same_words(shelf, a.shelf, a.words);
    free(out);
    free(shelf);
    free(a.magnitudes);
    free(a.numbers);
    free(a.score);
    free(a.old);
}

#define BLOCKS_MET (1 | 1 << 6 | 1 << 9)

/* Each part with the numbers that each of its ops must be met with. */
static const struct part {
    const char *name;
    bool has_sines;
    void (*row)(struct rows *, struct tally *);
    unsigned met[MOST_OPS];
} PARTS[] = {
    {"pitch", false, pitch_row, {1 | 1 << 9}},
    {"blocks", true, block_row, {BLOCKS_MET, BLOCKS_MET, BLOCKS_MET, BLOCKS_MET, BLOCKS_MET, BLOCKS_MET}},
    {"render", true, render_row, {0xFF, 0xFF | 1 << 10, 0x1FF | 0x1F << 17}},
};

static bool hold(const struct part *part, struct rows rows) {
    struct tally tally = {0};
    for (; rows.next < rows.end; tally.total++) part->row(&rows, &tally);
    printf("%s: %zu rows, %zu equal", part->name, tally.total, tally.equal);
    if (part->has_sines) printf(", largest difference of a sine %.0f billionths", ceil(tally.largest * 1e9));
    putchar('\n');
    return tally.equal == tally.total && memcmp(tally.met, part->met, sizeof tally.met) == 0;
}

int main(int argc, char **argv) {
    for (size_t i = 0; i < sizeof PARTS / sizeof *PARTS; i++) {
        if (argc == 3 && strcmp(argv[1], PARTS[i].name) == 0) return hold(&PARTS[i], read_rows(argv[2])) ? 0 : 1;
    }
    give_up("wrong usage: rows PART FILE, of pitch, blocks or render");
}
