/* Feeds the readers of the desk with damaged input: fuzz ROUNDS [SEED]. It is built with the address and undefined
   sanitizers; a fault that they see, or a promise that does not hold (tests/desk/fuzz_readers.c says which), ends it
   with a message and the number of the input. Every input is good at first and then damaged, or not. */
#include "fuzz_readers.h"

#include <stdlib.h>
#include <string.h>

#define ROOM 65536u
/* For the text of a list of edits: two of each record of the longest listing. */
#define EDITS_ROOM (3u * GAV_LIST_ROOM)

/* The chances of a run. */
struct dice {
    uint64_t state;
};

static uint64_t roll(struct dice *dice, uint64_t sides) {
    dice->state ^= dice->state << 13;
    dice->state ^= dice->state >> 7;
    dice->state ^= dice->state << 17;
    return (dice->state * UINT64_C(0x2545F4914F6CDD1D) >> 11) % sides;
}

static void random_score(struct dice *dice, struct score *score) {
    uint64_t position = 0, records = roll(dice, 4) ? roll(dice, 12) : roll(dice, MOST_RECORDS + 1);
    score->len = 0;
    for (uint64_t i = 0; i < records; i++) {
        unsigned kind = 1 + (unsigned)roll(dice, 3);
        position += roll(dice, 2) ? 0 : roll(dice, 20) ? roll(dice, 5000) : roll(dice, 400000000);
        if (position > UINT32_MAX) position = UINT32_MAX;
        add_record(score, (uint32_t)position, kind, kind == 3 ? 0 : (unsigned)roll(dice, 128),
                   kind == 3 ? 0 : (unsigned)roll(dice, 128));
    }
}

static uint8_t odd_byte(struct dice *dice) {
    static const uint8_t odd[] = {0, 1, 2, 3, 4, 9, 10, 13, ' ', '#', '-', '0', '9', 'o', 127, 128, 255};
    return roll(dice, 2) ? odd[roll(dice, COUNT_OF(odd))] : (uint8_t)roll(dice, 256);
}

/* Some bytes changed, put in, taken out or repeated. */
static size_t damage(struct dice *dice, uint8_t *at, size_t len, size_t room) {
    for (uint64_t times = roll(dice, 4); times > 0 && len > 0; times--) {
        size_t place = roll(dice, len), part = roll(dice, len - place < 40 ? len - place : 40) + 1;
        switch (roll(dice, 5)) {
        case 0:
            at[place] ^= (uint8_t)(1u << roll(dice, 8));
            break;
        case 1:
            at[place] = odd_byte(dice);
            break;
        case 2:
            len = place;
            break;
        case 3:
            if (len + part > room) break;
            memmove(at + place + part, at + place, len - place);
            if (roll(dice, 2)) at[place] = odd_byte(dice);
            len += part;
            break;
        default:
            if (place + part > len) part = len - place;
            memmove(at + place, at + place + part, len - place - part);
            len -= part;
        }
    }
    return len;
}

/* Makes an input in a room, and answers its length. */
typedef size_t make_input(struct dice *dice, uint8_t *room);

static size_t make_score(struct dice *dice, uint8_t *room) {
    static struct score score;
    random_score(dice, &score);
    memcpy(room, score.at, score.len);
    return damage(dice, room, score.len, sizeof score.at);
}

static size_t make_text(struct dice *dice, uint8_t *room) {
    static struct score score;
    random_score(dice, &score);
    uint64_t answer = gav_list(score.at, score.len, room, GAV_LIST_ROOM);
    hold(gav_number(answer) == 0, "a score is not listed");
    return damage(dice, room, gav_count(answer), GAV_LIST_ROOM + ROOM);
}

/* Appends an edit of a line of a list. */
static size_t add_edit(uint8_t *room, size_t len, char sign, const uint8_t *line, size_t line_len) {
    room[len] = (uint8_t)sign;
    room[len + 1] = ' ';
    memcpy(room + len + 2, line, line_len);
    return len + 2 + line_len;
}

/* The records of a score, each put in; some are taken out again, and a few are taken out that are not there. */
static size_t make_edits(struct dice *dice, uint8_t *room) {
    static struct score score;
    static uint8_t text[GAV_LIST_ROOM];
    size_t len = 0, next;
    random_score(dice, &score);
    size_t end = gav_count(gav_list(score.at, score.len, text, GAV_LIST_ROOM));
    for (size_t at = 0; at < end; at = next) {
        next = (size_t)((uint8_t *)memchr(text + at, '\n', end - at) - text) + 1;
        if (at == 0) continue; /* the number of records */
        if (roll(dice, 200)) len = add_edit(room, len, '+', text + at, next - at);
        if (roll(dice, 3) == 0) len = add_edit(room, len, '-', text + at, next - at);
    }
    return damage(dice, room, len, EDITS_ROOM);
}

/* The bytes of a good shelf, in a file of its own. */
static void good_shelf(struct dice *dice, struct bytes *file) {
    static struct shelf_file about;
    static struct why why;
    static uint8_t samples[8 * 13000];
    struct gav_settings settings = GAV_SETTINGS_DEFAULT;
    struct sound sound;
    settings.rate = 8000 + (uint32_t)roll(dice, 184001);
    settings.code = (uint32_t)roll(dice, 8);
    settings.lfo_code = (uint32_t)roll(dice, 8);
    settings.lfo_frequency = (double)roll(dice, 102);
    settings.lfo_depth = (double)roll(dice, 6) / 4;
    settings.joined = (uint32_t)roll(dice, 3);
    about.settings = settings;
    about.samples = roll(dice, 4) ? roll(dice, 300) : roll(dice, 13000);
    about.bits = roll(dice, 2) ? 32 : 64;
    random_score(dice, &about.score);
    if (!sound_make(&sound, about.samples, &why)) exit(1);
    /* For settings that the voice refuses: silence. */
    for (size_t i = 0; i < sound.sections; i++) sound.numbers[i] = i * GAV_SECTION;
    voice_render(&settings, &about.score, &sound);
    wav_samples(about.bits, sound.at, sound.samples, samples);
    struct wav wav = {.bits = about.bits, .rate = settings.rate, .samples = about.samples};
    if (!shelf_bytes(&about, &sound, &wav, samples, file, &why)) exit(1);
    sound_free(&sound);
}

/* Half of the sums are made right again, so that what lies behind them is read. */
static size_t make_shelf(struct dice *dice, uint8_t *room) {
    struct bytes file;
    good_shelf(dice, &file);
    memcpy(room, file.at, file.len);
    size_t len = damage(dice, room, file.len, file.len);
    if (len >= 8 && roll(dice, 2)) put_u64(room + len - 8, sum_of(room, len - 8));
    free(file.at);
    return len;
}

/* A chunk of another program's, at the end. */
static size_t add_chunk(struct dice *dice, uint8_t *room, size_t len) {
    static const char *const names[] = {"PEAK", "LIST", "fact", "fmt ", "data", "cue "};
    size_t size = roll(dice, 30);
    memcpy(room + len, names[roll(dice, COUNT_OF(names))], 4);
    put_u32(room + len + 4, (uint32_t)size);
    for (size_t i = 0; i <= size; i++) room[len + 8 + i] = odd_byte(dice);
    return len + 8 + size + size % 2;
}

static size_t make_wav(struct dice *dice, uint8_t *room) {
    static const unsigned widths[] = {32, 64, 32, 64, 16, 24};
    static const double samples[50];
    struct wav wav = {.bits = widths[roll(dice, COUNT_OF(widths))], .rate = 48000, .samples = roll(dice, 50)};
    static struct why why;
    struct bytes file;
    if (roll(dice, 8) == 0) memcpy(wav.gain, "-6", 3);
    if (!wav_bytes(&wav, samples, &file, &why)) exit(1);
    memcpy(room, file.at, file.len);
    size_t len = roll(dice, 2) ? file.len : add_chunk(dice, room, file.len);
    free(file.at);
    len = damage(dice, room, len, ROOM);
    if (len >= 8 && roll(dice, 4)) put_u32(room + 4, (uint32_t)len - 8);
    return len;
}

int main(int argc, char **argv) {
    static make_input *const makes[READERS] = {
        [SCORES] = make_score, [TEXTS] = make_text, [SHELVES] = make_shelf, [WAVS] = make_wav, [EDITS] = make_edits};
    static uint8_t room[EDITS_ROOM];
    if (argc < 2 || argc > 3) return 2;
    uint64_t rounds = strtoull(argv[1], NULL, 10), seed = argc == 3 ? strtoull(argv[2], NULL, 10) : 1;
    uint64_t taken[READERS] = {0}, tried[READERS] = {0};
    struct dice dice = {.state = seed * UINT64_C(0x9E3779B97F4A7C15) | 1};
    for (uint64_t round = 0; round < rounds; round++) {
        unsigned reader = (unsigned)(round % READERS);
        taken[reader] += reader_takes(reader, room, makes[reader](&dice, room));
        tried[reader]++;
        tell_now_and_then(rounds);
    }
    printf("fuzz: %llu rounds from seed %llu", (unsigned long long)rounds, (unsigned long long)seed);
    for (unsigned i = 0; i < READERS; i++) {
        printf(", %llu %s accepted and %llu refused", (unsigned long long)taken[i], reader_names[i],
               (unsigned long long)(tried[i] - taken[i]));
        hold(taken[i] && taken[i] < tried[i], "a reader was not tried both ways");
    }
    printf("\n");
    return 0;
}
