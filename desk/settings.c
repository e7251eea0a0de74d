/* The voice's settings: one table has for each setting its option, its field of the struct, its word of a shelf's head,
   its limits and the words for it, and nothing else at the desk lists them. Then the length of a sound. */
#include "desk.h"

#include <math.h>
#include <stdlib.h>
#include <string.h>

enum kind { WHOLE, WAVE, KEYING, NUMBER, LENGTH };

/* An option with several fields has a row for each, one after the other, and its text has commas between them. The
   limits are the library's, for words: it refuses what is outside, and a NaN; of a duty only where the waveform in the
   field `pulse` is one. A keying's option has no value: where it is given, notes are joined. The length of a sound is
   an option beside the settings: it has no field of the struct and no word of the head. */
struct setting {
    const char *option;
    enum kind kind;
    size_t field;
    unsigned word;
    const char *name, *unit;
    double lowest, highest;
    size_t pulse;
    const char *form, *help;
};

#define FIELD(of) .field = offsetof(struct gav_settings, of)
#define WITHIN(low, high) .lowest = (low), .highest = (high)
#define ANY_NUMBER WITHIN(-INFINITY, INFINITY)
#define OF_PULSE(of) .pulse = offsetof(struct gav_settings, of)

static const struct setting rows[] = {
    {.option = "--rate",
     .kind = WHOLE,
     FIELD(rate),
     .word = 8,
     .name = "rate",
     .unit = " Hz",
     WITHIN(8000, 192000),
     .form = "--rate HZ",
     .help = "samples a second, 8000 to 192000 Hz (48000)"},
    {.option = "--wave",
     .kind = WAVE,
     FIELD(code),
     .word = 9,
     .name = "wave",
     .unit = "",
     .form = "--wave NAME",
     .help = "the name or the code (saw);\n"
             "                   rounded is a triangle whose corners are really rounded, so that it buzzes less"},
    {.option = "--duty",
     .kind = NUMBER,
     FIELD(duty),
     .word = 10,
     .name = "duty",
     .unit = "",
     WITHIN(0, 1),
     OF_PULSE(code),
     .form = "--duty D",
     .help = "of a pulse: the fraction of a cycle that is high, 0 to 1 (0.5)"},
    {.option = "--adsr",
     .kind = NUMBER,
     FIELD(attack),
     .word = 11,
     .name = "attack",
     .unit = " s",
     ANY_NUMBER,
     .form = "--adsr A,D,S,R",
     .help = "attack s, decay s, sustain level, release s (0.01,0.1,0.7,0.3);\n"
             "                   times clamp to 0.001 to 10 s, the level to 0 to 1"},
    {.option = "--adsr", .kind = NUMBER, FIELD(decay), .word = 12, .name = "decay", .unit = " s", ANY_NUMBER},
    {.option = "--adsr", .kind = NUMBER, FIELD(sustain), .word = 13, .name = "sustain", .unit = "", ANY_NUMBER},
    {.option = "--adsr", .kind = NUMBER, FIELD(release), .word = 14, .name = "release", .unit = " s", ANY_NUMBER},
    {.option = "--tremolo",
     .kind = WAVE,
     FIELD(lfo_code),
     .word = 15,
     .name = "tremolo wave",
     .unit = "",
     .form = "--tremolo WAVE,HZ,DEPTH",
     .help = "the loudness swings: by a waveform as of --wave, how often, 0 to 100 Hz, and how deep,\n"
             "                   0 to 1, where 1 is down to silence (sine,0,0, which is none)"},
    {.option = "--tremolo",
     .kind = NUMBER,
     FIELD(lfo_frequency),
     .word = 17,
     .name = "tremolo frequency",
     .unit = " Hz",
     WITHIN(0, 100)},
    {.option = "--tremolo",
     .kind = NUMBER,
     FIELD(lfo_depth),
     .word = 18,
     .name = "tremolo depth",
     .unit = "",
     WITHIN(0, 1)},
    {.option = "--tremolo-duty",
     .kind = NUMBER,
     FIELD(lfo_duty),
     .word = 16,
     .name = "tremolo duty",
     .unit = "",
     WITHIN(0, 1),
     OF_PULSE(lfo_code),
     .form = "--tremolo-duty D",
     .help = "of a pulse in --tremolo: the fraction of its cycle that is loud, 0 to 1 (0.5)"},
    {.option = "--joined",
     .kind = KEYING,
     FIELD(joined),
     .word = 19,
     .name = "keying",
     .unit = "",
     .form = "--joined",
     .help = "a key that is pressed while a note sounds changes pitch and velocity, and leaves the\n"
             "                   envelope running (without: every key begins the envelope anew)"},
    {.option = "--seconds",
     .kind = LENGTH,
     .form = "--seconds S",
     .help = "length of the sound in s (without: a release after the last record)"},
};

#define ROWS COUNT_OF(rows)

_Static_assert(ROWS <= MOST_SETTING_OPTIONS, "a text for each row");

/* Names by code; no waveform has a code that is not here. */
static const struct wave {
    uint32_t code;
    const char *name;
} waves[] = {
    {.code = GAV_SINE, .name = "sine"},    {.code = GAV_SQUARE, .name = "square"},
    {.code = GAV_SAWTOOTH, .name = "saw"}, {.code = GAV_TRIANGLE, .name = "triangle"},
    {.code = GAV_PULSE, .name = "pulse"},  {.code = GAV_ROUNDED_TRIANGLE, .name = "rounded"},
};

#define WAVE_LIST_ROOM 256u

const char *wave_name(uint32_t code) {
    for (size_t i = 0; i < COUNT_OF(waves); i++) {
        if (waves[i].code == code) return waves[i].name;
    }
    return NULL;
}

/* Every name with its code. */
static const char *wave_list(char room[WAVE_LIST_ROOM]) {
    size_t used = 0;
    for (size_t i = 0; i < COUNT_OF(waves) && used < WAVE_LIST_ROOM; i++) {
        const char *between = i == 0 ? "" : ", ";
        int put = snprintf(room + used, WAVE_LIST_ROOM - used, "%s%s %u", between, waves[i].name, waves[i].code);
        used += (size_t)put;
    }
    return room;
}

/* The name of a code; NULL where the field is no code, or where the code has no name. */
static const char *code_name(const struct setting *row, double code) {
    if (row->kind == WAVE) return wave_name((uint32_t)code);
    if (row->kind != KEYING) return NULL;
    return code == GAV_STRUCK ? "struck" : code == GAV_JOINED ? "joined" : NULL;
}

/* The first row of an option, at whose place its text is kept; ROWS where there is none. */
static size_t row_of(const char *option) {
    size_t row = 0;
    while (row < ROWS && strcmp(rows[row].option, option) != 0) row++;
    return row;
}

/* A field as a word of the shelf has it: a whole number, or the bits of a float. */
static uint64_t get_field(const struct setting *row, const struct gav_settings *settings) {
    const uint8_t *at = (const uint8_t *)settings + row->field;
    uint32_t whole;
    double number;
    if (row->kind == NUMBER) {
        memcpy(&number, at, sizeof number);
        return bits_of(number);
    }
    memcpy(&whole, at, sizeof whole);
    return whole;
}

static void set_field(const struct setting *row, struct gav_settings *settings, uint64_t word) {
    uint8_t *at = (uint8_t *)settings + row->field;
    uint32_t whole = (uint32_t)word;
    double number = from_bits(word);
    if (row->kind == NUMBER) {
        memcpy(at, &number, sizeof number);
    } else {
        memcpy(at, &whole, sizeof whole);
    }
}

/* A name, or a code, which may be one that the library refuses. */
static bool read_wave(const char *option, const char *text, uint64_t *code, struct why *why) {
    char room[WAVE_LIST_ROOM];
    for (size_t i = 0; i < COUNT_OF(waves); i++) {
        if (strcmp(text, waves[i].name) == 0) {
            *code = waves[i].code;
            return true;
        }
    }
    if (read_whole(option, "codes", text, UINT32_MAX, code, why)) return true;
    return misuse(why, "%s: \"%s\" is no name and no code of a waveform (%s)", option, text, wave_list(room));
}

static bool read_field(const struct setting *row, const char *text, struct gav_settings *settings, struct why *why) {
    uint64_t word = 0;
    double number;
    bool read;
    if (row->kind == NUMBER) {
        read = read_number(row->option, text, &number, why);
        if (read) word = bits_of(number);
    } else if (row->kind == WAVE) {
        read = read_wave(row->option, text, &word, why);
    } else if (row->kind == KEYING) {
        word = GAV_JOINED;
        read = true;
    } else {
        /* A unit begins with the blank that separates it from its number. */
        read = read_whole(row->option, row->unit + strspn(row->unit, " "), text, UINT32_MAX, &word, why);
    }
    if (read) set_field(row, settings, word);
    return read;
}

/* Whether the next row is of the same option. */
static bool goes_on(const struct setting *row) {
    return row + 1 < rows + ROWS && strcmp(row[0].option, row[1].option) == 0;
}

/* The fields of an option, from its first row on. */
static bool read_fields(const struct setting *row, const char *text, struct gav_settings *settings, struct why *why) {
    char copy[256], *at = copy;
    if (strlen(text) >= sizeof copy) {
        return misuse(why, "%s: it is longer than %zu bytes", row->option, sizeof copy - 1);
    }
    memcpy(copy, text, strlen(text) + 1);
    for (; goes_on(row); row++) {
        char *comma = strchr(at, ',');
        if (!comma)
            return misuse(why, "%s: \"%s\" is not of the form %s", row->option, text, rows[row_of(row->option)].form);
        *comma = '\0';
        if (!read_field(row, at, settings, why)) return false;
        at = comma + 1;
    }
    return read_field(row, at, settings, why);
}

const char **setting_text(struct setting_texts *texts, const char *option) {
    size_t row = row_of(option);
    return row < ROWS ? &texts->of[row] : NULL;
}

bool stands_alone(const char *option) {
    size_t row = row_of(option);
    return row < ROWS && rows[row].kind == KEYING;
}

bool read_settings(const struct setting_texts *texts, struct gav_settings *settings, struct why *why) {
    struct gav_settings defaults = GAV_SETTINGS_DEFAULT;
    *settings = defaults;
    for (size_t i = 0; i < ROWS; i++) {
        if (!texts->of[i] || rows[i].kind == LENGTH) continue;
        if (!read_fields(&rows[i], texts->of[i], settings, why)) return false;
    }
    return true;
}

/* A field as a number; of a waveform or a keying its code. */
static double number_of(const struct setting *row, const struct gav_settings *settings) {
    uint64_t word = get_field(row, settings);
    return row->kind == NUMBER ? from_bits(word) : (double)word;
}

const char *number_words(double value, char room[NUMBER_ROOM]) {
    int digits = 6;
    do {
        snprintf(room, NUMBER_ROOM, "%.*g", digits, value);
    } while (++digits <= 17 && strtod(room, NULL) != value);
    return room;
}

void put_settings(FILE *out, const struct gav_settings *settings) {
    char room[NUMBER_ROOM];
    for (const struct setting *row = rows; row < rows + ROWS && row->kind != LENGTH; row++) {
        double value = number_of(row, settings);
        const char *name = code_name(row, value);
        fprintf(out, "%s%s %s%s", row == rows ? "" : ", ", row->name, name ? name : number_words(value, room),
                row->unit);
    }
}

/* A form that leaves no two blanks in its column, by which library/man knows it, has a line of its own. The list of
   waveforms is told with the option that has nothing else. */
void put_settings_help(FILE *out) {
    char room[WAVE_LIST_ROOM];
    for (const struct setting *row = rows; row < rows + ROWS; row++) {
        if (!row->help) continue;
        bool wave = row->kind == WAVE && !goes_on(row), alone = strlen(row->form) > 15;
        fprintf(out, "  %-16s%s%s%s%s\n", row->form, alone ? "\n                   " : " ", wave ? wave_list(room) : "",
                wave ? ": " : "", row->help);
    }
}

/* Whether the library refuses a setting. */
static bool is_wrong(const struct setting *row, const struct gav_settings *settings) {
    double value = number_of(row, settings);
    uint32_t code = GAV_PULSE;
    if (row->kind == WAVE || row->kind == KEYING) return !code_name(row, value);
    if (row->pulse) memcpy(&code, (const uint8_t *)settings + row->pulse, sizeof code);
    return code == GAV_PULSE && !(value >= row->lowest && value <= row->highest);
}

bool find_wrong_setting(const struct gav_settings *settings, struct why *why) {
    char value[NUMBER_ROOM], low[NUMBER_ROOM], high[NUMBER_ROOM], list[WAVE_LIST_ROOM];
    const struct setting *row = rows;
    while (row->kind != LENGTH && !is_wrong(row, settings)) row++;
    if (row->kind == LENGTH) return false;
    number_words(number_of(row, settings), value);
    if (row->kind == WAVE) {
        refuse(why, "the %s's code, %s, is of no waveform (%s)", row->name, value, wave_list(list));
    } else if (row->kind == KEYING) {
        refuse(why, "the %s's code, %s, is neither 0, struck, nor 1, joined", row->name, value);
    } else if (isinf(row->highest)) {
        refuse(why, "the %s, %s%s, is no number", row->name, value, row->unit);
    } else {
        refuse(why, "the %s, %s%s, is outside %s to %s%s", row->name, value, row->unit, number_words(row->lowest, low),
               number_words(row->highest, high), row->unit);
    }
    return true;
}

void put_setting_words(uint8_t *head, const struct gav_settings *settings) {
    memset(head + 8 * FIRST_SETTING_WORD, 0, 8 * SETTING_WORDS);
    for (size_t i = 0; i < ROWS; i++) {
        if (rows[i].word) put_u64(head + 8 * rows[i].word, get_field(&rows[i], settings));
    }
}

/* The row whose word this is; NULL where the word is free. */
static const struct setting *row_of_word(size_t word) {
    for (size_t i = 0; i < ROWS; i++) {
        if (rows[i].word == word) return &rows[i];
    }
    return NULL;
}

bool get_setting_words(const uint8_t *head, struct gav_settings *settings, struct why *why) {
    for (size_t i = FIRST_SETTING_WORD; i < FIRST_SETTING_WORD + SETTING_WORDS; i++) {
        const struct setting *row = row_of_word(i);
        uint64_t word = get_u64(head + 8 * i);
        if (!row && word) return refuse(why, "it has a setting that this desk does not know, in word %zu", i);
        if (!row) continue;
        if (row->kind != NUMBER && word > UINT32_MAX) {
            return refuse(why, "it is damaged: its %s, %llu, cannot be", row->name, (unsigned long long)word);
        }
        set_field(row, settings, word);
    }
    return true;
}

/* A number of samples, rounded up; GAV_MOST_SAMPLES + 1 where it is above GAV_MOST_SAMPLES. */
static size_t whole_samples(double samples) {
    return samples <= GAV_MOST_SAMPLES ? (size_t)ceil(samples) : (size_t)GAV_MOST_SAMPLES + 1;
}

/* The last record's position and a release, its time as the voice clamps it. 0 for a score without records, or for one
   that is refused: the refusal is told, and not the length. */
static size_t natural_length(const struct gav_settings *settings, const struct score *score) {
    size_t records = score->len / RECORD_BYTES;
    if (records == 0 || gav_check_score(score->at, score->len) != 0) return 0;
    double release = settings->release > 0.001 ? settings->release : 0.001;
    if (release > 10) release = 10;
    return whole_samples(position_of(score, records - 1) + ceil(release * settings->rate));
}

bool read_length(const struct setting_texts *texts, const struct gav_settings *settings, const struct score *score,
                 size_t *samples, struct why *why) {
    const char *text = texts->of[row_of("--seconds")];
    double seconds;
    if (!text) {
        *samples = natural_length(settings, score);
        return true;
    }
    if (!read_number("--seconds", text, &seconds, why)) return false;
    if (!(seconds >= 0)) return misuse(why, "--seconds: %s is not 0 s or more", text);
    /* The nearest sample, so that a tenth of a second has as many as it should. */
    *samples = whole_samples(floor(seconds * settings->rate + 0.5));
    return true;
}
