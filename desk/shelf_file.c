/* A shelf in a file, with all that a re-render needs beside the new score and the WAV. Everything is in words of 8
   bytes, low byte first:

       0        "GAVSHELF"
       1        the version of this file, 6: in version 5 there were no peaks, in version 4 there was no setting for
                joined notes, and in version 3 an on with velocity 0 struck its key
       2        the version of the voice that made it
       3        N, the samples of the sound
       4        bits of a sample in the WAV, 32 or 64
       5        bytes of the score
       6        words of an entry
       7        words beside an entry, 3
       8 to 31  the settings, each at the word that settings.c gives it; the others are 0
       32 ..    for each section (4,096 samples, the last perhaps fewer): the entry; the sum of the section's bytes in
                the WAV; the section's peak, a magnitude (a float) and the number of the first sample where it stands
       then     the score, and zeros to a whole word
       last     the sum of all the bytes before it, which shows damage */
#include "desk.h"

#include <math.h>
#include <stdlib.h>
#include <string.h>

enum head { MAGIC, VERSION, VOICE, SAMPLES, BITS, SCORE_LEN, ENTRY_WORDS, BESIDE_WORDS };
/* The words of a section: the entry, then these. */
enum beside { SUM = GAV_STATE_WORDS, MAGNITUDE, NUMBER };

#define HEAD (8u * SHELF_HEAD_WORDS)
#define SECTION_WORDS (GAV_STATE_WORDS + SHELF_BESIDE_WORDS)

static const char magic[] = "GAVSHELF";

/* The first version of the voice that makes of a score what this one makes: version 5 only has a call more. */
#define FIRST_VOICE 4u

size_t section_end(size_t samples, size_t section) {
    size_t first = section * GAV_SECTION;
    return samples - first < GAV_SECTION ? samples : first + GAV_SECTION;
}

/* The byte at which a section's words begin, and that of the score. */
static size_t section_at(size_t section) { return HEAD + 8 * SECTION_WORDS * section; }

static uint64_t section_word(const uint8_t *file, size_t section, size_t word) {
    return get_u64(file + section_at(section) + 8 * word);
}

static size_t score_at(size_t samples) { return section_at(gav_sections(samples)); }

/* The bytes of the whole file. */
static size_t file_len(size_t samples, size_t score_len) { return score_at(samples) + (score_len + 7) / 8 * 8 + 8; }

uint64_t section_sum(const struct wav *wav, const uint8_t *file, size_t section) {
    size_t frame = wav->bits / 8, first = section * GAV_SECTION;
    return sum_of(file + wav->data + frame * first, frame * (section_end(wav->samples, section) - first));
}

uint64_t shelf_sum(const uint8_t *file, size_t section) { return section_word(file, section, SUM); }

struct peak shelf_peak(const uint8_t *file, size_t section) {
    return (struct peak){.level = from_bits(section_word(file, section, MAGNITUDE)),
                         .at = (size_t)section_word(file, section, NUMBER)};
}

static void put_head(uint8_t *head, const struct shelf_file *about) {
    memcpy(head, magic, 8);
    put_u64(head + 8 * VERSION, SHELF_VERSION);
    put_u64(head + 8 * VOICE, gav_version());
    put_u64(head + 8 * SAMPLES, about->samples);
    put_u64(head + 8 * BITS, about->bits);
    put_u64(head + 8 * SCORE_LEN, about->score.len);
    put_u64(head + 8 * ENTRY_WORDS, GAV_STATE_WORDS);
    put_u64(head + 8 * BESIDE_WORDS, SHELF_BESIDE_WORDS);
    put_setting_words(head, &about->settings);
}

static void put_section(uint8_t *at, const struct sound *sound, size_t section, uint64_t sum) {
    for (size_t i = 0; i < GAV_STATE_WORDS; i++) put_u64(at + 8 * i, sound->shelf[GAV_STATE_WORDS * section + i]);
    put_u64(at + 8 * SUM, sum);
    put_u64(at + 8 * MAGNITUDE, bits_of(sound->magnitudes[section]));
    put_u64(at + 8 * NUMBER, sound->numbers[section]);
}

bool shelf_bytes(const struct shelf_file *about, const struct sound *sound, const struct wav *wav,
                 const uint8_t *wav_file, struct bytes *file, struct why *why) {
    size_t len = file_len(about->samples, about->score.len);
    *file = (struct bytes){.at = calloc(len, 1), .len = len};
    if (!file->at) return refuse(why, "no memory for %zu bytes", len);
    put_head(file->at, about);
    for (size_t i = 0; i < sound->sections; i++) {
        put_section(file->at + section_at(i), sound, i, section_sum(wav, wav_file, i));
    }
    memcpy(file->at + score_at(about->samples), about->score.at, about->score.len);
    put_u64(file->at + len - 8, sum_of(file->at, len - 8));
    return true;
}

bool shelf_begins(const uint8_t *file, size_t len) { return len >= 8 && memcmp(file, magic, 8) == 0; }

/* Another version is told whatever the shelf's sum is, since that version may have another sum. */
static bool look_at_version(uint64_t version, struct why *why) {
    if (version == SHELF_VERSION) return true;
    return refuse(
        why,
        "it is a shelf of %s version, %llu, or damaged there, and this desk has version %u: render again with "
        "`desk render`",
        version > SHELF_VERSION ? "a later" : "an earlier", (unsigned long long)version, SHELF_VERSION);
}

/* What shows a whole shelf of this desk: the magic word, the version, the length, the sum, then the voice's version. */
static bool look_at_heads(const uint8_t *file, size_t len, struct shelf_file *about, struct why *why) {
    if (!shelf_begins(file, len)) {
        return refuse(why, "it is no shelf of the desk: it does not begin with %s", magic);
    }
    if (len >= 16 && !look_at_version(get_u64(file + 8 * VERSION), why)) return false;
    if (len > SHELF_MOST) return refuse(why, "it is damaged: it is longer than %zu bytes", (size_t)SHELF_MOST);
    if (len < HEAD + 8) return refuse(why, "it is damaged: it is cut short after %zu bytes", len);
    if (sum_of(file, len - 8) != get_u64(file + len - 8)) {
        return refuse(why, "it is damaged or cut short: the sum of its %zu bytes is not the one at its end", len);
    }
    uint64_t voice = get_u64(file + 8 * VOICE);
    about->voice = (unsigned)voice;
    if (voice >= FIRST_VOICE && voice <= gav_version()) return true;
    return refuse(why, "it is a shelf of voice %llu, and this desk has voice %u: render again with `desk render`",
                  (unsigned long long)voice, (unsigned)gav_version());
}

/* The words of the head that say how long the file is. */
static bool look_at_sizes(const uint8_t *file, size_t len, struct shelf_file *about, struct why *why) {
    uint64_t samples = get_u64(file + 8 * SAMPLES), bits = get_u64(file + 8 * BITS);
    uint64_t score = get_u64(file + 8 * SCORE_LEN), entry = get_u64(file + 8 * ENTRY_WORDS);
    uint64_t beside = get_u64(file + 8 * BESIDE_WORDS);
    if (samples > GAV_MOST_SAMPLES || (bits != 32 && bits != 64) || score > MOST_SCORE || entry != GAV_STATE_WORDS ||
        beside != SHELF_BESIDE_WORDS) {
        return refuse(why,
                      "it is damaged: %llu samples of %llu bits, a score of %llu bytes, entries of %llu words or "
                      "%llu words beside an entry cannot be",
                      (unsigned long long)samples, (unsigned long long)bits, (unsigned long long)score,
                      (unsigned long long)entry, (unsigned long long)beside);
    }
    size_t wanted = file_len((size_t)samples, (size_t)score);
    if (len != wanted) return refuse(why, "it is damaged: %zu bytes, where its head asks for %zu", len, wanted);
    about->samples = (size_t)samples;
    about->bits = (unsigned)bits;
    about->score.len = (size_t)score;
    return true;
}

/* A peak is finite and has no sign, and stands at a sample of its own section. */
static bool look_at_peaks(const uint8_t *file, size_t samples, struct why *why) {
    for (size_t i = 0; i < gav_sections(samples); i++) {
        uint64_t at = section_word(file, i, NUMBER);
        double level = shelf_peak(file, i).level;
        if (isfinite(level) && !signbit(level) && at / GAV_SECTION == i && at < samples) continue;
        return refuse(why, "it is damaged: a peak of %.17g at sample %llu cannot be, of samples %zu to %zu", level,
                      (unsigned long long)at, i * GAV_SECTION, section_end(samples, i) - 1);
    }
    return true;
}

bool shelf_look(const uint8_t *file, size_t len, struct shelf_file *about, struct why *why) {
    if (!look_at_heads(file, len, about, why) || !look_at_sizes(file, len, about, why)) return false;
    if (!get_setting_words(file, &about->settings, why) || !look_at_peaks(file, about->samples, why)) return false;
    memcpy(about->score.at, file + score_at(about->samples), about->score.len);
    return check_score(NULL, &about->score, why) ? true : preface(why, "it is damaged: its score is ");
}

void shelf_words(const uint8_t *file, struct sound *sound) {
    for (size_t i = 0; i < sound->words; i++) {
        sound->shelf[i] = section_word(file, i / GAV_STATE_WORDS, i % GAV_STATE_WORDS);
    }
    for (size_t i = 0; i < sound->sections; i++) {
        struct peak peak = shelf_peak(file, i);
        sound->magnitudes[i] = peak.level;
        sound->numbers[i] = peak.at;
    }
}
