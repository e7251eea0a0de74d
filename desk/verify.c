/* The verb verify: whether a WAV, and its shelf, are what a render of the score from sample zero gives. */
#include "desk.h"

#include <math.h>
#include <stdlib.h>
#include <string.h>

/* What was found. The summary is the words of the first thing that is wrong; its status is DONE where nothing is. */
struct found {
    struct from_zero beside;
    struct why summary;
    size_t common, differ, first, largest_at;
    double largest;
};

/* Tells what is wrong; the first such words are kept for the last line, and told there. */
#define TELL_WRONG(found, ...)                                                                                         \
    do {                                                                                                               \
        if ((found)->summary.status == DONE) {                                                                         \
            refuse(&(found)->summary, __VA_ARGS__);                                                                    \
        } else {                                                                                                       \
            printf(__VA_ARGS__);                                                                                       \
            printf("\n");                                                                                              \
        }                                                                                                              \
    } while (0)

static double seconds_at(const struct found *f, size_t sample) { return (double)sample / f->beside.settings.rate; }

/* A NaN counts as larger than every other difference. */
static bool is_larger(double difference, double than) {
    return !isnan(than) && (isnan(difference) || difference > than);
}

static void compare(struct found *f) {
    const double *held = f->beside.held, *zero = f->beside.zero.at;
    f->common = from_zero_common(&f->beside);
    f->largest = -1;
    for (size_t i = 0; i < f->common; i++) {
        if (bits_of(held[i]) == bits_of(zero[i])) continue;
        if (f->differ++ == 0) f->first = i;
        if (!is_larger(fabs(held[i] - zero[i]), f->largest)) continue;
        f->largest = fabs(held[i] - zero[i]);
        f->largest_at = i;
    }
}

/* How far the level of `samples` samples from `first` on is from that of the render, in words. */
static const char *level_words(const struct found *f, size_t first, size_t samples, char room[OFF_ROOM]) {
    return off_words(level_of(f->beside.held + first, samples), level_of(f->beside.zero.at + first, samples), room);
}

static void tell_level(const struct found *f, size_t first, size_t samples, const char *which) {
    char room[OFF_ROOM];
    printf("%s: %s %s, from sample %zu to %zu: %.6g, and the render's is %.6g\n", f->beside.wav_path,
           level_words(f, first, samples, room), which, first, first + samples - 1,
           level_of(f->beside.held + first, samples), level_of(f->beside.zero.at + first, samples));
}

/* The samples, and the level over the whole and over the section of the first that differs. */
static void tell_samples(struct found *f) {
    const struct from_zero *z = &f->beside;
    size_t section = f->first / GAV_SECTION * GAV_SECTION;
    char room[OFF_ROOM];
    if (f->differ == 0) return;
    TELL_WRONG(f, "%s is not the score's: %zu of %zu samples differ, the first at sample %zu (%.3f s), %s", z->wav_path,
               f->differ, f->common, f->first, seconds_at(f, f->first), level_words(f, 0, f->common, room));
    printf("%s: sample %zu is %.17g, and the render's is %.17g\n", z->wav_path, f->first, z->held[f->first],
           z->zero.at[f->first]);
    printf("%s: largest difference %.6g at sample %zu (%.3f s)\n", z->wav_path, f->largest, f->largest_at,
           seconds_at(f, f->largest_at));
    tell_level(f, 0, f->common, "in the whole");
    tell_level(f, section, section_end(f->common, section / GAV_SECTION) - section,
               "in the section of the first difference");
}

/* Where the WAV's head and the shelf or the options disagree. */
static void tell_head(struct found *f) {
    const struct from_zero *z = &f->beside;
    const char *by = z->shelf_path ? z->shelf_path : "an option";
    if (z->wav.rate != z->settings.rate) {
        TELL_WRONG(f, "%s has %u Hz, and %s says %u Hz", z->wav_path, z->wav.rate, by, z->settings.rate);
    }
    if (z->wav.samples != z->zero.samples) {
        TELL_WRONG(f, "%s has %zu samples, and %s says %zu", z->wav_path, z->wav.samples, by, z->zero.samples);
    }
    if (z->shelf_path && z->wav.bits != z->about.bits) {
        TELL_WRONG(f, "%s has %u bits a sample, and %s says %u", z->wav_path, z->wav.bits, by, z->about.bits);
    }
}

/* Tells of the first entry that is not the render's, and how many are not. */
static void tell_entries(struct found *f, const uint64_t *kept) {
    const struct from_zero *z = &f->beside;
    size_t differ = 0, first = 0, entries = z->zero.sections;
    for (size_t i = entries; i-- > 0;) {
        size_t at = i * GAV_STATE_WORDS;
        if (memcmp(kept + at, z->zero.shelf + at, 8 * GAV_STATE_WORDS) == 0) continue;
        differ++;
        first = i;
    }
    if (differ == 0) return;
    TELL_WRONG(f, "%s is not the score's shelf: %zu of %zu entries differ, the first is entry %zu, before sample %zu",
               z->shelf_path, differ, entries, first, first * GAV_SECTION);
}

/* Tells of the first section whose peak is not the render's, and how many are not. */
static void tell_peaks(struct found *f) {
    const struct from_zero *z = &f->beside;
    size_t differ = 0, first = 0, sections = z->zero.sections;
    for (size_t i = sections; i-- > 0;) {
        struct peak kept = shelf_peak(z->shelf.at, i);
        if (bits_of(kept.level) == bits_of(z->zero.magnitudes[i]) && kept.at == z->zero.numbers[i]) continue;
        differ++;
        first = i;
    }
    if (differ == 0) return;
    struct peak kept = shelf_peak(z->shelf.at, first);
    TELL_WRONG(f, "%s has other peaks than the score's: %zu of %zu differ, the first is that of samples %zu to %zu",
               z->shelf_path, differ, sections, first * GAV_SECTION, section_end(z->zero.samples, first) - 1);
    printf("%s: its peak there is %.17g at sample %zu, and the render's is %.17g at sample %llu\n", z->shelf_path,
           kept.level, kept.at, z->zero.magnitudes[first], (unsigned long long)z->zero.numbers[first]);
}

/* Tells of the first section whose bytes in the WAV are not those of the shelf's sum. */
static void tell_sums(struct found *f) {
    const struct from_zero *z = &f->beside;
    size_t differ = 0, first = 0, sections = z->zero.sections;
    if (z->wav.samples != z->about.samples || z->wav.bits != z->about.bits) return;
    for (size_t i = sections; i-- > 0;) {
        if (shelf_sum(z->shelf.at, i) == section_sum(&z->wav, z->file.at, i)) continue;
        differ++;
        first = i;
    }
    if (differ == 0) return;
    TELL_WRONG(f, "%s is of another WAV than %s: %zu of %zu sums differ, the first is that of samples %zu to %zu",
               z->shelf_path, z->wav_path, differ, sections, first * GAV_SECTION,
               section_end(z->wav.samples, first) - 1);
}

static bool tell_shelf(struct found *f, struct why *why) {
    const struct from_zero *z = &f->beside;
    if (!z->shelf_path) return true;
    /* The entries alone: the peaks are compared where they stand in the file. */
    struct sound kept = {.samples = z->zero.samples, .words = z->zero.words};
    kept.shelf = malloc(8 * kept.words + 8);
    if (!kept.shelf) return refuse(why, "no memory for %zu words", kept.words);
    if (!same_score(&z->about.score, &z->score)) {
        TELL_WRONG(f, "%s is of another score than %s: they part at record %zu", z->shelf_path, z->score_path,
                   first_apart(&z->about.score, &z->score));
    }
    shelf_words(z->shelf.at, &kept);
    tell_entries(f, kept.shelf);
    tell_peaks(f);
    tell_sums(f);
    free(kept.shelf);
    return true;
}

/* The last line, by which a script knows what was found. */
static bool tell_summary(const struct found *f, struct why *why) {
    const struct from_zero *z = &f->beside;
    tell_unheard(stdout, z->score_path, &z->score, z->zero.samples, z->settings.rate);
    if (f->summary.status != DONE) {
        printf("differs: %s\n", f->summary.text);
        return refuse(why, "%s%s%s: not what a render of %s gives", z->wav_path, z->shelf_path ? ", " : "",
                      z->shelf_path ? z->shelf_path : "", z->score_path);
    }
    size_t entries = z->zero.sections;
    printf("same: %s is the score's: %zu %s", z->wav_path, f->common, counted(f->common, "sample", "samples"));
    if (z->shelf_path)
        printf(", and %s its shelf: %zu %s", z->shelf_path, entries, counted(entries, "entry", "entries"));
    printf("\n");
    return true;
}

static bool read_verify(char **given, struct from_zero *z, struct why *why) {
    const struct option options[] = {{"--shelf", &z->shelf_path}, {NULL, NULL}};
    const struct option operands[] = {{"SCORE", &z->score_path}, {"OUT.wav", &z->wav_path}, {NULL, NULL}};
    const struct arguments takes = {.options = options, .operands = operands, .settings = &z->texts};
    return read_arguments(given, &takes, why) && from_zero_make(z, why);
}

static bool run_verify(char **given, struct why *why) {
    struct found *f = calloc(1, sizeof *f);
    if (!f) return refuse(why, "no memory for %zu bytes", sizeof *f);
    bool done = read_verify(given, &f->beside, why);
    if (done) {
        compare(f);
        tell_head(f);
        tell_samples(f);
        done = tell_shelf(f, why) && tell_summary(f, why);
    }
    from_zero_free(&f->beside);
    free(f);
    return done;
}

const struct verb verify_verb = {
    .name = "verify",
    .summary = "says whether a WAV is its score's, rendered from sample zero, and what differs",
    .help = "desk verify SCORE OUT.wav [--shelf FILE] [options]\n"
            "Renders the score from sample zero, beside the files, and compares every sample as the WAV holds it,\n"
            "bit for bit; with --shelf also every entry, every peak, the shelf's score, and its sums of the WAV.\n"
            "Nothing is written. Settings and length are the shelf's; without --shelf the options', with the WAV's\n"
            "own rate and length. An export (--bits 16 or 24, --gain) is not compared. What differs is told line by\n"
            "line on standard output. The last line there is, for scripts, one of\n"
            "  same: OUT.wav is the score's: N samples\n"
            "  same: OUT.wav is the score's: N samples, and FILE its shelf: N entries\n"
            "with exit status 0, or, with exit status 1, the first of these that holds (N, I and S are numbers;\n"
            "without a shelf `an option` says so, and not FILE)\n"
            "  differs: OUT.wav has N Hz, and FILE says N Hz\n"
            "  differs: OUT.wav has N samples, and FILE says N\n"
            "  differs: OUT.wav has N bits a sample, and FILE says N\n"
            "  differs: OUT.wav is not the score's: N of N samples differ, the first at sample I (S s), LEVEL\n"
            "  differs: FILE is of another score than SCORE: they part at record I\n"
            "  differs: FILE is not the score's shelf: N of N entries differ, the first is entry I, before sample I\n"
            "  differs: FILE has other peaks than the score's: N of N differ, the first is that of samples I to I\n"
            "  differs: FILE is of another WAV than OUT.wav: N of N sums differ, the first is that of samples I to I\n"
            "where LEVEL is `level off by N %`, `the render is silent there`, or `no level: ..` and why.\n"
            "Status 1 without such a line: it could not be compared, and why.\n"
            "One of the files may be - for standard input.\n"
            "  --shelf FILE     the shelf that OUT.wav was rendered with\n",
    .settings = true,
    .run = run_verify,
};
