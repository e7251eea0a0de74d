/* The WAV and the shelf of a score made those of another one: what is read and compared before the voice is called, and
   what is written and told after it. */
#include "desk.h"

#include <math.h>
#include <stdlib.h>
#include <unistd.h>

struct rework *rework_new(struct why *why) {
    struct rework *r = calloc(1, sizeof *r);
    if (!r) {
        refuse(why, "no memory for %zu bytes", sizeof *r);
        return NULL;
    }
    r->group = NO_GROUP;
    r->wav_fd = -1;
    return r;
}

void rework_free(struct rework *r) {
    group_drop(&r->group);
    if (r->wav_fd >= 0) close(r->wav_fd);
    sound_free(&r->sound);
    free(r->wav_file.at);
    free(r->shelf_file.at);
    free(r->new_shelf.at);
    free(r);
}

/* Whether two files that are written are two. */
static bool are_two(const char *one, const char *what, const char *other, const char *what_other, struct why *why) {
    return same_file(one, other) ? misuse(why, "the %s and the %s are one file", what, what_other) : true;
}

bool rework_apart(const struct rework *r, struct why *why) {
    const char *const written[] = {r->wav_path, r->shelf_path, r->score_path};
    for (size_t i = 0; i < COUNT_OF(written); i++) {
        if (written[i] && !names_file(written[i], why)) return false;
    }
    if (!are_two(r->wav_path, "WAV", r->shelf_path, "shelf", why)) return false;
    if (r->score_path && (!are_two(r->wav_path, "WAV", r->score_path, "new score", why) ||
                          !are_two(r->shelf_path, "shelf", r->score_path, "new score", why))) {
        return false;
    }
    for (size_t i = 0; i < COUNT_OF(written); i++) {
        if (!written[i] || !same_file(r->input_path, written[i])) continue;
        return misuse(why, "%s would be written over", shown_path(r->input_path));
    }
    return true;
}

/* Whether the shelf can be this WAV's, by what its head says. */
static bool is_of_wav(const struct rework *r, struct why *why) {
    const struct shelf_file *about = &r->about;
    const struct wav *wav = &r->wav;
    if (wav->samples == about->samples && wav->rate == about->settings.rate && wav->bits == about->bits) return true;
    return refuse(why,
                  "%s: the shelf is foreign to %s: it is of %zu %s of %u bits at %u Hz, and the WAV has %zu of %u bits "
                  "at %u Hz",
                  r->shelf_path, r->wav_path, about->samples, counted(about->samples, "sample", "samples"), about->bits,
                  about->settings.rate, wav->samples, wav->bits, wav->rate);
}

/* Both files, and the memory of their sound, which is that of the WAV. */
static bool read_files(struct rework *r, struct why *why) {
    if (!read_file(r->shelf_path, SHELF_MOST, &r->shelf_file, why)) return false;
    if (!shelf_look(r->shelf_file.at, r->shelf_file.len, &r->about, why)) return preface(why, "%s: ", r->shelf_path);
    if (!read_open_file(r->wav_path, WAV_MOST, &r->wav_fd, &r->wav_file, why)) return false;
    if (!wav_look(r->wav_file.at, r->wav_file.len, &r->wav, why)) return preface(why, "%s: ", r->wav_path);
    if (!is_of_wav(r, why) || !sound_make(&r->sound, r->about.samples, why)) return false;
    shelf_words(r->shelf_file.at, &r->sound);
    wav_values(&r->wav, r->wav_file.at, 0, r->wav.samples, r->sound.at);
    return true;
}

bool rework_load(struct rework *r, struct why *why) {
    const char *const paths[GROUP_FILES] = {
        [SCORE_FILE] = r->score_path, [WAV_FILE] = r->wav_path, [SHELF_FILE] = r->shelf_path};
    return group_open(&r->group, paths, why) && read_files(r, why);
}

struct asked rework_asked(const struct rework *r) {
    return (struct asked){.old_path = r->shelf_path,
                          .old_score = &r->about.score,
                          .shelf_path = r->shelf_path,
                          .settings = &r->about.settings,
                          .samples = r->about.samples};
}

/* The first sample that was rendered again is that of the section that holds the first change. */
void rework_made(struct rework *r, size_t count) {
    r->equal = same_score(&r->about.score, &r->after);
    r->from = r->to = r->about.samples;
    if (count == 0) return;
    r->from = first_change(&r->about.score, &r->after) / GAV_SECTION * GAV_SECTION;
    r->to = r->from + count;
}

/* Sections before the start and from the stop on are not rendered again. */
static bool stays(const struct rework *r, size_t section) {
    return section * GAV_SECTION < r->from || section * GAV_SECTION >= r->to;
}

static bool has_sum(const struct rework *r, size_t section) {
    return section_sum(&r->wav, r->wav_file.at, section) == shelf_sum(r->shelf_file.at, section);
}

/* Whether the WAV has the shelf's peak of a section. Where it has 32 bits, rounded, an earlier sample may have become
   as large. */
static bool has_peak(const struct rework *r, size_t section) {
    double values[GAV_SECTION];
    size_t first = section * GAV_SECTION, samples = section_end(r->wav.samples, section) - first;
    struct peak kept = shelf_peak(r->shelf_file.at, section);
    wav_values(&r->wav, r->wav_file.at, first, samples, values);
    struct peak found = peak_of(values, samples);
    double level = r->wav.bits == 32 ? (float)kept.level : kept.level;
    bool stands = level == found.level && fabs(values[kept.at - first]) == found.level;
    return stands && (r->wav.bits == 32 || kept.at == first + found.at);
}

/* Refuses where a section that is not rendered again is not as it should be. The words, before and after the shelf's
   name, are about the samples of the first such section. */
static bool all_stay(const struct rework *r, bool (*is_kept)(const struct rework *, size_t), const char *before,
                     const char *after, struct why *why) {
    size_t stay = 0, differ = 0, first = 0;
    for (size_t i = r->sound.sections; i-- > 0;) {
        if (!stays(r, i)) continue;
        stay++;
        if (is_kept(r, i)) continue;
        differ++;
        first = i;
    }
    if (differ == 0) return true;
    const char *which = counted(stay, "section that a re-render would leave as it is",
                                "sections that a re-render would leave as they are");
    return refuse(why,
                  "samples %zu to %zu of %s %s %s %s; of %zu %s, %zu %s; nothing is written: render again with "
                  "`desk render`",
                  first * GAV_SECTION, section_end(r->wav.samples, first) - 1, r->wav_path, before, r->shelf_path,
                  after, stay, which, differ, counted(differ, "differs", "differ"));
}

/* Sums first, so that the peaks of another sound's samples are not asked for. */
static bool rest_is_kept(const struct rework *r, struct why *why) {
    return all_stay(r, has_sum, "are not what", "was made with", why) &&
           all_stay(r, has_peak, "have not the peaks that", "has", why);
}

/* Writes the new samples of a section; whether the samples there were of another sound. */
static bool replace_section(struct rework *r, size_t section) {
    size_t first = section * GAV_SECTION, samples = section_end(r->wav.samples, section) - first;
    uint64_t before = section_sum(&r->wav, r->wav_file.at, section);
    wav_samples(r->wav.bits, r->sound.at + first, samples, r->wav_file.at + r->wav.data + r->wav.bits / 8 * first);
    return before != shelf_sum(r->shelf_file.at, section) && before != section_sum(&r->wav, r->wav_file.at, section);
}

/* The sections that stay keep their bytes; the others get the new samples. */
static bool make_wav(struct rework *r, struct why *why) {
    r->wav_file.len = wav_without_peak(r->wav_file.at, r->wav_file.len);
    if (!wav_look(r->wav_file.at, r->wav_file.len, &r->wav, why)) return preface(why, "%s: ", r->wav_path);
    for (size_t i = 0; i < r->sound.sections; i++) {
        if (!stays(r, i)) r->foreign += replace_section(r, i);
    }
    return true;
}

/* The new WAV; without its PEAK the bytes behind that have other places than in the old one. */
static bool wav_content(struct rework *r, struct content *wav, struct why *why) {
    size_t len = r->wav_file.len, frame = r->wav.bits / 8;
    if (!make_wav(r, why)) return false;
    *wav = (struct content){.bytes = r->wav_file,
                            .source = r->wav_file.len == len ? &r->wav_fd : NULL,
                            .first = r->wav.data + frame * r->from,
                            .end = r->wav.data + frame * r->to};
    return true;
}

/* The WAV and the shelf. An edit past the end changes no sample and no entry, only the score in the shelf. */
static bool pair_contents(struct rework *r, struct content contents[GROUP_FILES], struct why *why) {
    if (r->from < r->to && !wav_content(r, &contents[WAV_FILE], why)) return false;
    r->about.score = r->after;
    if (!shelf_bytes(&r->about, &r->sound, &r->wav, r->wav_file.at, &r->new_shelf, why)) return false;
    contents[SHELF_FILE].bytes = r->new_shelf;
    return true;
}

bool rework_write(struct rework *r, struct why *why) {
    struct content contents[GROUP_FILES] = {{.source = NULL}};
    if (!rest_is_kept(r, why)) return false;
    if (r->score_path) contents[SCORE_FILE].bytes = (struct bytes){.at = r->after.at, .len = r->after.len};
    return (r->equal || pair_contents(r, contents, why)) && group_write(&r->group, contents, why);
}

static void tell_foreign(const struct rework *r) {
    size_t sections = gav_sections(r->to) - gav_sections(r->from);
    if (r->foreign == 0) return;
    printf("%s: %zu of %zu %s rendered again %s of another sound; %s the new score's now\n", r->wav_path, r->foreign,
           sections, counted(sections, "section", "sections"), counted(r->foreign, "was", "were"),
           counted(r->foreign, "it is", "they are"));
}

/* From which sample to which. */
static void tell_made(const struct rework *r) {
    double rate = r->about.settings.rate;
    size_t samples = r->about.samples;
    printf("%s: %zu of %zu %s rendered again, samples %zu to %zu (%.3f s to %.3f s)%s\n", r->wav_path, r->to - r->from,
           samples, counted(samples, "sample", "samples"), r->from, r->to - 1, (double)r->from / rate,
           (double)r->to / rate, r->to < samples ? "; those after them do not change" : "");
}

/* The peak is that of the whole sound as the WAV has it. */
void rework_tell(struct rework *r) {
    size_t samples = r->about.samples;
    const char *of = counted(samples, "sample", "samples");
    if (r->equal) {
        printf("%s: 0 of %zu %s change: %s is of this score already\n", r->wav_path, samples, of, r->shelf_path);
    } else if (r->from == r->to) {
        printf("%s: 0 of %zu %s change; left as it is\n", r->wav_path, samples, of);
    } else {
        tell_made(r);
    }
    tell_foreign(r);
    wav_values(&r->wav, r->wav_file.at, r->from, r->to - r->from, r->sound.at + r->from);
    tell_peak(stdout, r->wav_path, peak_of(r->sound.at, samples), r->wav.rate);
    tell_unheard(stdout, r->score_path ? r->score_path : r->input_path, &r->after, samples, r->wav.rate);
}
