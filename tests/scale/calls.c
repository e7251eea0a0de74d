/* One call, made of the library and of the reference voice, and what came of it. The first difference ends the run, and
 * its seed and round make it again. */
#include "scale.h"

#include <math.h>
#include <stdarg.h>
#include <stdio.h>
#include <stdlib.h>

/* The calls of gavberin.h, of one who has them. */
struct calls {
    const char *name;
    uint64_t (*check)(const uint8_t *, size_t);
    uint64_t (*list)(const uint8_t *, size_t, uint8_t *, size_t);
    uint64_t (*fresh)(uint64_t *, size_t);
    uint64_t (*render)(const struct gav_settings *, const uint8_t *, size_t, double *, size_t, uint64_t *, size_t,
                       double *, size_t, uint64_t *, size_t);
    uint64_t (*rerender)(const struct gav_settings *, const uint8_t *, size_t, const uint8_t *, size_t, double *,
                         size_t, uint64_t *, size_t, double *, size_t, uint64_t *, size_t);
    uint64_t (*edit)(const struct gav_settings *, const uint8_t *, size_t, const uint8_t *, size_t, double *, size_t,
                     uint64_t *, size_t, double *, size_t, uint64_t *, size_t, uint8_t *, size_t);
    uint64_t (*go_on)(const struct gav_settings *, const uint8_t *, size_t, uint64_t *, size_t, uint64_t, double *,
                      size_t);
    double (*sample)(uint32_t, double, double, double);
    uint64_t (*sample_says)(uint32_t, double, double, double);
};

static const struct calls LIBRARY = {"the library",   gav_check_score,   gav_list,      gav_fresh,
                                     gav_render_with, gav_rerender_with, gav_edit_with, gav_continue_with,
                                     gav_sample,      gav_sample_says};
static const struct calls REFERENCE = {"the reference",  reference_check_score, reference_list, reference_fresh,
                                       reference_render, reference_rerender,    reference_edit, reference_continue,
                                       reference_sample, reference_sample_says};

void differ(const struct round *r, const char *format, ...) {
    va_list words;
    printf("scale: seed %llu, round %llu: %s: ", (unsigned long long)r->seed, (unsigned long long)r->number, r->what);
    va_start(words, format);
    vprintf(format, words);
    va_end(words);
    putchar('\n');
    exit(1);
}

static uint64_t make(const struct calls *who, const struct call *c, struct buffers *b) {
    const uint8_t *old = address(b, OLD), *new_ = address(b, NEW);
    double *out = address(b, OUT), *part = c->samples == 0 && b->has_nulls ? NULL : out + c->from;
    uint64_t *shelf = address(b, SHELF), *numbers = address(b, NUMBERS);
    double *magnitudes = address(b, MAGNITUDES);
    size_t n = b->len[OUT] / 8, words = b->len[SHELF] / 8;
    size_t magnitudes_len = b->len[MAGNITUDES] / 8, numbers_len = b->len[NUMBERS] / 8;
    switch (c->which) {
    case CHECK:
        return who->check(old, b->len[OLD]);
    case LIST:
        return who->list(old, b->len[OLD], address(b, TEXT), b->len[TEXT]);
    case FRESH:
        return who->fresh(address(b, STATE), c->words);
    case RENDER:
        return who->render(&c->settings, old, b->len[OLD], out, n, shelf, words, magnitudes, magnitudes_len, numbers,
                           numbers_len);
    case RERENDER:
        return who->rerender(&c->settings, old, b->len[OLD], new_, b->len[NEW], out, n, shelf, words, magnitudes,
                             magnitudes_len, numbers, numbers_len);
    case EDIT_PAGE:
        return who->edit(&c->settings, old, b->len[OLD], address(b, EDITS), b->len[EDITS], out, n, shelf, words,
                         magnitudes, magnitudes_len, numbers, numbers_len, address(b, ROOM), b->len[ROOM]);
    default:
        return who->go_on(&c->settings, old, b->len[OLD], address(b, STATE), c->words, c->position, part, c->samples);
    }
}

/* Every answer has words for a person. */
static void same_answer(const struct round *r, const char *who, uint64_t ours, uint64_t due) {
    if (ours == due && gav_words(ours)[0] != '\0') return;
    differ(r, "%s answers number %u, place %u, count %u; due is number %u, place %u, count %u", who, gav_number(ours),
           (unsigned)gav_place(ours), (unsigned)gav_count(ours), gav_number(due), (unsigned)gav_place(due),
           (unsigned)gav_count(due));
}

/* The first byte that is another one, of bytes that differ. */
static size_t first_other(const uint8_t *a, const uint8_t *b) {
    size_t at = 0;
    while (a[at] == b[at]) at++;
    return at;
}

static void tell_word(const struct round *r, const char *who, enum lent which, size_t at, uint64_t ours, uint64_t due) {
    static const char *const NAMES[BUFFERS] = {
        "score", "new score", "sample", "word of the shelf", "word of the state", "magnitude", "number"};
    differ(r, "%s: %s %zu is %016llX (%.17g), due is %016llX (%.17g)", who, NAMES[which], at, (unsigned long long)ours,
           number(ours), (unsigned long long)due, number(due));
}

static void tell(const struct round *r, const char *who, enum lent which, const struct buffers *ours,
                 const struct buffers *due) {
    size_t guard = (size_t)((uint8_t *)inside(ours, which) - ours->room[which]), len = ours->len[which];
    size_t at = first_other(ours->room[which], due->room[which]);
    if (at < guard || at >= guard + len) differ(r, "%s wrote beside a buffer (number %d of those lent)", who, which);
    if (which == OLD || which == NEW) differ(r, "%s wrote into a score", who);
    if (which == EDITS) differ(r, "%s wrote into a list of edits", who);
    if (which == TEXT || which == ROOM)
        differ(r, "%s: byte %zu of the %s is another", who, at - guard, which == TEXT ? "text" : "lent buffer");
    at = (at - guard) / 8;
    tell_word(r, who, which, at, words_of(ours, which)[at], words_of(due, which)[at]);
}

void same_buffers(const struct round *r, const char *who, const struct buffers *ours, const struct buffers *due) {
    for (int i = 0; i < BUFFERS; i++) {
        size_t guards = 2 * (size_t)((uint8_t *)inside(due, i) - due->room[i]);
        if (memcmp(ours->room[i], due->room[i], due->len[i] + guards) != 0) tell(r, who, i, ours, due);
    }
}

/* The samples that were written are the judge's; they take their place in what is expected, so that the rest can be
 * compared by bits. */
static void same_samples(struct round *r, struct written w) {
    uint64_t *ours = words_of(&r->twins, OUT), *due = words_of(&r->expected, OUT);
    for (size_t i = w.from; i < w.from + w.samples; i++) {
        if (!is_judged(r, number(ours[i]), number(due[i]), w.scales[i - w.from])) {
            tell_word(r, "the reference beside the judge", OUT, i, ours[i], due[i]);
        }
        due[i] = ours[i];
    }
}

/* The peaks that a render or a re-render is due in the sections that it writes: of the samples that are expected. */
static void expect_peaks(struct round *r, struct written w) {
    const size_t first = w.from / GAV_SECTION, end = w.from + w.samples;
    const size_t sections = w.samples > 0 ? gav_sections(end) : first;
    double *out = inside(&r->expected, OUT), *magnitudes = inside(&r->expected, MAGNITUDES);
    judge_peaks(out, w.from, end, magnitudes, words_of(&r->expected, NUMBERS));
    for (size_t i = first; i < sections; i++) {
        r->tally->peaks++;
        r->tally->silent += magnitudes[i] == 0.0;
        r->tally->above += magnitudes[i] > 1.0;
    }
}

/* The library beside the reference, which is lent copies of the same. */
static uint64_t both(struct round *r, const struct call *c) {
    copy_buffers(&r->twins, &r->lent);
    uint64_t ours = make(&LIBRARY, c, &r->lent), theirs = make(&REFERENCE, c, &r->twins);
    same_answer(r, LIBRARY.name, ours, theirs);
    same_buffers(r, LIBRARY.name, &r->lent, &r->twins);
    r->tally->calls++;
    return theirs;
}

void call_done(struct round *r, const struct call *c, uint64_t answer, struct written written) {
    same_answer(r, REFERENCE.name, both(r, c), answer);
    same_samples(r, written);
    if (c->which == RENDER || c->which == RERENDER || c->which == EDIT_PAGE) expect_peaks(r, written);
    same_buffers(r, REFERENCE.name, &r->twins, &r->expected);
    r->tally->samples += written.samples;
}

void call_same(struct round *r, const struct call *c) { both(r, c); }

static size_t bytes_of(const struct buffers *b) {
    size_t bytes = 0;
    for (int i = 0; i < BUFFERS; i++) bytes += b->len[i];
    return bytes;
}

void call_refused(struct round *r, const struct call *c, uint64_t answer) {
    copy_buffers(&r->expected, &r->lent);
    uint64_t ours = make(&LIBRARY, c, &r->lent);
    same_answer(r, LIBRARY.name, ours, answer);
    same_buffers(r, LIBRARY.name, &r->lent, &r->expected);
    same_answer(r, REFERENCE.name, make(&REFERENCE, c, &r->lent), answer);
    same_buffers(r, REFERENCE.name, &r->lent, &r->expected);
    r->tally->calls++;
    r->tally->refused++;
    r->tally->kept += bytes_of(&r->lent);
}

/* The original's sine is its own, and measured. */
void sample_same(struct round *r, uint32_t code, double phase, double dt, double duty) {
    double ours = LIBRARY.sample(code, phase, dt, duty), theirs = REFERENCE.sample(code, phase, dt, duty);
    uint64_t says = REFERENCE.sample_says(code, phase, dt, duty);
    snprintf(r->what, sizeof r->what, "sample of code %u at %.17g, dt %.17g, duty %.17g", (unsigned)code, phase, dt,
             duty);
    same_answer(r, LIBRARY.name, LIBRARY.sample_says(code, phase, dt, duty), says);
    if (bits(ours) != bits(theirs)) differ(r, "the library gives %.17g, the reference %.17g", ours, theirs);
    r->tally->calls += 2;
    if (gav_number(says) != 0 || !original_is_here) return;
    double judged = original_sample(code, phase, dt, duty), off = fabs(theirs - judged);
    bool fine = code == GAV_SINE ? off <= 0.000001 : bits(theirs) == bits(judged);
    if (!fine) differ(r, "the reference gives %.17g, the original %.17g", theirs, judged);
}
