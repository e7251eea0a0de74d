/* The edits of a round, each re-rendered in what the call before it left, and compared with renders of both scores from
 * sample zero: their entries say where it stops. */
#include "scale.h"

#include <stdio.h>

/* What lies behind the entry that a re-render starts from: what the old render left; the same with rubbish for sound
 * and summary; with other entries too; nothing but rubbish. */
enum behind { AS_LEFT, OTHER_SOUND, OTHER_ENTRIES, RUBBISH };

/* A section's first sample, or the end. */
static size_t sample_of(const struct round *r, size_t section) {
    return section < gav_sections(r->n) ? section * GAV_SECTION : r->n;
}

size_t start_of(const struct round *r, const struct score *new_) {
    uint64_t p = first_change(r->score.bytes, r->score.len, new_->bytes, new_->len);
    return p < r->n ? (size_t)p / GAV_SECTION : gav_sections(r->n);
}

void spoil_sound(struct round *r, size_t from, size_t to) {
    const size_t first = sample_of(r, from);
    rubbish(&r->chance, words_of(&r->lent, OUT) + first, sample_of(r, to) - first);
    rubbish(&r->chance, words_of(&r->lent, MAGNITUDES) + from, to - from);
    rubbish(&r->chance, words_of(&r->lent, NUMBERS) + from, to - from);
}

/* Another bit of an entry, often a sign or the last one, but none of the records acted. */
static void flip_bit(struct chance *c, uint64_t *entry) {
    const uint64_t any[] = {0, 63, below(c, 64)}, word = below(c, GAV_STATE_WORDS);
    entry[word] ^= UINT64_C(1) << (word == 5 ? below(c, 16) : PICK(c, any));
}

/* Rubbish; or the entry that came or the one that the new score is due, as it is, with any number of records acted, or
 * with another bit. */
static void spoil_entry(struct chance *c, uint64_t *entry, const uint64_t *due) {
    if (one_in(c, 4)) {
        rubbish(c, entry, GAV_STATE_WORDS);
        return;
    }
    if (one_in(c, 2)) memcpy(entry, due, 8 * GAV_STATE_WORDS);
    if (one_in(c, 2)) entry[5] = entry[5] % 65536 | chance_word(c) << 16;
    if (one_in(c, 2)) flip_bit(c, entry);
}

/* What lies before the start, all but the entry to start from. */
static void spoil_before(struct round *r, size_t start) {
    spoil_sound(r, 0, start);
    rubbish(&r->chance, words_of(&r->lent, SHELF), start * GAV_STATE_WORDS);
}

static void spoil_behind(struct round *r, enum behind how, size_t start, const struct heard *due) {
    const size_t sections = gav_sections(r->n);
    if (how == AS_LEFT) return;
    spoil_sound(r, start, sections);
    for (size_t k = start + 1; k < sections && how != OTHER_SOUND; k++) {
        const size_t at = k * GAV_STATE_WORDS;
        uint64_t *entry = words_of(&r->lent, SHELF) + at;
        if (how == RUBBISH)
            rubbish(&r->chance, entry, GAV_STATE_WORDS);
        else
            spoil_entry(&r->chance, entry, due->shelf + at);
    }
}

/* From start to stop what is expected is the render of the new score; of the entries from the stop on the records acted
 * alone. */
static void expect(struct round *r, size_t start, size_t stop, const struct heard *due) {
    const size_t words = gav_shelf_words(r->n), from = sample_of(r, start), entry = start * GAV_STATE_WORDS;
    copy_buffers(&r->expected, &r->lent);
    uint64_t *shelf = words_of(&r->expected, SHELF);
    memcpy(words_of(&r->expected, OUT) + from, due->samples + from, 8 * (sample_of(r, stop) - from));
    memcpy(shelf + entry, due->shelf + entry, 8 * (stop * GAV_STATE_WORDS - entry));
    for (size_t keys = stop * GAV_STATE_WORDS + 5; keys < words; keys += GAV_STATE_WORDS) {
        shelf[keys] = shelf[keys] % 65536 | due->shelf[keys] >> 16 << 16;
    }
}

/* What became of a re-render; and whether an entry from start to stop was passed though it is the state that is due, or
 * though the scores agree. */
static void count_stop(const struct round *r, struct stops *stops, const struct score *new_, const struct heard *due,
                       const uint64_t *came, size_t start, size_t stop) {
    const uint64_t same = same_after(&r->score, new_);
    const size_t sections = gav_sections(r->n);
    bool by_state = false, by_scores = false;
    stops->idle += start == sections;
    stops->last += start + 1 == sections;
    stops->ended += start + 1 < sections && stop == sections;
    if (stop == sections) return;
    for (size_t k = start + 1; k < stop; k++) {
        const size_t at = k * GAV_STATE_WORDS;
        by_state |= k * GAV_SECTION >= same;
        by_scores |= is_same_state(came + at, due->shelf + at);
    }
    stops->stopped++;
    stops->by_state += by_state;
    stops->by_scores += by_scores;
}

struct written expect_rerender(struct round *r, struct stops *stops, const struct score *new_, const struct heard *due,
                               const uint64_t *came) {
    const size_t sections = gav_sections(r->n), start = start_of(r, new_);
    const size_t stop = judge_stop(&r->score, new_, came, due->shelf, start, sections);
    const size_t from = sample_of(r, start), count = sample_of(r, stop) - from;
    count_stop(r, stops, new_, due, came, start, stop);
    expect(r, start, stop, due);
    r->tally->words += gav_shelf_words(r->n) - start * GAV_STATE_WORDS;
    r->tally->kept += 8 * (r->n - count + (sections - (stop - start)) * (GAV_STATE_WORDS + 2));
    return (struct written){from, count, due->scales + from};
}

size_t rerender(struct round *r, const struct score *new_, const struct heard *due, const uint64_t *came) {
    const struct call call = {.which = RERENDER, .settings = r->settings};
    lend_score(&r->lent, OLD, &r->score);
    lend_score(&r->lent, NEW, new_);
    const struct written written = expect_rerender(r, &r->tally->rerenders, new_, due, came);
    call_done(r, &call, says(0, 0, written.samples), written);
    return written.samples;
}

/* "If it was right for the buffer as that came, all finite, it afterwards equals a summary of the finished buffer
 * worked out from nothing." */
static void same_summary(const struct round *r) {
    const size_t bytes = 8 * gav_sections(r->n);
    double magnitudes[MOST_ENTRIES];
    uint64_t numbers[MOST_ENTRIES];
    judge_peaks(inside(&r->lent, OUT), 0, r->n, magnitudes, numbers);
    if (memcmp(magnitudes, inside(&r->lent, MAGNITUDES), bytes) != 0 ||
        memcmp(numbers, inside(&r->lent, NUMBERS), bytes) != 0) {
        differ(r, "the summary is not that of the finished output");
    }
}

/* "Demand 3's equality with a fresh render stands". */
void same_render(const struct round *r, const struct heard *due) {
    const uint64_t *out = words_of(&r->lent, OUT);
    for (size_t i = 0; i < r->n; i++) {
        bool same = is_judged(r, number(out[i]), due->samples[i], due->scales[i]);
        if (!same) differ(r, "sample %zu is not that of a render from zero", i);
    }
    if (memcmp(inside(&r->lent, SHELF), due->shelf, 8 * gav_shelf_words(r->n)) != 0) {
        differ(r, "the shelf is not that of a render from zero");
    }
    same_summary(r);
}

/* What is lent is the judge's render again. */
static void restore(struct round *r) {
    memcpy(inside(&r->lent, OUT), r->heard.samples, 8 * r->n);
    memcpy(inside(&r->lent, SHELF), r->heard.shelf, 8 * gav_shelf_words(r->n));
    judge_peaks(r->heard.samples, 0, r->n, inside(&r->lent, MAGNITUDES), words_of(&r->lent, NUMBERS));
}

bool spoil_some(struct round *r, struct stops *stops, size_t start, const struct heard *due) {
    static const enum behind HOW[] = {AS_LEFT, OTHER_SOUND, OTHER_ENTRIES, OTHER_ENTRIES, RUBBISH};
    if (one_in(&r->chance, 2)) return true;
    const enum behind behind = PICK(&r->chance, HOW);
    if (one_in(&r->chance, 2)) spoil_before(r, start);
    spoil_behind(r, behind, start, due);
    stops->spoilt += behind != AS_LEFT && start < gav_sections(r->n);
    return false;
}

/* Half of the edits are made in what the render or the edit before left; of the other half a part is rubbish. */
static void edit(struct round *r, int number) {
    static struct score new_;
    static struct heard due;
    new_ = r->score;
    (one_in(&r->chance, 3) ? edit_score : change_score)(&r->chance, r->n, &new_);
    const size_t start = start_of(r, &new_);
    snprintf(r->what, sizeof r->what, "edit %d, re-rendered from section %zu of %zu", number, start,
             gav_sections(r->n));
    judge_hear(r, &new_, &due);
    const bool is_honest = spoil_some(r, &r->tally->rerenders, start, &due);
    rerender(r, &new_, &due, is_honest ? r->heard.shelf : words_of(&r->lent, SHELF));
    r->score = new_;
    r->heard = due;
    if (is_honest)
        same_render(r, &due);
    else
        restore(r);
}

/* An entry that is a state, but one that no score may reach, is played all the same. */
static void stray_edit(struct round *r) {
    static struct score new_;
    static struct heard due;
    new_ = r->score;
    edit_score(&r->chance, r->n, &new_);
    const size_t start = start_of(r, &new_), at = start * GAV_STATE_WORDS, from = sample_of(r, start);
    if (from == r->n) return;
    uint64_t *entry = words_of(&r->lent, SHELF) + at, state[GAV_STATE_WORDS];
    move_state(&r->chance, entry);
    memcpy(state, entry, sizeof state);
    snprintf(r->what, sizeof r->what, "re-render from another state at %zu of %zu", from, r->n);
    judge_play(&r->settings, &new_, state, from, due.samples + from, due.scales + from, r->n - from, due.shelf + at);
    rerender(r, &new_, &due, words_of(&r->lent, SHELF));
}

/* What is lent holds the render of the score, and does so after every edit. */
void run_edits(struct round *r) {
    int edits = (int)below(&r->chance, 6);
    for (int i = 1; i <= edits; i++) edit(r, i);
    stray_edit(r);
}
