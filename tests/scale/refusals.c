/* Each reason for a refusal alone, and with all that come after it in 01's order: settings, sizes, the old or only
 * score, the new score, or the lengths and the edits of a page, the state or entry. */
#include "scale.h"

#include <stdio.h>

enum reason { SETTINGS, SIZE, SCORE, NEW_SCORE, LENGTHS, EDIT_LIST, START, REASONS };

/* Whether a call that is to be refused for one reason has another one too. */
struct faults {
    enum reason first;
    bool alone;
};

static bool has(struct faults f, enum reason reason) { return f.alone ? reason == f.first : reason >= f.first; }

static struct gav_settings settings_of(struct round *r, struct faults f) {
    return has(f, SETTINGS) ? bad_settings(&r->chance, r->settings) : r->settings;
}

/* The round's score, or one with a fault; what that is due. */
static uint64_t lend_faulty(struct round *r, enum lent which, const struct score *score, bool faulty) {
    static struct score broken;
    broken = *score;
    uint64_t due = faulty ? break_score(&r->chance, &broken) : 0;
    lend_score(&r->lent, which, &broken);
    return due;
}

/* A word too few or too many, an entry too many, or a word too few in each entry. */
static size_t other_words(struct round *r) {
    size_t words = gav_shelf_words(r->n), fewer = words - words / GAV_STATE_WORDS;
    const size_t others[] = {words > 0 ? words - 1 : 1, words + 1, words + GAV_STATE_WORDS, words > 0 ? fewer : 1};
    return PICK(&r->chance, others);
}

/* One too few or too many, or none of some. */
static size_t other_sections(struct round *r) {
    size_t sections = gav_sections(r->n);
    const size_t others[] = {sections > 0 ? sections - 1 : 1, sections + 1, sections > 0 ? 0 : 1};
    return PICK(&r->chance, others);
}

/* The shelf, the magnitudes and the numbers: one of them, some or all have a wrong size. */
static void lend_sizes(struct round *r, struct faults f) {
    uint64_t wrong = has(f, SIZE) ? 1 + below(&r->chance, 7) : 0;
    size_t sections = gav_sections(r->n);
    resize(&r->chance, &r->lent, SHELF, 8 * (wrong & 1 ? other_words(r) : gav_shelf_words(r->n)));
    resize(&r->chance, &r->lent, MAGNITUDES, 8 * (wrong & 2 ? other_sections(r) : sections));
    resize(&r->chance, &r->lent, NUMBERS, 8 * (wrong & 4 ? other_sections(r) : sections));
}

static void refuse(struct round *r, const struct call *call, const char *name, struct faults f, uint64_t due) {
    static const char *const REASONS_TOLD[REASONS] = {"settings",    "sizes",    "the score", "the new score",
                                                      "the lengths", "the list", "the start"};
    const uint64_t dues[REASONS] = {6, 7, due, due + 16, 36, due, call->which == CONTINUE ? 10 : 8};
    snprintf(r->what, sizeof r->what, "%s, to be refused for %s%s", name, REASONS_TOLD[f.first],
             f.alone ? "" : " and all that comes after");
    call_refused(r, call, dues[f.first]);
}

static void refused_render(struct round *r, struct faults f) {
    const struct call call = {.which = RENDER, .settings = settings_of(r, f)}, check = {.which = CHECK};
    uint64_t due = lend_faulty(r, OLD, &r->score, has(f, SCORE));
    resize(&r->chance, &r->lent, OUT, 8 * r->n);
    lend_sizes(r, f);
    if (f.first == SCORE) refuse(r, &check, "check", f, due);
    refuse(r, &call, "render", f, due);
}

/* A position from which the part would pass the last sample there may be. */
static uint64_t far_position(struct chance *c, size_t samples) {
    const uint64_t far[] = {GAV_MOST_SAMPLES + 1 - samples, GAV_MOST_SAMPLES + 1, UINT64_MAX};
    uint64_t position = PICK(c, far);
    return position > far[0] ? position : far[0];
}

static void refused_part(struct round *r, struct faults f) {
    static double samples[LONGEST], scales[LONGEST];
    static const size_t COUNTS[] = {0, GAV_STATE_WORDS - 1, GAV_STATE_WORDS + 1};
    struct call call = {.which = CONTINUE, .settings = settings_of(r, f), .words = GAV_STATE_WORDS};
    uint64_t state[GAV_STATE_WORDS + 1] = {0}, due = lend_faulty(r, OLD, &r->score, has(f, SCORE));
    call.from = below(&r->chance, r->n + 1);
    call.samples = r->n - call.from;
    reference_fresh(state, GAV_STATE_WORDS);
    judge_play(&r->settings, &r->score, state, 0, samples, scales, call.from, NULL);
    call.position = has(f, SIZE) ? far_position(&r->chance, call.samples) : call.from;
    if (has(f, START) && one_in(&r->chance, 8))
        call.words = PICK(&r->chance, COUNTS);
    else if (has(f, START))
        doctor_state(&r->chance, state);
    resize(&r->chance, &r->lent, OUT, 8 * r->n);
    lend(&r->lent, STATE, state, sizeof state);
    refuse(r, &call, "part", f, due);
}

/* What goes with the output. The entry that a re-render into a new score would start from is right, or doctored;
 * all other entries are rubbish. False where no entry is read. */
static bool lend_start(struct round *r, const struct score *new_, struct faults f) {
    size_t start = start_of(r, new_), entry = start * GAV_STATE_WORDS;
    lend_sizes(r, f);
    if (start == gav_sections(r->n)) return false;
    if (r->lent.len[SHELF] != 8 * gav_shelf_words(r->n)) return true;
    memcpy(words_of(&r->lent, SHELF) + entry, r->heard.shelf + entry, 8 * GAV_STATE_WORDS);
    if (has(f, START)) doctor_state(&r->chance, words_of(&r->lent, SHELF) + entry);
    return true;
}

static void refused_rerender(struct round *r, struct faults f) {
    static struct score edited;
    const struct call call = {.which = RERENDER, .settings = settings_of(r, f)};
    edited = r->score;
    strike(&r->chance, &edited, below(&r->chance, r->n > 0 ? r->n : 1));
    uint64_t of_old = lend_faulty(r, OLD, &r->score, has(f, SCORE));
    uint64_t of_new = lend_faulty(r, NEW, &edited, has(f, NEW_SCORE));
    resize(&r->chance, &r->lent, OUT, 8 * r->n);
    if (!lend_start(r, &edited, f) && f.first == START) return;
    refuse(r, &call, "re-render", f, f.first == NEW_SCORE ? of_new : of_old);
}

/* A list of any length, and a room: the list, the room or both have a wrong one. */
static void lend_lengths(struct round *r, struct list *list, struct faults f) {
    static const size_t ROOMS[] = {0,
                                   1,
                                   MOST_RECORDS,
                                   GAV_SCORE_BYTES - RECORD,
                                   GAV_SCORE_BYTES - 1,
                                   GAV_SCORE_BYTES + 1,
                                   GAV_SCORE_BYTES + RECORD};
    const uint64_t wrong = has(f, LENGTHS) ? 1 + below(&r->chance, 3) : 0;
    if (wrong & 1)
        list->len = list->len > 0 && one_in(&r->chance, 2) ? list->len - 1 - below(&r->chance, EDIT - 1)
                                                           : list->len + 1 + below(&r->chance, EDIT - 1);
    lend(&r->lent, EDITS, list->bytes, list->len);
    set_length(&r->lent, ROOM, wrong & 2 ? PICK(&r->chance, ROOMS) : GAV_SCORE_BYTES);
    r->tally->pages.lengths += wrong == 1 && f.alone;
    r->tally->pages.rooms += wrong == 2 && f.alone;
}

/* For its edits, often on a score that is full or nearly so, of which no render is needed. */
static void refused_page(struct round *r, struct faults f) {
    static struct score kept, new_;
    static struct list list;
    const struct call call = {.which = EDIT_PAGE, .settings = settings_of(r, f)};
    const bool is_long = f.first == EDIT_LIST && one_in(&r->chance, 2);
    enum list_fault fault = LIST_FAULTS;
    unsigned met;
    kept = r->score;
    if (is_long) long_score(&r->chance, r->n, MOST_RECORDS - below(&r->chance, 3), &r->score);
    random_list(&r->chance, r->n, &r->score, &list, &new_, &met);
    uint64_t of_list = has(f, EDIT_LIST) ? break_list(&r->chance, r->n, &r->score, &list, &fault) : 0;
    uint64_t of_old = lend_faulty(r, OLD, &r->score, has(f, SCORE));
    const bool is_read = lend_start(r, &new_, f);
    lend_lengths(r, &list, f);
    if (is_read || f.first != START) refuse(r, &call, "page", f, f.first == SCORE ? of_old : of_list);
    if (f.first == EDIT_LIST) r->tally->pages.faults[fault]++;
    r->tally->pages.starts += is_read && f.first == START;
    r->score = kept;
}

/* Too little room, or another number of words, is refused whatever else is lent. */
static void refused_rooms(struct round *r) {
    static const size_t COUNTS[] = {0, 1, GAV_STATE_WORDS - 1, GAV_STATE_WORDS + 1};
    const size_t rooms[] = {0, 1, below(&r->chance, GAV_LIST_ROOM), GAV_LIST_ROOM - 1};
    resize(&r->chance, &r->lent, STATE, 8 * (GAV_STATE_WORDS + 1));
    lend(&r->lent, OUT, NULL, 0);
    snprintf(r->what, sizeof r->what, "fresh, to be refused");
    call_refused(r, &(struct call){.which = FRESH, .words = PICK(&r->chance, COUNTS)}, 9);
    resize(&r->chance, &r->lent, TEXT, PICK(&r->chance, rooms));
    snprintf(r->what, sizeof r->what, "list, to be refused");
    call_refused(r, &(struct call){.which = LIST}, 7);
}

void run_refusals(struct round *r) {
    lend(&r->lent, TEXT, NULL, 0);
    for (int i = 0; i < 2 * REASONS; i++) {
        struct faults f = {(enum reason)(i / 2), i % 2 == 0};
        if (f.first <= SCORE) refused_render(r, f);
        if (f.first <= SCORE || f.first == START) refused_part(r, f);
        if (f.first <= NEW_SCORE || f.first == START) refused_rerender(r, f);
    }
    resize(&r->chance, &r->lent, ROOM, GAV_SCORE_BYTES + RECORD);
    for (int i = 0; i < 2 * REASONS; i++) {
        struct faults f = {(enum reason)(i / 2), i % 2 == 0};
        for (int lists = f.first == EDIT_LIST ? 3 : f.first != NEW_SCORE; lists > 0; lists--) refused_page(r, f);
    }
    lend(&r->lent, EDITS, NULL, 0);
    lend(&r->lent, ROOM, NULL, 0);
    refused_rooms(r);
}
