/* Pages of edits: each beside the reference's, beside the same edits one at a time, and beside a render of the new
 * score from sample zero. */
#include "scale.h"

#include <stdio.h>

/* What is lent is what gav_render leaves of the round's score: the library's own samples, which stay where a page
 * writes nothing. */
static void render_alone(struct round *r, struct buffers *b, const struct score *score) {
    const size_t sections = gav_sections(r->n);
    uint64_t said =
        gav_render_with(&r->settings, score->bytes, score->len, address(b, OUT), r->n, address(b, SHELF),
                        gav_shelf_words(r->n), address(b, MAGNITUDES), sections, address(b, NUMBERS), sections);
    if (said != says(0, 0, r->n)) differ(r, "gav_render answers %llx", (unsigned long long)said);
}

/* Of the samples, the shelf and the summary, every bit is that of gav_render of the new score, over rubbish. */
static void same_alone(struct round *r, const struct score *new_) {
    copy_buffers(&r->twins, &r->lent);
    resize(&r->chance, &r->twins, OUT, 8 * r->n);
    resize(&r->chance, &r->twins, SHELF, 8 * gav_shelf_words(r->n));
    resize(&r->chance, &r->twins, MAGNITUDES, 8 * gav_sections(r->n));
    resize(&r->chance, &r->twins, NUMBERS, 8 * gav_sections(r->n));
    render_alone(r, &r->twins, new_);
    same_buffers(r, "gav_render of the new score", &r->twins, &r->lent);
}

/* One edit of a list, by a call of its own, on the score at hand. */
static uint64_t edit_alone(const struct round *r, struct buffers *b, const struct score *score, const uint8_t *edit) {
    const size_t sections = gav_sections(r->n);
    return gav_edit_with(&r->settings, score->bytes, score->len, edit, EDIT, address(b, OUT), r->n, address(b, SHELF),
                         gav_shelf_words(r->n), address(b, MAGNITUDES), sections, address(b, NUMBERS), sections,
                         inside(b, ROOM), GAV_SCORE_BYTES);
}

/* "all three and the score equal those of the edits made one at a time, each followed by its re-render": each on the
 * front that the call before left, over what came. The sum of the counts. */
static uint64_t edit_one_by_one(const struct round *r, const struct list *list, struct buffers *came) {
    static struct score front, due;
    uint64_t counts = 0;
    front = due = r->score;
    for (size_t i = 0; i < list->len / EDIT; i++) {
        uint64_t said = edit_alone(r, came, &front, list->bytes + EDIT * i);
        make_edit(list->bytes + EDIT * i, &due);
        if (said != says(0, due.len, gav_count(said)))
            differ(r, "one at a time: edit %zu answers %llx", i, (unsigned long long)said);
        front.len = gav_place(said);
        memcpy(front.bytes, inside(came, ROOM), front.len);
        if (memcmp(front.bytes, due.bytes, due.len) != 0) differ(r, "one at a time: edit %zu leaves another score", i);
        counts += gav_count(said);
    }
    /* The rest of the lent buffer may hold what a longer score left. */
    lend(came, ROOM, inside(&r->lent, ROOM), GAV_SCORE_BYTES);
    same_buffers(r, "one at a time", came, &r->lent);
    return counts;
}

static void count_page(const struct round *r, const struct list *list, const struct score *new_, unsigned met) {
    struct pages *pages = &r->tally->pages;
    const bool is_same = new_->len == r->score.len && memcmp(new_->bytes, r->score.bytes, new_->len) == 0;
    struct voice voice;
    pages->made++;
    pages->edits += list->len / EDIT;
    pages->empty += list->len == 0;
    pages->undone += is_same && list->len > 0;
    pages->unread += is_same && r->n > 0 && !voice_read(&voice, words_of(&r->lent, SHELF));
    pages->late += !is_same && start_of(r, new_) == gav_sections(r->n);
    for (unsigned i = 0; i < MEETINGS; i++) pages->met[i] += met >> i & 1;
}

/* What is lent for a page, over the render of the round's score. */
static void lend_page(struct round *r, const struct list *list) {
    lend_output(r);
    render_alone(r, &r->lent, &r->score);
    lend(&r->lent, EDITS, list->bytes, list->len);
    resize(&r->chance, &r->lent, ROOM, GAV_SCORE_BYTES);
}

/* Half of the pages are made in what gav_render left; of the other half a part is rubbish. */
static void page(struct round *r, struct buffers *came) {
    static struct list list;
    static struct score new_;
    static struct heard due;
    const struct call call = {.which = EDIT_PAGE, .settings = r->settings};
    unsigned met;
    random_list(&r->chance, r->n, &r->score, &list, &new_, &met);
    snprintf(r->what, sizeof r->what, "page of %zu edits, %zu records, from section %zu of %zu", list.len / EDIT,
             score_count(&r->score), start_of(r, &new_), gav_sections(r->n));
    judge_hear(r, &new_, &due);
    lend_page(r, &list);
    const bool is_honest = spoil_some(r, &r->tally->turns, start_of(r, &new_), &due);
    count_page(r, &list, &new_, met);
    copy_buffers(came, &r->lent);
    const struct written written = expect_rerender(r, &r->tally->turns, &new_, &due, words_of(came, SHELF));
    memcpy(inside(&r->expected, ROOM), new_.bytes, new_.len);
    call_done(r, &call, says(0, new_.len, written.samples), written);
    if (is_honest) {
        same_render(r, &due);
        same_alone(r, &new_);
        r->tally->pages.others += edit_one_by_one(r, &list, came) != written.samples;
    }
    r->score = new_;
    r->heard = due;
}

/* On a score that is full, or nearly so; the round's own comes back. */
static void full_page(struct round *r, struct buffers *came) {
    static struct score score;
    static struct heard heard;
    score = r->score;
    heard = r->heard;
    long_score(&r->chance, r->n, MOST_RECORDS - below(&r->chance, 3), &r->score);
    page(r, came);
    r->score = score;
    r->heard = heard;
}

void run_pages(struct round *r) {
    static struct buffers came;
    if (!came.room[OUT]) make_buffers(&came);
    page(r, &came);
    if (one_in(&r->chance, 8)) full_page(r, &came);
    lend(&r->lent, EDITS, NULL, 0);
    lend(&r->lent, ROOM, NULL, 0);
}
