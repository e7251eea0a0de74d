/* Random lists of edits, what they make of a score, and lists with a fault. */
#include "scale.h"

static const uint8_t *record_of(const uint8_t *edit) { return edit + EDIT - RECORD; }

static size_t list_count(const struct list *list) { return list->len / EDIT; }

static void put_edit(uint8_t *edit, uint8_t code, const uint8_t *record) {
    const uint8_t head[EDIT - RECORD] = {0x45, 0x44, code, 0};
    memcpy(edit, head, sizeof head);
    memcpy(edit + sizeof head, record, RECORD);
}

void make_edit(const uint8_t *edit, struct score *score) {
    if (edit[2] == GAV_INSERT)
        insert_record(score, record_of(edit));
    else
        remove_record(score, record_of(edit));
}

void make_edits(const struct list *list, size_t count, struct score *score) {
    for (size_t i = 0; i < count; i++) make_edit(list->bytes + EDIT * i, score);
}

/* A list that is drawn: the scores before it and after the edits so far. */
struct drawn {
    struct chance *c;
    size_t n;
    const struct score *old;
    struct score *now;
    struct list *list;
    unsigned met;
};

static size_t count_equal(const struct score *score, const uint8_t *record) {
    size_t equal = 0;
    for (size_t at = 0; at < score->len; at += RECORD) equal += memcmp(score->bytes + at, record, RECORD) == 0;
    return equal;
}

static unsigned met_by_insert(const struct drawn *d, const uint8_t *record) {
    const uint64_t position = record_position(record);
    const size_t at = score_below(d->now, position), after = score_below(d->now, position + 1);
    unsigned met = 0;
    if (after > at) met |= AMONG_OTHERS;
    if (after < score_count(d->now)) met |= BEFORE_OTHERS;
    if (position == UINT32_MAX && after > 0) met |= AT_HIGHEST;
    if (score_count(d->now) == MOST_RECORDS - 1) met |= TO_FULL;
    if (score_count(d->old) == MOST_RECORDS) met |= FROM_FULL;
    return met;
}

/* Whether the first and the last of the equal records have another one between them. */
static bool is_first_of_equals(const struct score *score, const uint8_t *record) {
    size_t first = score->len, last = 0;
    for (size_t at = 0; at < score->len; at += RECORD) {
        if (memcmp(score->bytes + at, record, RECORD) != 0) continue;
        if (first == score->len) first = at;
        last = at;
    }
    return first < last && last - first >= RECORD * count_equal(score, record);
}

static unsigned met_by_remove(const struct drawn *d, const uint8_t *record) {
    unsigned met = 0;
    if (is_first_of_equals(d->now, record)) met |= FIRST_OF_EQUALS;
    if (count_equal(d->old, record) == 0) met |= NOT_OF_OLD;
    return met;
}

/* Makes an edit, if the list has room for it and it can be made. */
static bool add_edit(struct drawn *d, uint8_t code, const uint8_t *given) {
    uint8_t record[RECORD];
    bool can = code == GAV_INSERT ? score_count(d->now) < MOST_RECORDS : count_equal(d->now, given) > 0;
    if (!can || list_count(d->list) == MOST_EDITS) return false;
    memcpy(record, given, RECORD);
    d->met |= code == GAV_INSERT ? met_by_insert(d, record) : met_by_remove(d, record);
    put_edit(d->list->bytes + d->list->len, code, record);
    make_edit(d->list->bytes + d->list->len, d->now);
    d->list->len += EDIT;
    return true;
}

/* Of a record: the position, so that it stands among others; its note or velocity; nothing, so that it is there twice.
 */
static void vary(struct chance *c, uint8_t *record) {
    const uint8_t kind = record[6] == ON ? OFF : ON;
    switch (below(c, 4)) {
    case 0:
        put_record(record, record_position(record), kind, (uint8_t)below(c, 128), (uint8_t)(1 + below(c, 127)));
        break;
    case 1:
        if (record[6] != RESET) record[7] = (uint8_t)below(c, 128);
        break;
    case 2:
        if (record[6] != RESET) record[8] = (uint8_t)below(c, 128);
        break;
    default:
        break;
    }
}

/* Any record of a score, or one of the list, which may be there no longer. */
static const uint8_t *any_record(const struct drawn *d) {
    if (d->list->len > 0 && one_in(d->c, 3)) return record_of(d->list->bytes + EDIT * below(d->c, list_count(d->list)));
    return d->now->bytes + RECORD * below(d->c, score_count(d->now));
}

/* The last edits undone, the last one first: what an insert put in is removed, what a remove took is inserted. */
static void undo(struct drawn *d, size_t edits) {
    const size_t count = list_count(d->list);
    for (size_t i = 0; i < edits && i < count; i++) {
        const uint8_t *edit = d->list->bytes + EDIT * (count - 1 - i);
        add_edit(d, edit[2] == GAV_INSERT ? GAV_REMOVE : GAV_INSERT, record_of(edit));
    }
}

/* Another position, or another velocity. */
static void replace(struct drawn *d, const uint8_t *record, uint32_t position, uint8_t velocity) {
    uint8_t other[RECORD];
    put_record(other, position, record[6], record[7], record[6] == RESET ? 0 : velocity);
    if (add_edit(d, GAV_REMOVE, record)) add_edit(d, GAV_INSERT, other);
}

/* A record inserted, or one like another; removed; moved, with another velocity, or put last among those at its
 * position; the edits before undone; or one inserted that is there, and removed. */
static void draw_edit(struct drawn *d) {
    uint8_t record[RECORD], other[RECORD];
    uint64_t how = below(d->c, 12);
    random_record(d->c, d->n, one_in(d->c, 16), record);
    memcpy(other, d->now->len > 0 ? any_record(d) : record, RECORD);
    if (how < 3 || d->now->len == 0) {
        add_edit(d, GAV_INSERT, record);
    } else if (how < 6) {
        vary(d->c, other);
        add_edit(d, GAV_INSERT, other);
    } else if (how < 8) {
        add_edit(d, GAV_REMOVE, other);
    } else if (how < 11) {
        bool is_moved = how == 8, is_other = how == 9;
        replace(d, other, record_position(is_moved ? record : other), is_other ? record[8] : other[8]);
    } else if (one_in(d->c, 2)) {
        undo(d, 1 + below(d->c, 2));
    } else if (add_edit(d, GAV_INSERT, other)) {
        add_edit(d, GAV_REMOVE, other);
    }
}

static void draw_late(struct drawn *d) {
    uint8_t record[RECORD];
    random_record(d->c, d->n, true, record);
    add_edit(d, GAV_INSERT, record);
}

/* Another velocity in the score's first half, so that the states are often soon as they were. */
static void draw_quiet(struct drawn *d) {
    uint8_t record[RECORD], other[RECORD];
    if (d->now->len == 0) return;
    memcpy(record, d->now->bytes + RECORD * below(d->c, score_count(d->now) / 2 + 1), RECORD);
    memcpy(other, record, RECORD);
    change_velocity(d->c, other);
    replace(d, record, record_position(record), other[8]);
}

/* One list in ten is undone as far as there is room for that. */
void random_list(struct chance *c, size_t n, const struct score *score, struct list *list, struct score *new_,
                 unsigned *met) {
    struct drawn d = {c, n, score, new_, list, 0};
    const uint64_t kind = below(c, 12);
    const bool is_undone = one_in(c, 10);
    uint64_t edits = one_in(c, 16) ? 0 : 1 + below(c, is_undone ? 4 : MOST_EDITS);
    list->len = 0;
    *new_ = *score;
    for (; edits > 0; edits--) (kind == 0 ? draw_late : kind < 5 ? draw_quiet : draw_edit)(&d);
    if (is_undone) undo(&d, list_count(list));
    *met = d.met;
}

static const unsigned DUE[LIST_FAULTS] = {33, 33, 33, 50, 51, 52, 34, 35};

static void spoil_edit(struct chance *c, uint8_t *edit, enum list_fault fault) {
    static const uint8_t CODES[] = {0, 3, 129, 130, 255}, FILLERS[] = {1, 2, 128, 255}, KINDS[] = {0, 4, 129, 255};
    uint8_t *record = edit + EDIT - RECORD;
    if (fault == EDIT_MARK) edit[below(c, 2)] ^= (uint8_t)(1u << below(c, 8));
    if (fault == EDIT_CODE) edit[2] = PICK(c, CODES);
    if (fault == EDIT_FILLER) edit[3] = PICK(c, FILLERS);
    if (fault == OWN_MARK) record[below(c, 2)] ^= (uint8_t)(1u << below(c, 8));
    if (fault == OWN_KIND) record[6] = PICK(c, KINDS);
    if (fault == OWN_FIELD && one_in(c, 3)) record[9] = PICK(c, FILLERS);
    if (fault == OWN_FIELD && record[9] == 0) record[7 + below(c, 2)] |= record[6] == RESET ? 1 + below(c, 255) : 128;
}

/* A remove of what a score has not: of a record that another score has, or of one like another, or of any. */
static void put_absent(struct chance *c, size_t n, const struct score *old, const struct score *now, uint8_t *edit) {
    uint8_t record[RECORD];
    do {
        random_record(c, n, one_in(c, 8), record);
        const struct score *from = one_in(c, 2) ? old : now;
        if (from->len > 0 && !one_in(c, 4)) memcpy(record, from->bytes + RECORD * below(c, score_count(from)), RECORD);
        if (one_in(c, 2)) vary(c, record);
    } while (count_equal(now, record) > 0);
    put_edit(edit, GAV_REMOVE, record);
}

/* The edit that is to be refused for a fault: where that is what the score holds, it is written anew. */
static void put_faulty(struct chance *c, size_t n, const struct score *old, const struct score *now,
                       enum list_fault fault, uint8_t *edit) {
    uint8_t record[RECORD];
    random_record(c, n, one_in(c, 8), record);
    if (fault == FULL || (fault != NOT_THERE && one_in(c, 2)))
        put_edit(edit, GAV_INSERT, record);
    else if (fault == NOT_THERE || one_in(c, 2))
        put_absent(c, n, old, now, edit);
    if (fault >= NOT_THERE) return;
    spoil_edit(c, edit, fault);
    for (unsigned more = fault + 1; more < NOT_THERE; more++) {
        if (one_in(c, 2)) spoil_edit(c, edit, (enum list_fault)more);
    }
}

/* What follows the edit stays, or is rubbish. */
uint64_t break_list(struct chance *c, size_t n, const struct score *score, struct list *list, enum list_fault *which) {
    static struct score now;
    uint8_t record[RECORD];
    random_record(c, n, false, record);
    if (list->len == 0) put_edit(list->bytes, GAV_REMOVE, record), list->len = EDIT;
    const size_t index = below(c, list_count(list)), end = EDIT * (index + 1);
    now = *score;
    make_edits(list, index, &now);
    const bool is_full = score_count(&now) == MOST_RECORDS;
    *which = is_full && one_in(c, 2) ? FULL : (enum list_fault)below(c, FULL);
    put_faulty(c, n, score, &now, *which, list->bytes + end - EDIT);
    if (one_in(c, 2)) {
        for (size_t at = end; at < list->len; at++) list->bytes[at] = (uint8_t)chance_word(c);
    }
    return says(DUE[*which], index, 0);
}
