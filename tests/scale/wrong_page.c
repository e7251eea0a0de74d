/* Wrong pages: a page of edits that is made here, with re-renders of the library's, and one fault. Without a fault it
 * is right. */
#include "wrong.h"

/* The scores before the edits and after those so far. */
static struct score old, now;

static size_t count_of(const struct lent_page *p) { return p->edits_len / EDIT; }

static const uint8_t *edit_at(const struct lent_page *p, size_t index) { return p->edits + EDIT * index; }

static const uint8_t *record_of(const uint8_t *edit) { return edit + EDIT - RECORD; }

static uint64_t turn(const struct lent_page *p, const struct score *from, const struct score *to) {
    const struct lent_summary *lent = &p->lent;
    return __real_gav_rerender(GAV_SETTINGS_OF(&p->settings), from->bytes, from->len, to->bytes, to->len, lent->out,
                               lent->n, p->shelf, lent->words, lent->magnitudes, lent->magnitudes_len, lent->numbers,
                               lent->numbers_len);
}

/* A list of whole edits, and a lent buffer of 40,960 bytes. */
static bool are_lengths(enum paging how, const struct lent_page *p) {
    const size_t most = p->old_len + RECORD * count_of(p);
    bool is_list = p->edits_len % EDIT == 0 || how == TAIL_LEFT_OUT, is_room = p->space_len == GAV_SCORE_BYTES;
    if (how == ROOM_ENOUGH) is_room = p->space_len >= (most < GAV_SCORE_BYTES ? most : GAV_SCORE_BYTES);
    if (how == MORE_ROOM) is_room = p->space_len >= GAV_SCORE_BYTES;
    return is_list && is_room;
}

/* 6, 7, those of the old score, 36; the first two are those of a re-render without a record. */
static uint64_t judge_call(enum paging how, const struct lent_page *p) {
    static const struct score EMPTY;
    const uint64_t first = turn(p, &EMPTY, &EMPTY), of_old = __real_gav_check_score(p->old, p->old_len);
    const bool fits = are_lengths(how, p);
    if (how == LENGTHS_FIRST && !fits) return 36;
    if (first == 6) return 6;
    if (how == LENGTHS_SECOND && !fits) return 36;
    if (first == 7) return 7;
    if (how == LENGTHS_THIRD && !fits) return 36;
    if (of_old != 0) return of_old;
    return fits || how == LENGTHS_LAST ? 0 : 36;
}

static bool is_framed(enum paging how, const uint8_t *edit) {
    const bool has_mark = edit[0] == 0x45 && (edit[1] == 0x44 || how == MARK_BEGUN);
    const bool has_code = edit[2] == GAV_INSERT || edit[2] == GAV_REMOVE || how == ANY_CODE;
    return has_mark && has_code && (edit[3] == 0 || how == ANY_FILLER);
}

static unsigned own_fault(enum paging how, const uint8_t *record) {
    const unsigned fault = gav_number(__real_gav_check_score(record, RECORD));
    return fault == 0 || how == OWN_NUMBER ? fault : fault + 48;
}

static bool is_equal(enum paging how, const uint8_t *a, const uint8_t *b) {
    const bool is_silent = how == NO_VELOCITIES || (how == NO_OFF_VELOCITIES && a[6] == OFF);
    if (how == BY_POSITION) return record_position(a) == record_position(b);
    if (how == BY_NOTE) return record_position(a) == record_position(b) && a[7] == b[7];
    return memcmp(a, b, is_silent ? 8 : RECORD) == 0;
}

/* The record that a remove takes; the number of records where there is none. */
static size_t found_at(enum paging how, const struct score *score, const uint8_t *record) {
    const size_t count = score_count(score);
    size_t found = count;
    for (size_t i = 0; i < count && (found == count || how == LAST_TAKEN); i++) {
        if (is_equal(how, score->bytes + RECORD * i, record)) found = i;
    }
    return found;
}

static unsigned insert_fault(enum paging how) {
    const size_t count = score_count(how == FULL_BY_OLD ? &old : &now);
    return count >= (size_t)(how == FULL_AT_4095 ? 4095 : how == NEVER_FULL ? 4097 : 4096) ? 35 : 0;
}

static unsigned remove_fault(enum paging how, const uint8_t *record) {
    const struct score *score = how == THERE_BY_OLD ? &old : &now;
    return found_at(how, score, record) == score_count(score) ? 34 : 0;
}

static unsigned held_fault(enum paging how, const uint8_t *edit) {
    return edit[2] == GAV_INSERT ? insert_fault(how) : remove_fault(how, record_of(edit));
}

/* The record that an insert goes before. */
static size_t place_of(enum paging how, const uint8_t *record) {
    const uint64_t position = record_position(record);
    const size_t first = score_below(&now, position), after = score_below(&now, position + 1);
    if (how == AT_THE_END) return score_count(&now);
    if (how == BEFORE_EQUALS) return first;
    if (how == AFTER_ONE) return after > first ? first + 1 : first;
    return how == POSITION_WRAPS ? score_below(&now, (uint32_t)(position + 1)) : after;
}

/* A full score takes no record more; it is told as one of 4,097. */
static void insert(enum paging how, const uint8_t *record) {
    const size_t place = RECORD * place_of(how, record), left = how == BYTE_LEFT && place < now.len;
    uint8_t *at = now.bytes + place;
    if (now.len == sizeof now.bytes) return;
    memmove(at + RECORD + left, at + left, now.len - place - left);
    memcpy(at, record, RECORD);
    now.len += RECORD;
}

static void take_out(enum paging how, const uint8_t *record) {
    const size_t place = RECORD * found_at(how, &now, record);
    uint8_t *at = now.bytes + place;
    if (place == now.len) return;
    now.len -= RECORD;
    memmove(at, at + RECORD, now.len - place - (how == LAST_LEFT && place < now.len ? RECORD : 0));
}

static bool is_falling(const struct lent_page *p, size_t index) {
    return index > 0 &&
           record_position(record_of(edit_at(p, index))) < record_position(record_of(edit_at(p, index - 1)));
}

/* An edit made, or its fault. */
static unsigned make_one(enum paging how, const struct lent_page *p, size_t index) {
    const uint8_t *edit = edit_at(p, index), *record = record_of(edit);
    const unsigned own = own_fault(how, record), held = held_fault(how, edit);
    if (how == RECORD_FIRST && own != 0) return own;
    if (!is_framed(how, edit)) return 33;
    if (how == HELD_FIRST && held != 0) return held;
    if (own != 0) return own;
    if (how == IN_ORDER && is_falling(p, index)) return 53;
    if (held != 0) return held;
    (edit[2] == GAV_INSERT ? insert : take_out)(how, record);
    return 0;
}

/* Whether an edit and the one after it undo each other and are both passed over. */
static bool is_cancelled(enum paging how, const struct lent_page *p, size_t index) {
    const uint8_t *edit = edit_at(p, index), *next = edit + EDIT;
    if (index + 1 >= count_of(p) || edit[2] != (how == CANCELLED ? GAV_INSERT : GAV_REMOVE)) return false;
    const bool are_both = is_framed(how, edit) && is_framed(how, next) && edit[2] + next[2] == GAV_INSERT + GAV_REMOVE;
    return are_both && own_fault(how, record_of(edit)) == 0 && held_fault(how, edit) == 0 &&
           memcmp(record_of(edit), record_of(next), RECORD) == 0;
}

/* Of all edits, what can be told before any is made. */
static uint64_t judge_list(enum paging how, const struct lent_page *p) {
    for (size_t i = 0; i < count_of(p); i++) {
        const unsigned own = how == RECORDS_BEFORE ? own_fault(how, record_of(edit_at(p, i))) : 0;
        if (!is_framed(how, edit_at(p, i))) return says(33, i, 0);
        if (own != 0) return says(own, i, 0);
    }
    return 0;
}

static uint64_t told(enum paging how, unsigned fault, size_t index) {
    const bool is_own = fault >= 50;
    if (how == PLACE_ZERO || (how == OWN_PLACE && is_own)) return says(fault, 0, 0);
    return says(fault, how == PLACE_FROM_ONE ? index + 1 : index, 0);
}

static uint64_t make_all(enum paging how, const struct lent_page *p) {
    uint64_t last = how == FRAMES_BEFORE || how == RECORDS_BEFORE ? judge_list(how, p) : 0;
    for (size_t i = 0; i < count_of(p) && last == 0; i++) {
        const bool is_passed = (how == CANCELLED || how == CANCELLED_BACK) && is_cancelled(how, p, i);
        const unsigned fault = is_passed ? 0 : make_one(how, p, i);
        i += is_passed;
        if (fault != 0 && how != PASSED_OVER) last = told(how, fault, i);
        for (; how == LAST_TOLD && last != 0 && i + 1 < count_of(p); i++) {
            const unsigned next = make_one(how, p, i + 1);
            if (next != 0) last = told(how, next, i + 1);
        }
    }
    return last;
}

/* The same, lent elsewhere. */
static struct lent_page aside(const struct lent_page *p) {
    static double out[LONGEST], magnitudes[MOST_ENTRIES + 1];
    static uint64_t shelf[(MOST_ENTRIES + 1) * GAV_STATE_WORDS], numbers[MOST_ENTRIES + 1];
    struct lent_page other = *p;
    keep(shelf, p->shelf, p->lent.words * sizeof *shelf);
    other.shelf = shelf;
    other.lent.out = out, other.lent.magnitudes = magnitudes, other.lent.numbers = numbers;
    return other;
}

/* A re-render for each edit, and the sum of their counts, or the last one's. */
static uint64_t turn_each(enum paging how, const struct lent_page *p) {
    static struct score from, to;
    uint64_t count = 0;
    to = old;
    for (size_t i = 0; i < count_of(p); i++) {
        from = to;
        make_edit(edit_at(p, i), &to);
        const uint64_t said = turn(p, &from, &to);
        if (gav_number(said) != 0) return said;
        count = (how == COUNT_OF_LAST ? 0 : count) + gav_count(said);
    }
    return says(0, 0, count);
}

static uint64_t render(const struct lent_page *p) {
    const struct lent_summary *lent = &p->lent;
    return __real_gav_render(GAV_SETTINGS_OF(&p->settings), now.bytes, now.len, lent->out, lent->n, p->shelf,
                             lent->words, lent->magnitudes, lent->magnitudes_len, lent->numbers, lent->numbers_len);
}

static uint64_t play(enum paging how, const struct lent_page *p) {
    const struct lent_page other = aside(p);
    uint64_t said, each;
    switch (how) {
    case OLD_PLAYED:
        return turn(p, &old, &old);
    case EXCHANGED:
        return turn(p, &now, &old);
    case FROM_NOTHING:
        said = turn(&other, &old, &now);
        return gav_number(said) == 0 && gav_count(said) > 0 ? render(p) : said;
    case EACH_PLAYED:
        said = turn(&other, &old, &now), each = turn_each(how, p);
        return gav_number(each) != 0 ? each : said;
    case COUNTS_SUMMED:
    case COUNT_OF_LAST:
        each = turn_each(how, &other), said = turn(p, &old, &now);
        return gav_number(said) != 0 ? said : says(0, 0, gav_count(each));
    default:
        return turn(p, &old, &now);
    }
}

static void put_score(enum paging how, const struct lent_page *p) {
    if (p->space_len < now.len) return;
    keep(p->space, now.bytes, now.len);
    if (how == ALL_WRITTEN) memset(p->space + now.len, 0, p->space_len - now.len);
    if (how == BYTE_MORE && now.len < p->space_len) p->space[now.len] = 0;
}

static bool is_unwritten(enum paging how, uint64_t said) {
    const bool is_same = old.len == now.len && memcmp(old.bytes, now.bytes, now.len) == 0;
    return (how == SAME_UNWRITTEN && is_same) || (how == IDLE_UNWRITTEN && gav_count(said) == 0);
}

/* Whether an entry is told that nothing is started from. */
static bool is_misread(enum paging how, const struct lent_page *p) {
    struct voice voice;
    const bool is_idle = first_change(old.bytes, old.len, now.bytes, now.len) >= p->lent.n;
    return how == IDLE_READS && is_idle && p->lent.n > 0 && !voice_read(&voice, p->shelf);
}

static uint64_t leave(enum paging how, const struct lent_page *p) {
    if (how == WRITTEN_BEFORE) put_score(how, p);
    if (is_misread(how, p)) return 8;
    const uint64_t said = play(how, p);
    if (gav_number(said) != 0 && !(how == START_TAKEN && said == 8)) return said;
    if (!is_unwritten(how, said)) put_score(how, p);
    const size_t length = how == IN_RECORDS ? score_count(&now) : how == OLD_LENGTH ? old.len : now.len;
    return says(0, how == NO_LENGTH ? 0 : length, gav_count(said));
}

uint64_t wrong_page(enum paging how, const struct lent_page *p) {
    const uint64_t refused = judge_call(how, p);
    if (refused != 0) return refused;
    old = (struct score){.len = p->old_len};
    keep(old.bytes, p->old, p->old_len);
    now = old;
    const uint64_t said = make_all(how, p);
    if (how == MADE_IN_PLACE) put_score(how, p);
    if (said != 0) return said;
    return how == LENGTHS_LAST && !are_lengths(how, p) ? 36 : leave(how, p);
}
