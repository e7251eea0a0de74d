/* A page of edits, 02's "A page of edits at once": each edit is judged whole and made on the score that the edits
 * before it leave, then one re-render follows. */
#include "voice.h"

/* The records between two edits. */
struct page {
    size_t count;
    uint8_t records[MOST_RECORDS][RECORD];
};

/* "each a two-byte mark 45 44 (hex), one byte (1 insert, 2 remove), a zero byte and a score record" */
static bool is_framed(const uint8_t *edit) {
    bool has_mark = edit[0] == 0x45 && edit[1] == 0x44, has_code = edit[2] == GAV_INSERT || edit[2] == GAV_REMOVE;
    return has_mark && has_code && edit[3] == 0;
}

static bool is_above(const uint8_t *record, const uint8_t *other) {
    return record_position(record) > record_position(other);
}

/* "Insert puts the record after all those at its position or lower": those above it make room, the last one first. */
static void insert(struct page *page, const uint8_t *record) {
    size_t at = page->count++;
    for (; at > 0 && is_above(page->records[at - 1], record); at--) {
        memcpy(page->records[at], page->records[at - 1], RECORD);
    }
    memcpy(page->records[at], record, RECORD);
}

/* "remove takes the first equal record": all ten bytes are. False where there is none. */
static bool take_out(struct page *page, const uint8_t *record) {
    size_t at = 0;
    while (at < page->count && memcmp(page->records[at], record, RECORD) != 0) at++;
    if (at == page->count) return false;
    for (page->count--; at < page->count; at++) memcpy(page->records[at], page->records[at + 1], RECORD);
    return true;
}

/* "33 bad mark, code or filler, the record's own 2, 3, 4 plus 48, 34 when nothing equal is there at a remove, 35 when
 * 4,096 are held at an insert"; 0 for an edit that is made. A record alone is a score that falls nowhere. */
static unsigned make_edit(struct page *page, const uint8_t *edit) {
    const uint8_t *record = edit + EDIT - RECORD;
    if (!is_framed(edit)) return 33;
    unsigned own = gav_number(reference_check_score(record, RECORD));
    if (own) return own + 48;
    if (edit[2] == GAV_REMOVE) return take_out(page, record) ? 0 : 34;
    if (page->count == MOST_RECORDS) return 35;
    insert(page, record);
    return 0;
}

/* "per edit in list order, with its index as place", of which a word has the lower 24 bits; the first refusal ends it.
 */
static uint64_t make_edits(struct page *page, const uint8_t *edits, size_t count) {
    for (size_t i = 0; i < count; i++) {
        unsigned fault = make_edit(page, edits + EDIT * i);
        if (fault) return says(fault, i % 16777216, 0);
    }
    return 0;
}

/* "Refusals, in this order: 01's 6, 7 and the old score's", which are those of a re-render that changes nothing; "36
 * when the list is no multiple of 14 bytes or the lent buffer is not 40,960 bytes"; those of the edits; "then 8. The
 * whole list is refused." Else "the new score goes to the front of a lent buffer, the rest of which stays, its length
 * is returned". */
uint64_t reference_edit(const struct gav_settings *s, const uint8_t *old, size_t old_len, const uint8_t *edits,
                        size_t edits_len, double *out, size_t n, uint64_t *shelf, size_t words, double *magnitudes,
                        size_t magnitudes_len, uint64_t *numbers, size_t numbers_len, uint8_t *new_score,
                        size_t new_score_len) {
    static struct page page;
    uint64_t said = reference_rerender(s, old, old_len, old, old_len, out, n, shelf, words, magnitudes, magnitudes_len,
                                       numbers, numbers_len);
    if (said) return said;
    if (edits_len % EDIT != 0 || new_score_len != GAV_SCORE_BYTES) return says(36, 0, 0);
    page.count = old_len / RECORD;
    if (old_len > 0) memcpy(page.records, old, old_len);
    said = make_edits(&page, edits, edits_len / EDIT);
    if (said) return said;
    size_t len = RECORD * page.count;
    said = reference_rerender(s, old, old_len, page.records[0], len, out, n, shelf, words, magnitudes, magnitudes_len,
                              numbers, numbers_len);
    if (gav_number(said) != 0) return said;
    memcpy(new_score, page.records, len);
    return says(0, len, gav_count(said));
}
