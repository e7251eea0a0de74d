/* What the library says, in words: one function for a range of numbers, with what is wrong at the answer's place. */
#include "desk.h"

#include <string.h>

/* How many bytes of a score are looked at to recognise a text. */
#define TEXT_SEEN 32u

/* A refusal, its number counted from the first of its range. */
struct refusal {
    uint64_t said;
    unsigned number;
    size_t place;
    const struct asked *asked;
};

/* Whether the file begins like the text that scores are made from. */
static bool is_text(const struct score *score) {
    if (score->len == 0 || memcmp(score->at, "VN", score->len < 2 ? 1 : 2) == 0) return false;
    for (size_t i = 0; i < score->len && i < TEXT_SEEN; i++) {
        uint8_t byte = score->at[i];
        if ((byte < ' ' || byte > '~') && byte != '\n' && byte != '\r' && byte != '\t') return false;
    }
    return true;
}

static bool length_words(const struct score *score, struct why *why) {
    if (score->len > MOST_SCORE) {
        return refuse(why, "it is longer than %u records (%u bytes)", MOST_RECORDS, MOST_SCORE);
    }
    return refuse(why, "%zu %s no whole number of records of %u bytes", score->len,
                  counted(score->len, "byte is", "bytes are"), RECORD_BYTES);
}

static bool field_words(const uint8_t *record, struct why *why) {
    if (record[6] == 3 && (record[7] != 0 || record[8] != 0)) {
        return refuse(why, "a reset has note 0 and velocity 0, and this one has %u and %u", record[7], record[8]);
    }
    if (record[7] > 127) return refuse(why, "its note, %u, is above 127", record[7]);
    if (record[8] > 127) return refuse(why, "its velocity, %u, is above 127", record[8]);
    return refuse(why, "its last byte is %u, and not 0", record[9]);
}

/* What is wrong with a record by itself: the second to the fourth of a score's five numbers. */
static bool record_words(unsigned number, const uint8_t *record, struct why *why) {
    switch (number) {
    case 1:
        return refuse(why, "it begins with the bytes %02X %02X (hex), and not with the mark 56 4E", record[0],
                      record[1]);
    case 2:
        return refuse(why, "its kind is %u, and not 1 (on), 2 (off) or 3 (reset)", record[6]);
    default:
        return field_words(record, why);
    }
}

static bool order_words(const struct score *score, size_t place, struct why *why) {
    return refuse(why, "its position, sample %u, is below that of the record before it, sample %u",
                  position_of(score, place), position_of(score, place - 1));
}

/* The five numbers of a score. */
static void score_words(const struct refusal *r, const struct score *score, struct why *why) {
    size_t place = r->place, first = RECORD_BYTES * place;
    if (score && r->number == 0) {
        length_words(score, why);
    } else if (score && first + RECORD_BYTES <= score->len && (r->number < 4 || place > 0)) {
        r->number < 4 ? record_words(r->number, score->at + first, why) : order_words(score, place, why);
        preface(why, "record %zu, bytes %zu to %zu: ", place, first, first + RECORD_BYTES - 1);
    } else {
        refuse(why, "%s", gav_words(r->said));
    }
    if (score && r->number <= 1 && is_text(score)) preface(why, "it looks like a text, and needs `desk make` first: ");
}

static const char *old_score_words(const struct refusal *r, struct why *why) {
    score_words(r, r->asked->old_score, why);
    return r->asked->old_path;
}

static const char *new_score_words(const struct refusal *r, struct why *why) {
    score_words(r, r->asked->new_score, why);
    return r->asked->new_path;
}

/* Which setting the library refused. */
static const char *setting_words(const struct refusal *r, struct why *why) {
    const struct gav_settings *s = r->asked->settings;
    if (!s || !find_wrong_setting(s, why)) refuse(why, "%s", gav_words(r->said));
    return r->asked->shelf_path;
}

static const char *size_words(const struct refusal *r, struct why *why) {
    const struct gav_settings *s = r->asked->settings;
    if (s && r->asked->samples > GAV_MOST_SAMPLES) {
        refuse(why, "the sound is longer than %d samples (%.3f s at %u Hz)", GAV_MOST_SAMPLES,
               (double)GAV_MOST_SAMPLES / s->rate, s->rate);
    } else {
        refuse(why, "%s", gav_words(r->said));
    }
    return r->asked->shelf_path;
}

static const char *entry_words(const struct refusal *r, struct why *why) {
    refuse(why, "%s", gav_words(r->said));
    return r->asked->shelf_path;
}

/* The record of the edit at the place; NULL where the list has none there. */
static const uint8_t *record_of_edit(const struct refusal *r) {
    const struct bytes *edits = r->asked->edits;
    size_t after = GAV_EDIT_BYTES * (r->place + 1);
    return edits && after <= edits->len ? edits->at + after - RECORD_BYTES : NULL;
}

/* An edit is judged on the score that the edits before it leave. */
static const char *left_words(const struct refusal *r) { return r->place > 0 ? " that the edits before it leave" : ""; }

static const char *not_there_words(const struct refusal *r, struct why *why) {
    const uint8_t *record = record_of_edit(r);
    const char *kind = record ? kind_name(record[6]) : NULL;
    if (kind) {
        refuse(why, "%u %s %u %u is no record of the score%s", get_u32(record + 2), kind, record[7], record[8],
               left_words(r));
    }
    return NULL;
}

static const char *full_words(const struct refusal *r, struct why *why) {
    refuse(why, "the score%s has %u records already, and no more are held", left_words(r), MOST_RECORDS);
    return NULL;
}

/* The second to the fourth of a score's numbers, of an edit's record. */
static const char *edit_record_words(const struct refusal *r, struct why *why) {
    const uint8_t *record = record_of_edit(r);
    if (record) record_words(r->number + 1, record, why);
    return NULL;
}

bool is_of_edit(uint64_t said) {
    unsigned number = gav_number(said);
    return (number >= GAV_EDIT_FRAME && number <= GAV_EDIT_FULL) ||
           (number >= GAV_EDIT_RECORD_MARK && number <= GAV_EDIT_RECORD_FIELD);
}

/* Which function has words for which numbers; the other numbers get the library's words. */
static const struct range {
    unsigned first, last;
    const char *(*words)(const struct refusal *refusal, struct why *why);
} ranges[] = {
    {.first = 1, .last = 5, .words = old_score_words},   {.first = 6, .last = 6, .words = setting_words},
    {.first = 7, .last = 7, .words = size_words},        {.first = 8, .last = 8, .words = entry_words},
    {.first = 17, .last = 21, .words = new_score_words}, {.first = 34, .last = 34, .words = not_there_words},
    {.first = 35, .last = 35, .words = full_words},      {.first = 50, .last = 52, .words = edit_record_words},
};

bool accepted(uint64_t said, const struct asked *asked, struct why *why) {
    struct refusal refusal = {.said = said, .place = gav_place(said), .asked = asked};
    unsigned number = gav_number(said);
    const char *path = NULL;
    if (number == 0) return true;
    refuse(why, "%s", gav_words(said));
    for (size_t i = 0; i < COUNT_OF(ranges); i++) {
        if (number < ranges[i].first || number > ranges[i].last) continue;
        refusal.number = number - ranges[i].first;
        path = ranges[i].words(&refusal, why);
    }
    preface(why, "refused %u at place %zu: ", number, refusal.place);
    return path ? preface(why, "%s: ", path) : false;
}

bool check_score(const char *path, const struct score *score, struct why *why) {
    struct asked asked = {.old_path = path, .old_score = score};
    return accepted(gav_check_score(score->at, score->len), &asked, why);
}
