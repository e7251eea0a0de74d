/* A score from the text that the lister prints: `records N`, then a line for each record. */
#include "desk.h"

#include <string.h>

/* Where the reading is, and what the head said. */
struct reading {
    struct lines lines;
    size_t head_line;
    uint64_t head_count;
    size_t line_of[MOST_RECORDS];
};

static bool take_record(struct reading *reading, const struct word *words, size_t count, struct score *score,
                        struct why *why) {
    uint8_t bytes[RECORD_BYTES];
    size_t record = score->len / RECORD_BYTES;
    if (!record_of_words(words, count, bytes, why)) return false;
    if (record == MOST_RECORDS) return refuse(why, "a score has at most %u records", MOST_RECORDS);
    reading->line_of[record] = reading->lines.line;
    memcpy(score->at + score->len, bytes, RECORD_BYTES);
    score->len += RECORD_BYTES;
    return true;
}

/* The line `records N`, which comes before every record. */
static bool take_head(struct reading *reading, struct word count, const struct score *score, struct why *why) {
    if (reading->head_line || score->len) return refuse(why, "`records` is given once, before every record");
    reading->head_line = reading->lines.line;
    return whole_number(count, "the number of records", "", MOST_RECORDS, &reading->head_count, why);
}

static bool take_line(struct reading *reading, struct score *score, struct why *why) {
    struct word words[MOST_WORDS];
    size_t count = next_line(&reading->lines, words);
    if (count == 0) return true;
    if (count == 2 && is_word(words[0], "records")) return take_head(reading, words[1], score, why);
    if (is_record(words, count)) return take_record(reading, words, count, score, why);
    return refuse(why, "it is not of the form " RECORD_FORM);
}

/* What is wrong with the records together: the library's answer, at the line of the record. */
static bool judge(const struct reading *reading, const struct score *score, struct why *why) {
    size_t records = score->len / RECORD_BYTES;
    if (reading->head_line && reading->head_count != records) {
        size_t said = (size_t)reading->head_count;
        refuse(why, "it says %zu %s, and there %s %zu", said, counted(said, "record", "records"),
               counted(records, "is", "are"), records);
        return preface(why, "line %zu: ", reading->head_line);
    }
    if (check_score(NULL, score, why)) return true;
    size_t place = gav_place(gav_check_score(score->at, score->len));
    return place < records ? preface(why, "line %zu: ", reading->line_of[place]) : false;
}

bool score_of_text(const uint8_t *text, size_t len, struct score *score, struct why *why) {
    struct reading reading = {.head_line = 0};
    score->len = 0;
    if (!lines_of(text, len, &reading.lines, why)) return false;
    while (reading.lines.at < reading.lines.end) {
        if (!take_line(&reading, score, why)) return preface(why, "line %zu: ", reading.lines.line);
    }
    return judge(&reading, score, why);
}
