/* The library at scale: what its files share. Each round has random settings, a length and a score; every call of
 * gavberin.h is made of the library and of the reference voice, on copies of the same buffers, and what they write is
 * compared with each other, bit by bit, and with what the judge makes of the score: the original, or, where it is not
 * here, the reference voice sample by sample. */
#ifndef SCALE_H
#define SCALE_H

#include "chance.h"
#include "original.h"

#define LONGEST 24577 /* the most samples of a round's output */
#define MOST_ENTRIES 7
#define COUNT_OF(array) (sizeof(array) / sizeof *(array))

/* scores.c: a score as a round holds it, with room for one record too many. */
struct score {
    size_t len;
    uint8_t bytes[RECORD * (MOST_RECORDS + 1)];
};

size_t score_count(const struct score *score);
uint32_t score_position(const struct score *score, size_t index);
size_t score_below(const struct score *score, uint64_t position); /* how many records are */
void random_score(struct chance *c, size_t n, struct score *score);
/* No key; or high keys, struck hard, whose peaks are above 1 under loud_settings. */
void silent_score(struct chance *c, size_t n, struct score *score);
void loud_score(struct chance *c, size_t n, struct score *score);
/* Keys one after the other, so that the states after an edit are soon as they were. */
void plain_score(struct chance *c, size_t n, struct score *score);
void edit_score(struct chance *c, size_t n, struct score *score);
/* Up to three changes at once, after most of which the states may be as they were. */
void change_score(struct chance *c, size_t n, struct score *score);
/* A key struck at a position, among the others there; a full score stays as it is. */
void strike(struct chance *c, struct score *score, uint64_t position);
/* One fault, and the answer that it is due. */
uint64_t break_score(struct chance *c, struct score *score);
/* Some bytes changed, whatever comes of it. */
void damage_score(struct chance *c, struct score *score);
/* So many records, at most 4,096. */
void long_score(struct chance *c, size_t n, size_t count, struct score *score);
/* Any record that a score may have; a late one is at the end of the output or past it. */
void random_record(struct chance *c, size_t n, bool is_late, uint8_t *record);
/* Another velocity, which is not heard in an off, and with which an on stays one. */
void change_velocity(struct chance *c, uint8_t *record);
/* 02's two edits: the record after all those at its position or lower; the first equal one taken out, or false. */
void insert_record(struct score *score, const uint8_t *record);
bool remove_record(struct score *score, const uint8_t *record);

/* lists.c: a list of edits, with room for some bytes more. */
#define MOST_EDITS 12
struct list {
    size_t len;
    uint8_t bytes[EDIT * (MOST_EDITS + 1)];
};

/* What a list met in the scores between its edits, in bits. */
enum meeting {
    AMONG_OTHERS = 1,    /* a record inserted where others are at its position */
    BEFORE_OTHERS = 2,   /* one inserted below the last */
    AT_HIGHEST = 4,      /* one inserted at the highest position, where there are others */
    FIRST_OF_EQUALS = 8, /* one removed that has an equal behind other records */
    NOT_OF_OLD = 16,     /* one removed that the old score has not */
    TO_FULL = 32,        /* an insert that makes 4,096 records */
    FROM_FULL = 64,      /* an insert into an old score of 4,096, after a remove */
    MEETINGS = 7
};

/* Up to twelve edits that are all made, and none now and then; new_ is afterwards what they make of the score. */
void random_list(struct chance *c, size_t n, const struct score *score, struct list *list, struct score *new_,
                 unsigned *met);
/* An edit made that can be; and some edits of a list. */
void make_edit(const uint8_t *edit, struct score *score);
void make_edits(const struct list *list, size_t count, struct score *score);

enum list_fault { EDIT_MARK, EDIT_CODE, EDIT_FILLER, OWN_MARK, OWN_KIND, OWN_FIELD, NOT_THERE, FULL, LIST_FAULTS };
/* One fault, or some in one edit, and the answer that the list is due, whatever comes behind; which one decides. */
uint64_t break_list(struct chance *c, size_t n, const struct score *score, struct list *list, enum list_fault *which);

/* given.c: settings and states, within their limits and outside. */
struct gav_settings random_settings(struct chance *c);
struct gav_settings loud_settings(struct chance *c);
struct gav_settings bad_settings(struct chance *c, struct gav_settings settings);
void move_state(struct chance *c, uint64_t *state);   /* another state, which no score may reach */
void move_keys(struct chance *c, uint64_t *state);    /* the same with other keys alone */
void doctor_state(struct chance *c, uint64_t *state); /* none, or with another number of records acted */
double odd_unit(struct chance *c);                    /* no number from 0 to 1 */
double random_duty(struct chance *c);

/* lent.c: what is lent to a call, each buffer between guards, with its length in bytes. A float is held as its bits. */
enum lent { OLD, NEW, OUT, SHELF, STATE, MAGNITUDES, NUMBERS, TEXT, EDITS, ROOM, BUFFERS };

struct buffers {
    uint8_t *room[BUFFERS];
    size_t len[BUFFERS];
    bool has_nulls; /* whether the pointer to an empty one is null */
};

void make_buffers(struct buffers *b);
void *inside(const struct buffers *b, enum lent which);
void *address(const struct buffers *b, enum lent which); /* for a call */
uint64_t *words_of(const struct buffers *b, enum lent which);
void lend(struct buffers *b, enum lent which, const void *from, size_t len);
void lend_score(struct buffers *b, enum lent which, const struct score *score);
void set_length(struct buffers *b, enum lent which, size_t len);               /* of whatever it holds */
void resize(struct chance *c, struct buffers *b, enum lent which, size_t len); /* all of it rubbish */
void rubbish(struct chance *c, uint64_t *words, size_t count);
void copy_buffers(struct buffers *to, const struct buffers *from);

/* Re-renders: stopped before the end, gone to the end past an entry, gone to it past none, and without a sample; of all
 * of them those over rubbish. Of the stopped, those that passed an entry for its state alone, and those that passed one
 * for the scores alone. */
struct stops {
    uint64_t stopped, ended, last, idle, spoilt, by_state, by_scores;
};

/* Pages of edits: those that were made, and how many edits they have; without an edit; whose edits undo each other;
 * without a change, over an entry 0 that is no state; whose first change is late; whose edits one at a time count
 * otherwise; of each meeting. Lists refused for an edit, for their length, the room's, the entry. */
struct pages {
    uint64_t made, edits, empty, undone, unread, late, others, met[MEETINGS];
    uint64_t faults[LIST_FAULTS], lengths, rooms, starts;
};

/* A round, and what was compared in all of them. */
struct tally {
    uint64_t calls, refused, samples, words, kept;
    uint64_t peaks, silent, above; /* sections whose peaks were compared; those without a sound, and those above 1 */
    struct stops rerenders, turns; /* turns: the re-renders of pages */
    struct pages pages;
};

struct heard {
    double samples[LONGEST], scales[LONGEST];
    uint64_t shelf[MOST_ENTRIES * GAV_STATE_WORDS], state[GAV_STATE_WORDS];
};

struct round {
    uint64_t seed, number;
    struct chance chance;
    struct gav_settings settings;
    size_t n;
    struct score score;
    struct heard heard;                   /* the judge's render of the score */
    struct buffers lent, expected, twins; /* twins: what the reference is lent */
    struct tally *tally;
    char what[120]; /* what is done now, for who reads of a difference */
};

/* judge.c: samples from a state at a position on, by the original or by the reference voice; shelf may be null. */
void judge_play(const struct gav_settings *settings, const struct score *score, uint64_t *state, uint64_t position,
                double *out, double *scales, size_t n, uint64_t *shelf);
/* A score from sample zero. */
void judge_hear(struct round *r, const struct score *score, struct heard *heard);
/* Whether a sample is the judge's; where a sine is heard the original's is another one and only near. */
bool is_judged(const struct round *r, double ours, double judged, double scale);
/* The peaks of the sections that samples from one on fill, of n in all, worked out from the samples alone. */
void judge_peaks(const double *samples, size_t from, size_t n, double *magnitudes, uint64_t *numbers);
/* Whether two entries are one state, but for the records acted. */
bool is_same_state(const uint64_t *entry, const uint64_t *other);
/* The first position from which on two scores have the same records. */
uint64_t same_after(const struct score *old, const struct score *new_);
/* The section at which a re-render from one on stops, or how many there are: by the scores, by the entries as they
 * came, and by those that the new score is due. */
size_t judge_stop(const struct score *old, const struct score *new_, const uint64_t *came, const uint64_t *due,
                  size_t start, size_t sections);

/* calls.c: one call, of the library and of the reference. */
enum which { CHECK, LIST, FRESH, RENDER, RERENDER, EDIT_PAGE, CONTINUE };

struct call {
    enum which which;
    struct gav_settings settings;
    uint64_t position; /* of a part, which is so many samples of the output from one on */
    size_t from, samples;
    size_t words; /* of a state */
};

/* What a call wrote of the output: the judge's scales of the samples from one on. */
struct written {
    size_t from, samples;
    const double *scales;
};

void differ(const struct round *r, const char *format, ...);
/* All that is lent, guards too. */
void same_buffers(const struct round *r, const char *who, const struct buffers *ours, const struct buffers *due);
/* A call that is done: r->lent is lent, and r->expected is what it must hold afterwards. */
void call_done(struct round *r, const struct call *call, uint64_t answer, struct written written);
/* A call that is refused, and changes nothing. */
void call_refused(struct round *r, const struct call *call, uint64_t answer);
/* A call of which only the reference knows the answer, and what it writes. */
void call_same(struct round *r, const struct call *call);
/* One sample of a waveform. */
void sample_same(struct round *r, uint32_t code, double phase, double dt, double duty);

/* rounds.c, edits.c, pages.c and refusals.c: the parts of a round. */
void run_round(struct round *r);
void lend_output(struct round *r); /* of the round's score: rubbish, of the right lengths */
void run_render(struct round *r);  /* of the round's score */
void run_edits(struct round *r);
void run_pages(struct round *r);
void run_refusals(struct round *r);

/* edits.c: the section that a re-render with a new score starts at, or how many there are where it writes nothing. */
size_t start_of(const struct round *r, const struct score *new_);
/* Samples and peaks of the sections from one to another are rubbish. */
void spoil_sound(struct round *r, size_t from, size_t to);
/* What lies before the section that a re-render starts at, and behind its entry, is rubbish in half of the cases; true
 * in the other half. */
bool spoil_some(struct round *r, struct stops *stops, size_t start, const struct heard *due);
/* What a re-render from the round's score to another one leaves and writes, over what is lent, with the render that the
 * new score is due. It stops by the entries that came. */
struct written expect_rerender(struct round *r, struct stops *stops, const struct score *new_, const struct heard *due,
                               const uint64_t *came);
/* That re-render, made. The count. */
size_t rerender(struct round *r, const struct score *new_, const struct heard *due, const uint64_t *came);
/* What is lent is a render of a score from zero, and its summary that of the samples. */
void same_render(const struct round *r, const struct heard *due);

/* stops.c: re-renders whose count is known beforehand; and two of the longest output, of the library alone. */
void run_stops(struct round *r);
void run_longest(struct round *r);

#endif
