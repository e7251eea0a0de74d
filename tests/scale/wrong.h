/* Wrong summaries, wrong stops and wrong pages: a fault each of a render, a re-render or a page that is otherwise
 * right, for wrong.c. */
#ifndef WRONG_H
#define WRONG_H

#include "../settings.h"
#include "scale.h"

enum summary {
    LATER_EQUAL,         /* the last of equal magnitudes, where there is a sound */
    LARGEST_SIGNED,      /* the largest sample, and not the largest magnitude */
    SIGN_KEPT,           /* the magnitude has the sample's sign */
    MINUS_ZERO,          /* a silent section has -0 */
    SILENCE_LAST,        /* a silent section has its last sample's number */
    FROM_ONE,            /* samples are counted from 1 */
    IN_SECTION,          /* samples are counted from their section's start */
    CARRIED,             /* a section's best is that of the section before, where it has none larger */
    STALE,               /* the peaks of the samples as they came */
    LARGER_KEPT,         /* a peak that came stays where it is larger */
    AS_FLOAT,            /* a magnitude is rounded to 24 bits */
    CLAMPED,             /* a magnitude above 1 is 1 */
    WHOLE_ALONE,         /* a short section has none */
    FIRST_ALONE,         /* only the first section that is rendered has one */
    LEFT_ALONE,          /* none is written */
    PAST_THE_END,        /* a number is written for a section that would come after the last */
    REFUSED_WRITES,      /* a refused call writes a number */
    ANY_MAGNITUDES,      /* the magnitudes may be of any number */
    ANY_NUMBERS,         /* the numbers may be of any number */
    MORE_TAKEN,          /* there may be more of both than sections */
    EQUAL_TAKEN,         /* as many magnitudes as numbers will do */
    BEFORE_SETTINGS,     /* their lengths are judged before the settings */
    AFTER_SCORE,         /* their lengths are judged after the only or old score */
    OF_BOTH,             /* how many of these a render has as well as a re-render; the rest are a re-render's */
    FROM_ZERO = OF_BOTH, /* the sections before the start have theirs anew */
    SECTION_BEFORE,      /* the section before the start has its own anew */
    NOTHING_CHANGES,     /* where nothing is rendered all sections have theirs anew */
    SUMMARIES,
    RIGHT = SUMMARIES
};

/* What a render or a re-render is lent: its samples, the words of its shelf, and its summary. */
struct lent_summary {
    double *out;
    size_t n, words;
    double *magnitudes;
    size_t magnitudes_len;
    uint64_t *numbers;
    size_t numbers_len;
};

/* Copies what is lent; of a length of 0 the pointer may be null. */
static inline void keep(void *to, const void *from, size_t bytes) {
    if (bytes > 0) memcpy(to, from, bytes);
}

/* Whether the lengths are right; and whether a wrong library takes them all the same. */
bool is_summary(const struct lent_summary *lent);
bool is_wrongly_taken(enum summary how, const struct lent_summary *lent);
/* Keeps what is lent as it comes, before a call that is done; then spoils what it has left, from one sample to another.
 */
void keep_summary(const struct lent_summary *lent);
void spoil_summary(enum summary how, const struct lent_summary *lent, size_t from, size_t to);

/* In the order in which they are counted. */
enum stopping {
    /* Which entry stops. */
    KEPT_FIRST,                                     /* it is kept before it is compared, and so always equal */
    NEVER_STOPS,                                    /* none */
    LAST_EQUAL,                                     /* the last such entry, not the first */
    ONE_LATER,                                      /* the entry after it */
    NEXT_LEFT_OUT,                                  /* the entry after the start is not compared */
    LAST_LEFT_OUT,                                  /* nor is the shelf's last */
    SCORES_LEFT_OUT,                                /* the scores are not compared */
    NUMBER_ALONE,                                   /* of the records from there on, how many there are is compared */
    POSITIONS_ALONE,                                /* their positions are */
    SILENT_LEFT_OUT,                                /* all but the velocity of an off is */
    PAST_END_LEFT_OUT,                              /* those past the end are not */
    MARK_LEFT_OUT,                                  /* those at the entry's own position are not */
    MARK_AND_BEFORE,                                /* those at the sample before are too */
    LAST_WRAPS,                                     /* the position after the last difference has 32 bits */
    MARK_WRAPS,                                     /* the entry after it has */
    LOWER_OF_TWO,                                   /* at the last difference the lower position counts */
    OLD_ALONE,                                      /* the old score's does */
    NEW_ALONE,                                      /* the new score's does */
    ACTED_COMPARED,                                 /* the records acted are compared */
    ACTED_OF_OLD,                                   /* they must be those of the old score */
    AS_NUMBERS,                                     /* floats are compared as numbers, so that -0 is 0 */
    NO_STATE_STOPS,                                 /* an entry that is no state is taken for equal */
    WORD_LEFT_OUT,                                  /* thirteen: a word is not compared, of word 5 the low 16 bits */
    SAMPLES_LEFT = WORD_LEFT_OUT + GAV_STATE_WORDS, /* the samples of the section before the stop are not written */
    ENTRY_LEFT,                                     /* its entry is not */
    PEAK_LEFT,                                      /* its peak is not */
    SAMPLES_MORE,                                   /* the samples of the section from the stop on are written */
    PEAK_MORE,                                      /* its peak is worked out anew */
    SAMPLES_CLEARED,                                /* the samples from the stop on are 0 */
    PEAKS_CLEARED,                                  /* the peaks are */
    ENTRIES_CLEARED,                                /* the entries are, but for the records acted */
    /* The records acted of the entries from the stop on. */
    NOT_RECOUNTED,
    STOP_ALONE,       /* only the stop's are counted */
    STOP_PASSED,      /* all but the stop's are */
    STOPS_COUNT,      /* all get the stop's */
    BY_DIFFERENCE,    /* the number that came, and the difference of the two scores */
    LOW_LOST,         /* the low 16 bits are 0 */
    STATES_ALONE,     /* only those of states are counted */
    MARK_COUNTED,     /* those at the entry's own position count */
    ALL_COUNTED,      /* all of the score count */
    OLD_COUNTED,      /* the old score's are counted */
    EARLIER_COUNTED,  /* those of the entries before the start are counted too */
    NOTHING_COUNTED,  /* where nothing is rendered all are counted */
    COUNT_TO_END,     /* the call's count is to the end */
    COUNT_FROM_START, /* it is from the output's start */
    STOPPINGS,
    STOPS_RIGHT = STOPPINGS
};

/* What a re-render is given. */
struct lent_edit {
    struct gav_settings settings;
    const uint8_t *old, *new_;
    size_t old_len, new_len;
    uint64_t *shelf;
    struct lent_summary lent;
};

/* What a re-render with a fault leaves, and its answer; the right one's answer is given. */
uint64_t wrong_rerender(enum stopping how, const struct lent_edit *edit, uint64_t answer);
/* The first sample that a re-render with a right answer writes, or the end where it writes nothing. */
size_t first_written(const struct lent_edit *edit, uint64_t answer);

/* In the order in which they are counted. */
enum paging {
    /* Where an insert goes. */
    BEFORE_EQUALS,  /* before those at its position */
    AFTER_ONE,      /* after the first of them */
    AT_THE_END,     /* behind all records */
    POSITION_WRAPS, /* the position after its own has 32 bits */
    /* What a remove takes. */
    LAST_TAKEN,        /* the last equal record */
    BY_POSITION,       /* the first one at its position */
    BY_NOTE,           /* of these the first one of its note */
    NO_VELOCITIES,     /* velocities are not compared */
    NO_OFF_VELOCITIES, /* those of offs are not */
    /* The bytes that are moved, and edits that are not made. */
    BYTE_LEFT,      /* the first byte behind an insert is not moved */
    LAST_LEFT,      /* the last record is not moved at a remove */
    CANCELLED,      /* an insert, and the remove of the same record after it, are passed over */
    CANCELLED_BACK, /* a remove, and the insert of the same record after it, are */
    /* What is told of an edit. */
    MARK_BEGUN,     /* the second byte of its mark is not judged */
    ANY_CODE,       /* its code is not: any but 1 removes */
    ANY_FILLER,     /* its filler is not */
    RECORD_FIRST,   /* the record is judged before the frame */
    HELD_FIRST,     /* what the score holds is judged before the record */
    OWN_NUMBER,     /* the record's number stays as it is */
    OWN_PLACE,      /* and its place */
    IN_ORDER,       /* the positions of edits must not fall */
    THERE_BY_OLD,   /* 34 is of the old score */
    FULL_BY_OLD,    /* 35 is */
    FULL_AT_4095,   /* 35 where 4,095 are held */
    NEVER_FULL,     /* none where 4,096 are */
    FRAMES_BEFORE,  /* all frames are judged before any edit is made */
    RECORDS_BEFORE, /* all records are too */
    PLACE_ZERO,     /* the place is always 0 */
    PLACE_FROM_ONE, /* edits are counted from 1 */
    PASSED_OVER,    /* a refused edit is passed over, and all others are made */
    LAST_TOLD,      /* after a refused edit the others are made, and the last refusal is told */
    /* The lengths of list and buffer. */
    LENGTHS_FIRST,  /* they are judged before the settings */
    LENGTHS_SECOND, /* before the sizes */
    LENGTHS_THIRD,  /* before the old score */
    LENGTHS_LAST,   /* after the edits */
    TAIL_LEFT_OUT,  /* what is left of the list is passed over */
    ROOM_ENOUGH,    /* a buffer that the new score fits in will do */
    MORE_ROOM,      /* a longer one will */
    /* What is written, and told of it. */
    WRITTEN_BEFORE, /* the score is written before the re-render, which may be refused */
    MADE_IN_PLACE,  /* the edits are made in the buffer, so that a refused list leaves them there */
    ALL_WRITTEN,    /* the rest of the buffer is written */
    BYTE_MORE,      /* its next byte is */
    SAME_UNWRITTEN, /* a score that is as it was is not written */
    IDLE_UNWRITTEN, /* where nothing is rendered it is not */
    IN_RECORDS,     /* the length is in records */
    OLD_LENGTH,     /* it is the old score's */
    NO_LENGTH,      /* it is 0 */
    /* The re-render. */
    OLD_PLAYED,    /* it is of the old score */
    EXCHANGED,     /* it is from the new score to the old one */
    FROM_NOTHING,  /* it is a render from sample zero */
    EACH_PLAYED,   /* there is one for each edit */
    COUNTS_SUMMED, /* the count is the sum of those */
    COUNT_OF_LAST, /* it is that of the last one */
    START_TAKEN,   /* 8 is not given */
    IDLE_READS,    /* it is given where nothing is rendered */
    PAGINGS,
    PAGES_RIGHT = PAGINGS
};

/* What a page is given. */
struct lent_page {
    struct gav_settings settings;
    const uint8_t *old, *edits;
    size_t old_len, edits_len;
    uint64_t *shelf;
    struct lent_summary lent;
    uint8_t *space;
    size_t space_len;
};

/* What a page with a fault leaves, and its answer. */
uint64_t wrong_page(enum paging how, const struct lent_page *page);

uint64_t __real_gav_check_score(const uint8_t *score, size_t len);
uint64_t __real_gav_render(SETTINGS, const uint8_t *score, size_t len, double *out, size_t n, uint64_t *shelf,
                           size_t words, SUMMARY);
uint64_t __real_gav_rerender(SETTINGS, const uint8_t *old, size_t old_len, const uint8_t *new_, size_t new_len,
                             double *out, size_t n, uint64_t *shelf, size_t words, SUMMARY);
uint64_t __real_gav_continue(SETTINGS, const uint8_t *score, size_t len, uint64_t *state, size_t state_words,
                             uint64_t position, double *part, size_t n);

#endif
