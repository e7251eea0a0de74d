/* What an answer says, in words: this file of the library is plain C, and not proved. A host prints the words after
 * "refused NUMBER at place PLACE: ", and before what it can tell of the record, the settings or the files. */
#include "gavberin.h"

/* The words for a score's faults are shared by the old or only score, the new one and an edit's record. */
#define LENGTH "'s length is no multiple of 10 bytes, or above 4,096 records"
#define MARK " does not begin with the mark 56 4E (hex)"
#define KIND " is of a kind that is not 1 (on), 2 (off) or 3 (reset)"
#define FIELD " has a field out of range, or a last byte that is not 0"
#define ORDER " has a position below that of the record before it"
#define RECORD "a record"
#define NEW_RECORD "a record of the new score"
#define EDIT_RECORD "the record of an edit"

static const struct {
    unsigned number;
    const char *words;
} sayings[] = {
    {GAV_DONE, "done"},
    {GAV_SCORE_LENGTH, "the score" LENGTH},
    {GAV_SCORE_MARK, RECORD MARK},
    {GAV_SCORE_KIND, RECORD KIND},
    {GAV_SCORE_FIELD, RECORD FIELD},
    {GAV_SCORE_ORDER, RECORD ORDER},
    {GAV_SETTING,
     "the rate, a waveform, a pulse's duty, an envelope setting, the tremolo's frequency or depth, or the choice of "
     "struck or joined notes is outside its limits"},
    {GAV_SIZE, "too many samples, a shelf or a summary of the wrong size, or too little room for a listing"},
    {GAV_START_ENTRY, "the shelf's entry to start from is no state, or has acted on another number of records than the "
                      "new score has before it"},
    {GAV_ARGUMENT, "an argument is outside its limits"},
    {GAV_GIVEN_STATE, "the words to continue from are no state, or a state that has acted on another number of records "
                      "than the score has "
                      "before its position"},
    {GAV_NEW_SCORE_LENGTH, "the new score" LENGTH},
    {GAV_NEW_SCORE_MARK, NEW_RECORD MARK},
    {GAV_NEW_SCORE_KIND, NEW_RECORD KIND},
    {GAV_NEW_SCORE_FIELD, NEW_RECORD FIELD},
    {GAV_NEW_SCORE_ORDER, NEW_RECORD ORDER},
    {GAV_EDIT_FRAME, "an edit does not begin with the mark 45 44 (hex), 1 (insert) or 2 (remove), and a byte 0"},
    {GAV_EDIT_NOT_THERE, "an edit removes a record that the score does not have"},
    {GAV_EDIT_FULL, "an edit inserts a record into a score that has 4,096 already"},
    {GAV_EDIT_SIZE, "the list of edits is no multiple of 14 bytes, or the room for the new score is not 40,960 bytes"},
    {GAV_EDIT_RECORD_MARK, EDIT_RECORD MARK},
    {GAV_EDIT_RECORD_KIND, EDIT_RECORD KIND},
    {GAV_EDIT_RECORD_FIELD, EDIT_RECORD FIELD},
};

const char *gav_words(uint64_t answer) {
    for (size_t i = 0; i < sizeof sayings / sizeof *sayings; i++) {
        if (sayings[i].number == gav_number(answer)) return sayings[i].words;
    }
    return "a number that no call of this library gives";
}
