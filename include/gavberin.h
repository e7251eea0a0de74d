/* Gavberin for C and C++: a proved synthesiser voice with one oscillator, an envelope, held notes and a tremolo. What
 * each call does is stated and proved in crates/ffi; docs/INDEX.md is the index. `make lib` builds build/libgavberin.a
 * and build/libgavberin.so, `make install` puts them where a compiler finds them; examples/ has three hosts. Only
 * gav_words and what is inline below are plain C and not proved.
 *
 * Compile a host with -ffp-contract=off, which keeps its own arithmetic on samples as it is written (on Arm a compiler
 * fuses by default, and other bits come out), and link it with the library and -lm.
 *
 * The answer of a call is one uint64_t: bits 0 to 7 its number, 8 to 31 its place, 32 to 63 its count (gav_number,
 * gav_place and gav_count read them, gav_words has words for it). Number 0, GAV_DONE, is done. A refusal has count 0
 * and changes no buffer. The numbers are those of enum gav_answer below. Where several hold, the first in this order is
 * given: 6, 7, the old or only score, the new score, then 8 or 10; 9 after 6. In a score 1 comes first, then record by
 * record 2, 3, 4, 5. gav_edit says its own order.
 *
 * The caller's duties, which no call can test:
 *  - a pointer leads to as many elements as its length says, and is null only where that length is 0;
 *  - it is aligned to its elements: double and uint64_t to 8 bytes;
 *  - a buffer that is written (one whose pointer is not const) overlaps no other of the same call. Those that are only
 *    read may overlap: the old and the new score of a re-render may be one buffer;
 *  - nothing else writes to a buffer during a call, and nothing else reads one that is written;
 *  - a re-render, or a page of edits, is lent what the last call left, as gav_rerender says below;
 *  - the processor's arithmetic is as C starts it: it rounds to nearest, and keeps numbers near 0 as they are.
 *
 * What a call takes: nothing from the heap, no system call, at most 64 KB of stack (measured: 45 KB, and 9 KB but for a
 * sine, of the oscillator or the LFO, over 1,024 samples or more), and time in proportion to the records and samples
 * that it is given. gav_edit is the exception: it makes the new score in a room of its own before it re-renders, and so
 * takes at most 128 KB of stack (measured: 86 KB, and 49 KB but for a sine); each edit takes time in proportion to the
 * records of the score. Calls keep nothing between them, so any number of threads may call at once, on buffers of their
 * own, and the callback of a sound driver may call.
 *
 * A NaN in a lent buffer of doubles that a call leaves as it came is proved to be a NaN afterwards, and not which one:
 * the proof's account of floats has one NaN. That its sign and payload stay too is tested, not proved.
 *
 * A score is records of 10 bytes: 56 4E (hex), position (4 bytes, low byte first, in samples), kind (1 on, 2 off, 3
 * reset), note (0 to 127), velocity (0 to 127), 00. Positions never fall, a reset has note and velocity 0, and there
 * are at most 4,096 records. An on with velocity 0 is the release of its key, as most keyboards send it: it acts as an
 * off of its note. Samples, shelves and states that an earlier library made of a score with such an on are stale, and
 * no call can tell: render the score anew. GAV_VERSION did not grow with this rule; every library since version 3 has
 * it.
 *
 * An output is divided into sections of 4,096 samples, the last of which may be short: section k starts at sample
 * 4096k. The shelf of an output has an entry for each section: the state before the section's first sample.
 *
 * The summary of an output has for each section its peak, for a level line: the largest magnitude of the section's
 * samples, 0 or more, and the number of the first sample where it stands, counted from 0 at the output's start. A
 * magnitude is a sample without its sign, +0 for -0. The summary is two buffers, the magnitudes (double) and the
 * numbers (uint64_t), one of each a section: a silent section 1 has magnitude +0 and number 4,096. A section's peak
 * begins as +0 at its first sample, and a sample takes over only where its magnitude is larger; so a NaN, which no call
 * writes, would not count. A summary that was right for an output of finite samples is right for it after every
 * re-render.
 *
 * A state, and an entry of a shelf, is GAV_STATE_WORDS words, a float as its 64 bits (IEEE 754 binary64):
 *    0       phase of the oscillator, a float: radians, 0 or more and below 1,000
 *    1       stage of the envelope: 0 idle, 1 attack, 2 decay, 3 sustain, 4 release
 *    2       level of the envelope, a float: 0 to 1
 *    3       time in the stage, a float: seconds, 0 to 11
 *    4       level that the release began from, a float: 0 to 1
 *    5       bits 0 to 7 the note that sounds, 255 for none; bit 8 the gate, 1 exactly where a note sounds; bits 9 to
 *            15 how many keys are held, 0 to 16; bits 16 to 63 how many records of the score have acted
 *    6       frequency, a float: Hz, above 0 and at most 12,544
 *    7       velocity, a float: 0 to 1
 *    8..11   the held keys, oldest first, four a word from bit 0 up, 16 bits each: note in the lower 8, velocity in the
 *            upper 8, each 0 to 127. Past the held keys all bits are 0
 *    12      phase of the LFO, the tremolo's slow oscillator, a float: radians, 0 or more and below 1,000
 * Words outside these limits are no state. A host may keep words, copy them and hand them back; it need not read them.
 * Words that version 1 left have no word 12: an old shelf is refused, 7, and an old state, 10.
 */
#ifndef GAVBERIN_H
#define GAVBERIN_H

#include <stddef.h>
#include <stdint.h>

#ifdef __cplusplus
extern "C" {
#endif

/* The version of what this header declares; gav_version gives the library's. It grows with every new call, every change
 * of a call's arguments and every change of the number of words of a state, so a host and a library of one version fit
 * each other. The shared library's name carries the version: libgavberin.so.5. Since version 2 there is a tremolo;
 * since version 3 notes may be joined; since version 4 a render and a re-render take a summary, and
 * GAV_ROUNDED_TRIANGLE is a waveform of every library (of version 3 some libraries refuse it); since version 5 there is
 * gav_edit, and every library's re-renders stop early (of version 4 some always go on to n). Samples, shelves and
 * states of versions 4 and 5 are the same. */
#define GAV_VERSION 5

/* The codes of the waveforms. The rounded triangle is a triangle whose corners are really rounded, so that it buzzes
 * less. Its top is 1 - 4 * dt / 3, where dt is cycles a sample, so that it is softer the higher the note; above half a
 * cycle a sample it is rounded no longer, and nothing clamps it: it may pass 1. 5 is no waveform: 5, and 7 and up, are
 * refused with 6 wherever a code is given. */
#define GAV_SINE 0
#define GAV_SQUARE 1
#define GAV_SAWTOOTH 2
#define GAV_TRIANGLE 3
#define GAV_PULSE 4
#define GAV_ROUNDED_TRIANGLE 6

/* The codes of joined: what a key does that is pressed while a note sounds. */
#define GAV_STRUCK 0
#define GAV_JOINED 1

/* The codes of an edit. */
#define GAV_INSERT 1
#define GAV_REMOVE 2

#define GAV_STATE_WORDS 13         /* words of a state, and of an entry of a shelf */
#define GAV_SECTION 4096           /* samples of a section: from one entry of a shelf to the next */
#define GAV_MARK GAV_SECTION       /* an older name, for hosts that use it */
#define GAV_MOST_SAMPLES 16777216  /* the most samples of an output */
#define GAV_LIST_ROOM 102413       /* bytes that every listing fits in */
#define GAV_SCORE_BYTES 40960      /* bytes of 4,096 records, the most of a score; gav_edit is lent so many for one */
#define GAV_EDIT_BYTES 14          /* bytes of an edit */

/* The numbers of an answer. The place is the record's index where the number is of a record, the edit's index where it
 * is of an edit, else 0; but where gav_edit is done it is the bytes of the new score. */
enum gav_answer {
    GAV_DONE = 0,              /* the count is what the call says below */
    GAV_SCORE_LENGTH = 1,      /* the score's length is no multiple of 10, or it has more than 4,096 records */
    GAV_SCORE_MARK = 2,        /* a record of the score: its mark, the first two bytes, is not 56 4E (hex) */
    GAV_SCORE_KIND = 3,        /* a record of the score: its kind is not 1, 2 or 3 */
    GAV_SCORE_FIELD = 4,       /* a record of the score: a field is out of range, or the last byte is not 0 */
    GAV_SCORE_ORDER = 5,       /* a record of the score: its position is below that of the record before */
    GAV_SETTING = 6,           /* a rate, a code, a pulse's duty, an envelope setting, the LFO's frequency or depth, or
                                  joined outside its limits */
    GAV_SIZE = 7,              /* too many samples, a shelf or a summary of the wrong size, or too little room for a
                                  listing */
    GAV_START_ENTRY = 8,       /* re-render: the entry to start from is no state, or the new score has another number of
                                  records before it than have acted */
    GAV_ARGUMENT = 9,          /* another argument outside its limits */
    GAV_GIVEN_STATE = 10,      /* continue: the words are no state, or the score has another number of records before
                                  its position than have acted */
    GAV_NEW_SCORE_LENGTH = 17, /* 17 to 21: as 1 to 5, of a re-render's new score */
    GAV_NEW_SCORE_MARK = 18,
    GAV_NEW_SCORE_KIND = 19,
    GAV_NEW_SCORE_FIELD = 20,
    GAV_NEW_SCORE_ORDER = 21,
    GAV_EDIT_FRAME = 33,       /* an edit: its mark is not 45 44 (hex), its code not 1 or 2, or the byte behind not 0 */
    GAV_EDIT_NOT_THERE = 34,   /* an edit that removes: no record of the score is equal to its own */
    GAV_EDIT_FULL = 35,        /* an edit that inserts: the score has 4,096 records already */
    GAV_EDIT_SIZE = 36,        /* edit: the list is no multiple of 14 bytes, or new_score has not 40,960 bytes */
    GAV_EDIT_RECORD_MARK = 50, /* 50 to 52: as 2 to 4, of an edit's own record; the place is the edit's index */
    GAV_EDIT_RECORD_KIND = 51,
    GAV_EDIT_RECORD_FIELD = 52
};

static inline unsigned gav_number(uint64_t answer) { return (unsigned)(answer & 0xff); }
static inline uint32_t gav_place(uint64_t answer) { return (uint32_t)(answer >> 8 & 0xffffff); }
static inline uint32_t gav_count(uint64_t answer) { return (uint32_t)(answer >> 32); }

/* What an answer says, in English, for a person who is told "refused NUMBER at place PLACE: WORDS". Any answer has
 * words, even one that no call gives. The words end with a 0 byte and need not be freed. Not proved. */
const char *gav_words(uint64_t answer);

/* GAV_VERSION of the library that is linked. */
uint32_t gav_version(void);

/* The sections that an output of n samples has begun: 0 of none, 1 of 4,096, 2 of 4,097. So many magnitudes and so many
 * numbers are its summary. */
static inline size_t gav_sections(size_t n) { return n / GAV_SECTION + (n % GAV_SECTION != 0); }

/* The words of the shelf for an output of n samples: an entry for each section. */
static inline size_t gav_shelf_words(size_t n) { return gav_sections(n) * GAV_STATE_WORDS; }

/* Whether a score is accepted: 0, or 1 to 5 with the place. The count is 0.
 * score, score_len: the bytes of the score; any number of them. */
uint64_t gav_check_score(const uint8_t *score, size_t score_len);

/* One sample of a waveform, a finite number; +0 where it is refused. gav_sample_says gives the answer to the same
 * arguments, with count 0.
 * code:  GAV_SINE to GAV_PULSE, 0 to 4, or GAV_ROUNDED_TRIANGLE, 6; any other is refused with 6
 * phase: in cycles, 0 to 1; else 9
 * dt:    cycles a sample, 0 to 4, for a sine too; else 9
 * duty:  the fraction of a cycle that a pulse is high, 0 to 1; else 6. Read for GAV_PULSE alone */
double gav_sample(uint32_t code, double phase, double dt, double duty);
uint64_t gav_sample_says(uint32_t code, double phase, double dt, double duty);

/* The settings, which the four calls below take first, one by one and in this order. A host that keeps the settings in
 * a struct calls gav_render_with, gav_rerender_with, gav_edit_with and gav_continue_with, each of which follows its
 * call.
 * rate:    samples a second, 8,000 to 192,000; else 6
 * code:    GAV_SINE to GAV_PULSE, 0 to 4, or GAV_ROUNDED_TRIANGLE, 6; any other is refused with 6
 * duty:    the fraction of a cycle that a pulse is high, 0 to 1; else 6. Read for GAV_PULSE alone
 * attack, decay, release: seconds; any number, taken as at least 0.001 and at most 10. A NaN is 6
 * sustain: a level; any number, taken as at least 0 and at most 1. A NaN is 6
 * The tremolo: a slow oscillator, the LFO, moves the loudness. Last of all a sample is multiplied by
 * 1 - lfo_depth / 2 + lfo / 2, where lfo is the LFO's value, -1 to 1, times lfo_depth. The value of a triangle passes 1
 * near its corners, by up to 0.7 percent, and nothing clamps it; that of a rounded triangle does not pass 1. The LFO
 * begins at phase 0, runs in silence too, and begins again at a reset. At depth 0 the samples are those without a
 * tremolo.
 * lfo_code:      GAV_SINE to GAV_PULSE, 0 to 4, or GAV_ROUNDED_TRIANGLE, 6; any other is refused with 6
 * lfo_duty:      the fraction of a cycle that a pulse is high, 0 to 1; else 6. Read where lfo_code is GAV_PULSE alone
 * lfo_frequency: Hz, 0 to 100; else 6
 * lfo_depth:     0 to 1; else 6
 * Struck, every key that is pressed triggers the envelope. Joined, a key that is pressed while a note sounds changes
 * pitch and velocity at once, so that the loudness may step, and leaves the envelope running; it triggers the envelope
 * only where no note sounds just before its record acts, which is after every earlier record, those at its position
 * too; in the tail of a release none does. The held keys and the envelope's stage do not matter. Letting a key go is
 * the same in both.
 * joined: GAV_STRUCK or GAV_JOINED, 0 or 1; above is 6 */
struct gav_settings {
    uint32_t rate, code;
    double duty, attack, decay, sustain, release;
    uint32_t lfo_code;
    double lfo_duty, lfo_frequency, lfo_depth;
    uint32_t joined;
};

/* The settings that the desk takes where no option is given: struct gav_settings settings = GAV_SETTINGS_DEFAULT; They
 * have no tremolo, 0 Hz and depth 0, and struck notes. */
#define GAV_SETTINGS_DEFAULT {48000, GAV_SAWTOOTH, 0.5, 0.01, 0.1, 0.7, 0.3, GAV_SINE, 0.5, 0.0, 0.0, GAV_STRUCK}

/* The settings of a struct one by one, as the four calls take them. */
#define GAV_SETTINGS_OF(s) \
    (s)->rate, (s)->code, (s)->duty, (s)->attack, (s)->decay, (s)->sustain, (s)->release, (s)->lfo_code, \
    (s)->lfo_duty, (s)->lfo_frequency, (s)->lfo_depth, (s)->joined

/* Renders a score: n samples from sample zero, their shelf and their summary. The count is n. The end state is not
 * given: for that use gav_continue.
 * score, score_len: the score; records at n or later are legal
 * out, n:           the samples, 0 to GAV_MOST_SAMPLES; else 7. All are written
 * shelf, words:     gav_shelf_words(n) words exactly; else 7. All are written: entry k, from word GAV_STATE_WORDS * k
 *                   on, is the state before sample 4096k
 * magnitudes, magnitudes_len, numbers, numbers_len: the summary, exactly gav_sections(n) of each; 7 where either length
 *                   is another. All are written: magnitudes[k] is the largest magnitude of section k, 0 or more,
 *                   numbers[k] the first sample where it stands: 4096k or above, below 4096(k + 1) and below n */
uint64_t gav_render(uint32_t rate, uint32_t code, double duty, double attack, double decay, double sustain,
                    double release, uint32_t lfo_code, double lfo_duty, double lfo_frequency, double lfo_depth,
                    uint32_t joined, const uint8_t *score, size_t score_len, double *out, size_t n, uint64_t *shelf,
                    size_t words, double *magnitudes, size_t magnitudes_len, uint64_t *numbers, size_t numbers_len);

static inline uint64_t gav_render_with(const struct gav_settings *s, const uint8_t *score, size_t score_len,
                                       double *out, size_t n, uint64_t *shelf, size_t words, double *magnitudes,
                                       size_t magnitudes_len, uint64_t *numbers, size_t numbers_len) {
    return gav_render(GAV_SETTINGS_OF(s), score, score_len, out, n, shelf, words, magnitudes, magnitudes_len, numbers,
                      numbers_len);
}

/* Makes the output, shelf and summary of an old score those of a new one, under the same settings: from the section
 * that holds the first change to the first one at which the old sound and the new one meet, or to the end.
 *    start  the first sample of the section that holds P, the position of the first change: of two different records at
 *           one index the lower position, or that of the record there where the other score has ended
 *    stop   4096k for the first section k after the start's such that both scores have the same records from position
 *           4096k on, those at n or later too, and entry k, as it came, is the state there, by bits, but for the
 *           records that have acted, bits 16 to 63 of word 5; n where there is no such section
 * Samples, entries, magnitudes and numbers from the start to the stop are written. From the stop on nothing is, but for
 * those bits of every entry j from there on, state or not, which become the number of the new score's records below
 * position 4096j. The count is the samples from the start to the stop; 0, and nothing written, where the scores are
 * equal or P is n or more.
 * What was made: nothing where the count is 0. Where a re-render stops before n, n - count is not its start. A host
 * that keeps the samples elsewhere too, as in a file, compares the two scores itself, ten bytes at a time: of the first
 * ten that differ the lower position is P, or, where one score has ended there, the position of the other's ten. The
 * start is GAV_SECTION * (P / GAV_SECTION), and the stop is the start + count.
 * The caller's duty: from the start on samples, shelf and summary are as gav_render of the old score left them, or the
 * gav_rerender or gav_edit that had the old score for its new one, under the same settings and n. Then they are, from
 * the start on, as gav_render of the new score leaves them. No sample and no summary that came is read, so that one
 * behind the stop that is wrong stays wrong. A host that lacks those of a later section spoils, say by setting every
 * bit, the entries after the start's up to and with that section's own: what is no state stops nothing. It keeps a copy
 * of them, and puts it back where the call is refused or its count is 0: then nothing was written, and a later edit
 * that starts at a spoilt entry would be refused, 8. Where all entries after the start's are spoilt all is made up to
 * n, and only the start's entry has to be as it was left.
 * old, old_len:   the score that out, shelf and summary were rendered of
 * new_, new_len:  the score to render now; it may be the same buffer
 * out, n; shelf, words; magnitudes, magnitudes_len, numbers, numbers_len: as for gav_render, holding what gav_render or
 *                 the last gav_rerender or gav_edit left. What lies before the start stays, wrong or not */
uint64_t gav_rerender(uint32_t rate, uint32_t code, double duty, double attack, double decay, double sustain,
                      double release, uint32_t lfo_code, double lfo_duty, double lfo_frequency, double lfo_depth,
                      uint32_t joined, const uint8_t *old, size_t old_len, const uint8_t *new_, size_t new_len,
                      double *out, size_t n, uint64_t *shelf, size_t words, double *magnitudes, size_t magnitudes_len,
                      uint64_t *numbers, size_t numbers_len);

static inline uint64_t gav_rerender_with(const struct gav_settings *s, const uint8_t *old, size_t old_len,
                                         const uint8_t *new_, size_t new_len, double *out, size_t n, uint64_t *shelf,
                                         size_t words, double *magnitudes, size_t magnitudes_len, uint64_t *numbers,
                                         size_t numbers_len) {
    return gav_rerender(GAV_SETTINGS_OF(s), old, old_len, new_, new_len, out, n, shelf, words, magnitudes,
                        magnitudes_len, numbers, numbers_len);
}

/* Makes a page of edits at once: the edits of a list on the old score, one after the other, and then a single re-render
 * of the old score into the new one, as gav_rerender makes it.
 * An edit is GAV_EDIT_BYTES bytes: a mark 45 44 (hex), GAV_INSERT or GAV_REMOVE (1 or 2), 00, and a record of a score.
 * Each edit is made on the score that those before it leave:
 *    insert  puts the record after all records at its position or lower
 *    remove  takes out the first record that is equal to it, all ten bytes; so the velocity of an off counts too
 * A remove and an insert of a record that is there, in either order, bring it behind the others at its position; an
 * insert into 4,096 records is refused, so there only the remove may come first.
 * Done, the place, bits 8 to 31 of the answer, is the bytes of the new score, which gav_place gives: they stand at the
 * front of new_score, and the rest of that buffer stays as it came. The count is the re-render's, from its start to its
 * stop. Where the list is empty, or its edits undo each other, or the first change lies at n or later, the score is
 * written and nothing else: no entry is read, and the count is 0.
 * The caller's duty is that of gav_rerender. Where samples, shelf and summary are as a gav_render of the old score
 * leaves them, under the same settings and n, all three and the score are afterwards those of the edits made one at a
 * time, each followed by its gav_rerender. Only the count is that of the one pass.
 * The whole list is refused where one of its edits is, and nothing is written, new_score neither. The numbers, of which
 * the first in this order is given: 6; 7; 1 to 5, of the old score; 36; then edit by edit, with the edit's index as
 * place, 33, 50, 51, 52, and 34 or 35, each judged on the score that the edits before it leave; last 8. So of an insert
 * into 4,096 records and a later edit with a wrong mark the insert is told, 35. The place of edit 16,777,216 and of
 * those after it is cut to its lower 24 bits. 17 to 21 do not come: edits leave a score that is accepted.
 * old, old_len:     the score that out, shelf and summary were rendered of
 * edits, edits_len: the list, any number of edits; 36 where the bytes are no multiple of GAV_EDIT_BYTES
 * out, n; shelf, words; magnitudes, magnitudes_len, numbers, numbers_len: as for gav_rerender
 * new_score, new_score_len: GAV_SCORE_BYTES bytes exactly, however short the score will be; else 36. They overlap no
 *                   other buffer, old neither: a host that edits again copies the score, or has two buffers that take
 *                   turns */
uint64_t gav_edit(uint32_t rate, uint32_t code, double duty, double attack, double decay, double sustain,
                  double release, uint32_t lfo_code, double lfo_duty, double lfo_frequency, double lfo_depth,
                  uint32_t joined, const uint8_t *old, size_t old_len, const uint8_t *edits, size_t edits_len,
                  double *out, size_t n, uint64_t *shelf, size_t words, double *magnitudes, size_t magnitudes_len,
                  uint64_t *numbers, size_t numbers_len, uint8_t *new_score, size_t new_score_len);

static inline uint64_t gav_edit_with(const struct gav_settings *s, const uint8_t *old, size_t old_len,
                                     const uint8_t *edits, size_t edits_len, double *out, size_t n, uint64_t *shelf,
                                     size_t words, double *magnitudes, size_t magnitudes_len, uint64_t *numbers,
                                     size_t numbers_len, uint8_t *new_score, size_t new_score_len) {
    return gav_edit(GAV_SETTINGS_OF(s), old, old_len, edits, edits_len, out, n, shelf, words, magnitudes,
                    magnitudes_len, numbers, numbers_len, new_score, new_score_len);
}

/* Renders the next part, from a state; it has no shelf and no summary. Parts of any lengths, one after the other from
 * gav_fresh at position 0, under the same settings and a score that grows only at its end, are the samples of one
 * gav_render of the last score; a record that is added below the position already reached is 10. The count is n.
 * score, score_len:   the score so far
 * state, state_words: GAV_STATE_WORDS words; else 10. The state before the sample at position; when done, the state
 *                     after the part. From words that a host has made up, with a phase near 1,000, a phase after the
 *                     part may have passed 1,000; the next call is 10 then
 * position:           the sample that part begins with
 * part, n:            the samples; position + n is at most GAV_MOST_SAMPLES, else 7. All are written */
uint64_t gav_continue(uint32_t rate, uint32_t code, double duty, double attack, double decay, double sustain,
                      double release, uint32_t lfo_code, double lfo_duty, double lfo_frequency, double lfo_depth,
                      uint32_t joined, const uint8_t *score, size_t score_len, uint64_t *state, size_t state_words,
                      uint64_t position, double *part, size_t n);

static inline uint64_t gav_continue_with(const struct gav_settings *s, const uint8_t *score, size_t score_len,
                                         uint64_t *state, size_t state_words, uint64_t position, double *part, size_t n) {
    return gav_continue(GAV_SETTINGS_OF(s), score, score_len, state, state_words, position, part, n);
}

/* Writes the state before sample zero, for gav_continue at position 0. The count is 0.
 * state, state_words: GAV_STATE_WORDS words; else 9. All are written */
uint64_t gav_fresh(uint64_t *state, size_t state_words);

/* Writes what the lister prints for a score, in ASCII, with no 0 at its end: `records` and their number, then a line
 * for each record; or, for a score that is not accepted, `refused`, its number and place. Both are done; the count is
 * the bytes of the text.
 * score, score_len: the bytes of the score; any number of them
 * text, text_len:   GAV_LIST_ROOM bytes or more; else 7. Those after the text stay as they came */
uint64_t gav_list(const uint8_t *score, size_t score_len, uint8_t *text, size_t text_len);

#ifdef __cplusplus
}
#endif

#endif
