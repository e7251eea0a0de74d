/* Wrong libraries: each is put between the program at scale and the library (gcc's --wrap) and spoils one thing of one
 * call. WRONG in the environment chooses it, from 1 on; 0 spoils nothing, one past the last says how many there are,
 * and the two after that have the re-render of wrong_stop.c and the page of wrong_page.c without a fault. */
#include "wrong.h"

#include <math.h>
#include <stdio.h>
#include <stdlib.h>

uint64_t __real_gav_list(const uint8_t *score, size_t len, uint8_t *text, size_t text_len);
uint64_t __real_gav_fresh(uint64_t *state, size_t words);
double __real_gav_sample(uint32_t code, double phase, double dt, double duty);
uint64_t __real_gav_sample_says(uint32_t code, double phase, double dt, double duty);
uint64_t __real_gav_edit(SETTINGS, const uint8_t *old, size_t old_len, const uint8_t *edits, size_t edits_len,
                         double *out, size_t n, uint64_t *shelf, size_t words, SUMMARY, uint8_t *new_score,
                         size_t new_score_len);

/* In the order in which they are counted. */
enum wrong {
    NONE,
    CHECK_PLACE,          /* the place of a score's fault is one too far */
    LIST_LAST_BYTE,       /* the last byte of a listing is another */
    LIST_REST,            /* the byte after a listing is written */
    FRESH_REFUSED_WRITES, /* a refused fresh state writes a word */
    SAMPLE_ZERO,          /* a refused sample is -0 */
    SAMPLE_SAYS_ORDER,    /* 9 before 6 */
    RENDER_NAN_REFUSED,   /* a refused render rewrites the payloads of NaNs */
    RENDER_LATE_BIT,      /* the last bit of a late sample is another */
    RENDER_4097TH,        /* the 4,097th sample is another */
    RENDER_LAST_LEFT,     /* the last sample is not written */
    RENDER_GUARD,         /* a word past the output is written */
    RENDER_ENTRY_WORD,    /* a word of the second entry is another */
    RENDER_ORDER,         /* 7 before 6 */
    RENDER_SCORE,         /* a render writes into the score */
    RERENDER_COUNT,       /* the count is the whole output's */
    RERENDER_NAN_BEFORE,  /* NaNs before the start lose their payloads */
    RERENDER_NAN_BEHIND,  /* those behind the stop do */
    RERENDER_NAN_PEAKS,   /* those among the magnitudes behind the stop do */
    RERENDER_BEFORE,      /* the sample before the start is written */
    RERENDER_OLD_ENTRY,   /* an entry before the start is another */
    RERENDER_LATE_ENTRY,  /* the last of 4,096 entries is not counted anew */
    RERENDER_START,       /* 8 is not given */
    RERENDER_NOTHING,     /* nothing is written, and the count is right */
    CONTINUE_GUARD,       /* a word past the part is written */
    CONTINUE_REDUCES,     /* the end of the part reduces the phase */
    CONTINUE_STATE,       /* the state after counts one record too many */
    CONTINUE_REFUSED,     /* a refused part hands back another state */
    RENDER_LFO_HERTZ,     /* an LFO above 100 Hz is taken for one of 100 */
    RENDER_LFO_DUTY,      /* the duty of an LFO that is no pulse is judged */
    RENDER_LFO_ZERO,      /* a depth of -0 is refused */
    RENDER_LFO_DEPTH,     /* a tremolo is half as deep */
    RENDER_TWELVE,        /* a shelf of twelve words an entry is taken */
    CONTINUE_LFO_REDUCES, /* the end of the part reduces the LFO's phase */
    CONTINUE_LFO_RESTART, /* the LFO begins anew with every part */
    CONTINUE_LFO_TAKEN,   /* word 12 is not judged */
    CONTINUE_TWELVE,      /* a state of twelve words is taken */
    CONTINUE_TINY,        /* the smallest phase is taken for 0 */
    CONTINUE_MINUS_ZERO,  /* a phase of -0 is taken for 0 */
    CONTINUE_PAST_1000,   /* a phase that passes 1,000 is reduced at the end of the part */
    RENDER_ALL_STRUCK,    /* joined notes are struck */
    RENDER_EXCHANGED,     /* struck and joined are exchanged */
    RENDER_JOINED_TWO,    /* 2 is taken for joined */
    RERENDER_ALL_STRUCK,  /* these three, in the same order */
    RERENDER_EXCHANGED,
    RERENDER_JOINED_TWO,
    CONTINUE_ALL_STRUCK, /* and again */
    CONTINUE_EXCHANGED,
    CONTINUE_JOINED_TWO,
    CONTINUE_BY_HELD,    /* the held keys decide whether the first joined key of a part triggers */
    CONTINUE_NO_TRIGGER, /* the first joined key of a part never triggers */
    SAMPLE_CODES,        /* four: 5 is taken for 6; 6 is the old triangle; 6 is refused; 6 is refused for its duty */
    RENDER_CODES = SAMPLE_CODES + 4,     /* these four, in the same order */
    RENDER_LFO_CODES = RENDER_CODES + 4, /* and again */
    RERENDER_CODES = RENDER_LFO_CODES + 4,
    RERENDER_LFO_CODES = RERENDER_CODES + 4,
    CONTINUE_CODES = RERENDER_LFO_CODES + 4,
    CONTINUE_LFO_CODES = CONTINUE_CODES + 4,
    RENDER_SUMMARIES = CONTINUE_LFO_CODES + 4,       /* those of wrong.h that a render has, in that order */
    RERENDER_SUMMARIES = RENDER_SUMMARIES + OF_BOTH, /* all of them */
    RERENDER_STOPS = RERENDER_SUMMARIES + SUMMARIES, /* all stops of wrong.h */
    EDIT_PAGES = RERENDER_STOPS + STOPPINGS,         /* all pages of wrong.h */
    WRONGS = EDIT_PAGES + PAGINGS,
    OWN_STOP, /* what is made here, without a fault */
    OWN_PAGE
};

static enum wrong wrong(void) {
    static int chosen = -1;
    if (chosen < 0) {
        chosen = atoi(getenv("WRONG"));
        if (chosen == WRONGS) printf("%d wrong libraries\n", WRONGS - 1), exit(0);
    }
    return (enum wrong)chosen;
}

/* The wrong summary of a call that has so many, from one wrong library on. */
static enum summary wrong_summary(enum wrong first, int count) {
    return wrong() >= first && (int)wrong() < (int)first + count ? (enum summary)(wrong() - first) : RIGHT;
}

/* Whether a re-render has a wrong stop, or the right one that is made here. */
static bool is_stop_wrong(void) { return (wrong() >= RERENDER_STOPS && wrong() < EDIT_PAGES) || wrong() == OWN_STOP; }

static enum stopping wrong_stop(void) {
    return wrong() < WRONGS ? (enum stopping)(wrong() - RERENDER_STOPS) : STOPS_RIGHT;
}

/* Whether a page is wrong, or the right one that is made here. */
static bool is_page_wrong(void) { return (wrong() >= EDIT_PAGES && wrong() < WRONGS) || wrong() == OWN_PAGE; }

static enum paging wrong_paging(void) { return wrong() < WRONGS ? (enum paging)(wrong() - EDIT_PAGES) : PAGES_RIGHT; }

static void flip(double *x) { *x = number(bits(*x) ^ 1); }

static void one_payload(double *from, size_t n) {
    for (size_t i = 0; i < n; i++) {
        if (isnan(from[i])) from[i] = NAN;
    }
}

/* The keying that a call takes for the given one, of the three wrong libraries from its ..ALL_STRUCK on. */
static uint32_t taken_keying(uint32_t joined, enum wrong all_struck) {
    if (wrong() == all_struck && joined == GAV_JOINED) return GAV_STRUCK;
    if (wrong() == all_struck + 1 && joined <= GAV_JOINED) return GAV_JOINED - joined;
    return wrong() == all_struck + 2 && joined == 2 ? GAV_JOINED : joined;
}

/* The code that a call takes for the given one, of the four wrong libraries from its ..CODES on. */
static uint32_t taken_code(uint32_t code, double duty, enum wrong five) {
    if (wrong() == five && code == 5) return GAV_ROUNDED_TRIANGLE;
    if (code != GAV_ROUNDED_TRIANGLE) return code;
    if (wrong() == five + 1) return GAV_TRIANGLE;
    return wrong() == five + 2 || (wrong() == five + 3 && !is_within(0.0, duty, 1.0)) ? 5 : code;
}

uint64_t __wrap_gav_check_score(const uint8_t *score, size_t len) {
    uint64_t answer = __real_gav_check_score(score, len);
    return wrong() == CHECK_PLACE && gav_number(answer) > 1 ? answer + (1 << 8) : answer;
}

uint64_t __wrap_gav_list(const uint8_t *score, size_t len, uint8_t *text, size_t text_len) {
    uint64_t answer = __real_gav_list(score, len, text, text_len);
    if (wrong() == LIST_LAST_BYTE && gav_number(answer) == 0) text[gav_count(answer) - 1] = '\r';
    if (wrong() == LIST_REST && gav_number(answer) == 0) text[gav_count(answer)] ^= 1;
    return answer;
}

uint64_t __wrap_gav_fresh(uint64_t *state, size_t words) {
    if (wrong() == FRESH_REFUSED_WRITES && words > GAV_STATE_WORDS) state[0] = 0;
    return __real_gav_fresh(state, words);
}

double __wrap_gav_sample(uint32_t code, double phase, double dt, double duty) {
    code = taken_code(code, duty, SAMPLE_CODES);
    if (wrong() == SAMPLE_ZERO && __real_gav_sample_says(code, phase, dt, duty) != 0) return -0.0;
    return __real_gav_sample(code, phase, dt, duty);
}

uint64_t __wrap_gav_sample_says(uint32_t code, double phase, double dt, double duty) {
    code = taken_code(code, duty, SAMPLE_CODES);
    if (wrong() == SAMPLE_SAYS_ORDER && !(phase >= 0.0 && phase <= 1.0)) return 9;
    return __real_gav_sample_says(code, phase, dt, duty);
}

static void spoil_render(double *out, size_t n, uint64_t *shelf) {
    if (wrong() == RENDER_LATE_BIT && n > 9000) flip(out + n - 7);
    if (wrong() == RENDER_4097TH && n > 4096) flip(out + 4096);
    if (wrong() == RENDER_GUARD && n > 0) out[n] = 0.0;
    if (wrong() == RENDER_ENTRY_WORD && n > 4096) shelf[GAV_STATE_WORDS + 3] ^= 1;
}

static bool is_lfo_wrongly_refused(uint32_t lfo_code, double lfo_duty, double lfo_depth) {
    if (wrong() == RENDER_LFO_DUTY) return lfo_code != GAV_PULSE && !is_within(0.0, lfo_duty, 1.0);
    return wrong() == RENDER_LFO_ZERO && bits(lfo_depth) == bits(-0.0);
}

/* What a call with a wrong summary answers, where the right call's answer is another: with 7 for the lengths alone it
 * may be done, or the score may come first. */
static uint64_t answer_of(enum summary how, uint64_t answer, const struct lent_summary *lent, const uint8_t *score,
                          size_t len) {
    if (how == REFUSED_WRITES && gav_number(answer) != 0 && lent->numbers_len > 0) lent->numbers[0] ^= 1;
    if (gav_number(answer) != 7 || is_summary(lent)) return answer;
    if (is_wrongly_taken(how, lent)) return says(0, 0, lent->n);
    uint64_t fault = __real_gav_check_score(score, len);
    return how == AFTER_SCORE && fault != 0 ? fault : answer;
}

uint64_t __wrap_gav_render(SETTINGS, const uint8_t *score, size_t len, double *out, size_t n, uint64_t *shelf,
                           size_t words, SUMMARY) {
    const struct lent_summary lent = {out, n, words, PEAKS};
    const enum summary how = wrong_summary(RENDER_SUMMARIES, OF_BOTH);
    if (how == BEFORE_SETTINGS && !is_summary(&lent)) return 7;
    keep_summary(&lent);
    if (wrong() == RENDER_ORDER && words != gav_shelf_words(n)) return 7;
    if (wrong() == RENDER_SCORE && len > 0) ((uint8_t *)score)[len - 1] ^= 1;
    if (is_lfo_wrongly_refused(lfo_code, lfo_duty, lfo_depth)) return 6;
    if (wrong() == RENDER_LFO_HERTZ && lfo_frequency > 100.0) lfo_frequency = 100.0;
    if (wrong() == RENDER_LFO_DEPTH) lfo_depth /= 2.0;
    joined = taken_keying(joined, RENDER_ALL_STRUCK);
    code = taken_code(code, duty, RENDER_CODES);
    lfo_code = taken_code(lfo_code, lfo_duty, RENDER_LFO_CODES);
    double last = n > 0 ? out[n - 1] : 0.0;
    uint64_t answer = __real_gav_render(GIVEN, score, len, out, n, shelf, words, PEAKS);
    if (gav_number(answer) == 0) spoil_summary(how, &lent, 0, n);
    if (wrong() == RENDER_TWELVE && gav_number(answer) == 7 && 13 * words == 12 * gav_shelf_words(n))
        return says(0, 0, n);
    if (gav_number(answer) == 0) spoil_render(out, n, shelf);
    if (wrong() == RENDER_NAN_REFUSED && gav_number(answer) != 0) one_payload(out, n);
    if (wrong() == RENDER_LAST_LEFT && gav_number(answer) == 0 && n > 0) out[n - 1] = last;
    return answer_of(how, answer, &lent, score, len);
}

static uint64_t spoil_rerender(uint64_t answer, const struct lent_edit *edit, size_t from) {
    double *out = edit->lent.out;
    const size_t n = edit->lent.n, stop = from + gav_count(answer), sections = gav_sections(stop);
    if (wrong() == RERENDER_NAN_BEFORE) one_payload(out, from);
    if (wrong() == RERENDER_NAN_BEHIND) one_payload(out + stop, n - stop);
    if (wrong() == RERENDER_NAN_PEAKS) one_payload(edit->lent.magnitudes + sections, gav_sections(n) - sections);
    if (wrong() == RERENDER_BEFORE && from > 0) out[from - 1] = 0.25;
    if (wrong() == RERENDER_LATE_ENTRY && n == GAV_MOST_SAMPLES) edit->shelf[edit->lent.words - 8] -= 1 << 16;
    if (wrong() == RERENDER_OLD_ENTRY && from > 0) edit->shelf[2] ^= 1;
    return wrong() == RERENDER_COUNT ? says(0, 0, n) : answer;
}

/* A library that is right but for what it is lent, which nothing is written to. */
static uint64_t rerender_aside(SETTINGS, const struct lent_edit *edit) {
    static double out[LONGEST], magnitudes[MOST_ENTRIES + 1];
    static uint64_t shelf[(MOST_ENTRIES + 1) * GAV_STATE_WORDS], numbers[MOST_ENTRIES + 1];
    const struct lent_summary *lent = &edit->lent;
    if (lent->words <= COUNT_OF(shelf)) keep(shelf, edit->shelf, lent->words * sizeof *shelf);
    return __real_gav_rerender(GIVEN, edit->old, edit->old_len, edit->new_, edit->new_len, out, lent->n, shelf,
                               lent->words, magnitudes, lent->magnitudes_len, numbers, lent->numbers_len);
}

uint64_t __wrap_gav_rerender(SETTINGS, const uint8_t *old, size_t old_len, const uint8_t *new_, size_t new_len,
                             double *out, size_t n, uint64_t *shelf, size_t words, SUMMARY) {
    const struct lent_edit edit = {{GIVEN}, old, new_, old_len, new_len, shelf, {out, n, words, PEAKS}};
    const struct lent_summary *lent = &edit.lent;
    const enum summary how = wrong_summary(RERENDER_SUMMARIES, SUMMARIES);
    if (how == BEFORE_SETTINGS && !is_summary(lent)) return 7;
    if (wrong() == RERENDER_NOTHING) return rerender_aside(GIVEN, &edit);
    if (is_stop_wrong() && n <= LONGEST) return wrong_rerender(wrong_stop(), &edit, rerender_aside(GIVEN, &edit));
    keep_summary(lent);
    joined = taken_keying(joined, RERENDER_ALL_STRUCK);
    code = taken_code(code, duty, RERENDER_CODES);
    lfo_code = taken_code(lfo_code, lfo_duty, RERENDER_LFO_CODES);
    uint64_t answer = __real_gav_rerender(GIVEN, old, old_len, new_, new_len, out, n, shelf, words, PEAKS);
    if (wrong() == RERENDER_START && gav_number(answer) == 8) return 0;
    if (gav_number(answer) != 0) return answer_of(how, answer, lent, old, old_len);
    size_t from = first_written(&edit, answer);
    spoil_summary(how, lent, from, from + gav_count(answer));
    return spoil_rerender(answer, &edit, from);
}

uint64_t __wrap_gav_edit(SETTINGS, const uint8_t *old, size_t old_len, const uint8_t *edits, size_t edits_len,
                         double *out, size_t n, uint64_t *shelf, size_t words, SUMMARY, uint8_t *new_score,
                         size_t new_score_len) {
    const struct lent_page page = {{GIVEN},   old,          edits, old_len, edits_len, shelf, {out, n, words, PEAKS},
                                   new_score, new_score_len};
    if (is_page_wrong()) return wrong_page(wrong_paging(), &page);
    return __real_gav_edit(GIVEN, old, old_len, edits, edits_len, out, n, shelf, words, PEAKS, new_score,
                           new_score_len);
}

/* A phase of the LFO that is given, or the one that is taken for it. */
static uint64_t taken_phase(uint64_t given) {
    bool is_phase = number(given) >= 0.0 && number(given) < 1000.0;
    if (wrong() == CONTINUE_LFO_RESTART && is_phase) return 0;
    return wrong() == CONTINUE_LFO_TAKEN && !is_phase ? 0 : given;
}

/* Whether the first record that acts before a position strikes a key. */
static bool is_key_next(const uint8_t *score, size_t len, uint64_t acted, uint64_t end) {
    if (acted >= len / RECORD) return false;
    const uint8_t *next = score + RECORD * acted;
    return next[6] == ON && next[8] > 0 && record_position(next) < end;
}

/* The keys of a state, word 5, or those that are taken for them: before a key that is struck their active note shows in
 * nothing but whether it triggers. */
static uint64_t taken_keys(uint64_t word) {
    const uint64_t rest = word & ~UINT64_C(0x1FF);
    bool is_active = (word & 255) != NO_NOTE, is_held = (word >> 9 & 127) > 0;
    if (is_active != (word >> 8 & 1)) return word;
    if (wrong() == CONTINUE_BY_HELD && is_active != is_held) return is_held ? rest | 256 : rest | NO_NOTE;
    return wrong() == CONTINUE_NO_TRIGGER ? rest | 256 : word;
}

static void spoil_continue(double *part, size_t n, uint64_t *state) {
    if (wrong() == CONTINUE_GUARD && n > 0) part[n] = 0.0;
    if (wrong() == CONTINUE_REDUCES) state[0] = bits(fmod(number(state[0]), TAU));
    if (wrong() == CONTINUE_STATE) state[5] += 1 << 16;
    if (wrong() == CONTINUE_LFO_REDUCES) state[12] = bits(fmod(number(state[12]), TAU));
    if (wrong() == CONTINUE_PAST_1000 && number(state[0]) >= 1000.0) state[0] = bits(fmod(number(state[0]), TAU));
}

uint64_t __wrap_gav_continue(SETTINGS, const uint8_t *score, size_t len, uint64_t *state, size_t state_words,
                             uint64_t position, double *part, size_t n) {
    const bool is_whole = state_words == GAV_STATE_WORDS;
    const uint64_t keys = is_whole ? state[5] : 0, phase = is_whole ? state[12] : 0;
    if (is_whole) state[12] = taken_phase(phase);
    if (is_whole && joined == GAV_JOINED && is_key_next(score, len, keys >> 16, position + n))
        state[5] = taken_keys(keys);
    if (wrong() == CONTINUE_TINY && state_words > 0 && state[0] == 1) state[0] = 0;
    if (wrong() == CONTINUE_MINUS_ZERO && state_words > 0 && state[0] == bits(-0.0)) state[0] = 0;
    joined = taken_keying(joined, CONTINUE_ALL_STRUCK);
    code = taken_code(code, duty, CONTINUE_CODES);
    lfo_code = taken_code(lfo_code, lfo_duty, CONTINUE_LFO_CODES);
    uint64_t answer = __real_gav_continue(GIVEN, score, len, state, state_words, position, part, n);
    if (wrong() == CONTINUE_REFUSED && gav_number(answer) == 10) state[0] = 0;
    if (wrong() == CONTINUE_TWELVE && gav_number(answer) == 10 && state_words == 12) return says(0, 0, n);
    if (gav_number(answer) == 0) spoil_continue(part, n, state);
    if (gav_number(answer) != 0 && is_whole) state[5] = keys, state[12] = phase;
    return answer;
}
