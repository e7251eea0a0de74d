/* scale SEED ROUNDS [FIRST]: compares the library with the original, or with the reference voice where that is not
 * here, over so many rounds from the first on; before round 0, and after the rounds that begin with it, come the
 * re-renders of stops.c, which are not counted. Exit status 1 at the first difference, which is told with its seed and
 * round; and where many rounds had no section of silence, no peak above 1, or none of some kind of re-render or of
 * page, and so compared too little. */
#include "scale.h"

#include <inttypes.h>
#include <stdio.h>
#include <stdlib.h>

/* So many have some of each, whatever the seed: one in sixteen is silent, one in sixteen has peaks above 1, and of the
 * re-renders one in seven stops. */
#define MANY_ROUNDS 1000

static uint64_t read_number(const char *text) {
    char *end;
    uint64_t value = strtoull(text, &end, 10);
    if (*text >= '0' && *text <= '9' && *end == '\0') return value;
    fputs("scale: wrong usage: scale SEED ROUNDS [FIRST], whole numbers\n", stderr);
    exit(2);
}

/* A round hangs on the seed and its own number alone. */
static void start_round(struct round *r, uint64_t seed, uint64_t number) {
    struct chance from_seed = {seed};
    r->seed = seed;
    r->number = number;
    r->chance.seed = chance_word(&from_seed) ^ number;
}

/* Whether there were some of each: of sections, of re-renders and of pages. */
static bool has_stops(const struct stops *s) {
    return s->stopped && s->ended && s->last && s->idle && s->spoilt && s->by_state && s->by_scores;
}

static bool has_pages(const struct pages *p) {
    bool has = p->empty && p->undone && p->unread && p->late && p->others && p->lengths && p->rooms && p->starts;
    for (int i = 0; i < MEETINGS; i++) has = has && p->met[i];
    for (int i = 0; i < LIST_FAULTS; i++) has = has && p->faults[i];
    return has;
}

static bool has_all(const struct tally *t) {
    if (t->silent && t->above && has_stops(&t->rerenders) && has_stops(&t->turns) && has_pages(&t->pages)) return true;
    puts("scale: there must be some of each");
    return false;
}

static void print_stops(const char *what, const struct stops *s) {
    printf("%" PRIu64 " %s stopped (%" PRIu64 " passed an entry for its state, %" PRIu64 " for the scores), %" PRIu64
           " did not, %" PRIu64 " had no later entry, %" PRIu64 " wrote nothing, %" PRIu64 " were over rubbish, ",
           s->stopped, what, s->by_state, s->by_scores, s->ended, s->last, s->idle, s->spoilt);
}

static void print_each(const char *words, const uint64_t *counts, int count) {
    printf(" (%s", words);
    for (int i = 0; i < count; i++) printf(" %" PRIu64, counts[i]);
    fputs("), ", stdout);
}

static void print_pages(const struct pages *p, const struct stops *turns) {
    printf("%" PRIu64 " pages of %" PRIu64 " edits: %" PRIu64 " without one, %" PRIu64 " undone, %" PRIu64
           " of no change over a wrong entry 0, %" PRIu64 " late, %" PRIu64 " of another count than one at a time",
           p->made, p->edits, p->empty, p->undone, p->unread, p->late, p->others);
    print_each("among others, before others, at the highest position, first of equals, not of the old score, to a full "
               "score, from one:",
               p->met, MEETINGS);
    print_stops("of them", turns);
    printf("lists refused: %" PRIu64 " for their length, %" PRIu64 " for the room's, %" PRIu64
           " for the entry, and for an edit",
           p->lengths, p->rooms, p->starts);
    print_each("mark, code, filler, the record's mark, kind, fields, not there, full:", p->faults, LIST_FAULTS);
}

static void print_tally(const struct tally *t, uint64_t seed, uint64_t rounds) {
    printf("scale: %" PRIu64 " rounds equal: %" PRIu64 " calls, %" PRIu64 " of them refused, %" PRIu64
           " samples, %" PRIu64 " words of entries and states, %" PRIu64 " peaks (%" PRIu64 " of silence, %" PRIu64
           " above 1), ",
           rounds, t->calls, t->refused, t->samples, t->words, t->peaks, t->silent, t->above);
    print_stops("re-renders", &t->rerenders);
    print_pages(&t->pages, &t->turns);
    printf("%" PRIu64 " bytes left as they came (seed %" PRIu64 "), judged by %s\n", t->kept, seed,
           original_is_here ? "the original and the reference voice" : "the reference voice: the original is not here");
}

int main(int argc, char **argv) {
    static struct round round;
    struct tally given = {0}, tally = {0};
    if (argc < 3 || argc > 4) read_number("");
    if (gav_version() != GAV_VERSION) {
        printf("scale: the library has version %u, the header %u\n", (unsigned)gav_version(), (unsigned)GAV_VERSION);
        return 1;
    }
    uint64_t seed = read_number(argv[1]), rounds = read_number(argv[2]), first = argc > 3 ? read_number(argv[3]) : 0;
    make_buffers(&round.lent);
    make_buffers(&round.expected);
    make_buffers(&round.twins);
    round.tally = &given;
    start_round(&round, seed, first);
    if (first == 0) run_stops(&round);
    round.tally = &tally;
    for (uint64_t i = first; i < first + rounds; i++) {
        start_round(&round, seed, i);
        run_round(&round);
    }
    round.tally = &given;
    if (first == 0) run_longest(&round);
    print_tally(&tally, seed, rounds);
    return rounds >= MANY_ROUNDS && !has_all(&tally);
}
