/* desk: the arranger's desk, over the library of gavberin.h. Finds the verb, and says what went wrong. */
#include "desk.h"

#include <errno.h>
#include <fcntl.h>
#include <signal.h>
#include <string.h>
#include <unistd.h>

static const struct verb *const verbs[] = {
    &check_verb, &list_verb,   &make_verb, &render_verb, &rerender_verb, &edit_verb,
    &play_verb,  &verify_verb, &info_verb, &peaks_verb,  &chart_verb,
};

static void put_usage(FILE *out) {
    fprintf(out, "desk VERB ..., a verb being one of\n");
    for (size_t i = 0; i < COUNT_OF(verbs); i++) fprintf(out, "  %-9s %s\n", verbs[i]->name, verbs[i]->summary);
    fprintf(out, "`desk VERB --help` or `desk help VERB` tells more; `desk --version` tells the library's version.\n"
                 "Exit status: 0 done, 1 refused, 2 wrong usage.\n");
}

static void put_help(const struct verb *verb) {
    fputs(verb->help, stdout);
    if (verb->settings) put_settings_help(stdout);
}

static const struct verb *find_verb(const char *name) {
    for (size_t i = 0; i < COUNT_OF(verbs); i++) {
        if (strcmp(verbs[i]->name, name) == 0) return verbs[i];
    }
    return NULL;
}

/* The first control character of a word; its end where there is none. */
static const char *first_control(const char *word) {
    while ((unsigned char)*word >= ' ' && *word != 127) word++;
    return word;
}

/* No argument has a control character: a terminal would obey it, and a printed line would end there. */
static bool are_plain(char **words, struct why *why) {
    for (size_t i = 1; words[i]; i++) {
        const char *at = first_control(words[i]);
        if (*at) {
            return misuse(why, "argument %zu has a control character, code %d, at byte %td", i, *at, at - words[i]);
        }
    }
    return true;
}

/* A write error of standard output is a refusal. */
static bool flush_output(struct why *why) {
    errno = 0;
    if (fflush(stdout) == 0 && !ferror(stdout)) return true;
    const char *reason = errno ? strerror(errno) : "an earlier write failed";
    return refuse(why, "standard output: cannot be written: %s%s%s", reason, why->written ? "; " : "",
                  what_is_written(why));
}

/* The exit status; what went wrong, on standard error. */
static int tell_end(const char *verb, bool done, struct why *why) {
    const char *space = *verb ? " " : "";
    if (done && flush_output(why)) return DONE;
    fprintf(stderr, "desk%s%s: %s\n", space, verb, why->text);
    if (why->status == MISUSED) fprintf(stderr, "try: desk%s%s --help\n", space, verb);
    return why->status;
}

static int end(const char *verb, bool done, struct why *why) {
    int status = tell_end(verb, done, why);
    let_signals_come();
    return status;
}

/* `desk help`, `desk help VERB`, also as --help and -h. */
static int help(char **given, struct why *why) {
    const struct verb *verb = given[0] ? find_verb(given[0]) : NULL;
    bool known = verb || !given[0] || is_help(given[0]);
    if (verb) {
        put_help(verb);
    } else if (known) {
        put_usage(stdout);
    } else {
        misuse(why, "unknown verb %s", given[0]);
    }
    return end("", known, why);
}

static int run(const struct verb *verb, char **given, struct why *why) {
    bool done = verb->run(given, why);
    if (!why->help) return end(verb->name, done, why);
    put_help(verb);
    return end(verb->name, true, why);
}

/* Keeps the number of a standard stream that was closed from a file: such a stream can neither be read nor written. */
static void keep_stream_numbers(void) {
    for (int fd = STDIN_FILENO; fd <= STDERR_FILENO; fd++) {
        if (fcntl(fd, F_GETFD) < 0 && open("/dev/null", fd == STDIN_FILENO ? O_WRONLY : O_RDONLY) < 0) return;
    }
}

int main(int argc, char **argv) {
    static struct why why = {.status = DONE};
    /* A reader that goes away and a file that may not grow are then errors of a write. */
    signal(SIGPIPE, SIG_IGN);
    signal(SIGXFSZ, SIG_IGN);
    keep_stream_numbers();
    if (argc < 2) {
        put_usage(stderr);
        return MISUSED;
    }
    if (!are_plain(argv, &why)) return end("", false, &why);
    const struct verb *verb = find_verb(argv[1]);
    if (verb) return run(verb, argv + 2, &why);
    if (is_help(argv[1]) || strcmp(argv[1], "help") == 0) return help(argv + 2, &why);
    if (strcmp(argv[1], "--version") == 0) {
        printf("desk, gavberin %u\n", (unsigned)gav_version());
        return end("", true, &why);
    }
    misuse(&why, "unknown verb %s", argv[1]);
    return end("", false, &why);
}
