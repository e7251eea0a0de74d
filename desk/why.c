/* What went wrong, in words, and the exit status that goes with it. */
#include "desk.h"

#include <stdarg.h>
#include <stdlib.h>
#include <string.h>

/* Written in place of the middle of a text that is too long: the reason is at its end. */
#define LEFT_OUT " [..] "

/* Keeps words, as they are or without their middle. */
static void keep(struct why *why, const char *words) {
    size_t len = strlen(words), room = sizeof why->text - 1, head = room / 4;
    if (len <= room) {
        memcpy(why->text, words, len + 1);
        return;
    }
    size_t tail = room - head - strlen(LEFT_OUT);
    memcpy(why->text, words, head);
    memcpy(why->text + head, LEFT_OUT, strlen(LEFT_OUT));
    memcpy(why->text + head + strlen(LEFT_OUT), words + len - tail, tail + 1);
}

/* The words of a format, with others behind them. */
static void word(struct why *why, const char *format, va_list list, const char *behind) {
    va_list again;
    va_copy(again, list);
    int len = vsnprintf(NULL, 0, format, again);
    va_end(again);
    size_t size = (len < 0 ? 0 : (size_t)len) + strlen(behind) + 1;
    char *words = malloc(size);
    if (!words) {
        keep(why, "no memory for the words of what went wrong");
        return;
    }
    words[0] = '\0';
    vsnprintf(words, size, format, list);
    memcpy(words + strlen(words), behind, strlen(behind) + 1);
    keep(why, words);
    free(words);
}

bool refuse(struct why *why, const char *format, ...) {
    va_list list;
    va_start(list, format);
    why->status = REFUSED;
    word(why, format, list, "");
    va_end(list);
    return false;
}

bool misuse(struct why *why, const char *format, ...) {
    va_list list;
    va_start(list, format);
    why->status = MISUSED;
    word(why, format, list, "");
    va_end(list);
    return false;
}

bool preface(struct why *why, const char *format, ...) {
    char kept[sizeof why->text];
    memcpy(kept, why->text, sizeof kept);
    va_list list;
    va_start(list, format);
    word(why, format, list, kept);
    va_end(list);
    return false;
}

const char *what_is_written(const struct why *why) {
    if (why->written == 0) return "";
    if (why->edited) return "the files are written, and the same edits must not be made again";
    return counted(why->written, "the file is written", "the files are written");
}

const char *counted(size_t count, const char *one, const char *many) { return count == 1 ? one : many; }
