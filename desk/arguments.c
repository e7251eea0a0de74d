/* The options and operands of a verb, and the numbers in them. */
#include "desk.h"

#include <stdlib.h>
#include <string.h>

/* An option's name is at most this long; a longer word is none. */
#define MOST_NAME 32u

bool is_help(const char *word) { return strcmp(word, "--help") == 0 || strcmp(word, "-h") == 0; }

/* The place of the option's value; NULL where the verb has no such option. */
static const char **place_of_value(const struct arguments *takes, const char *name) {
    for (const struct option *option = takes->options; option->name; option++) {
        if (strcmp(option->name, name) == 0) return option->value;
    }
    return takes->settings ? setting_text(takes->settings, name) : NULL;
}

/* Takes the option at *given, whose value follows a '=' or is the next word; one that stands alone has its own name for
   its value. *given is then at its last word. */
static bool take_option(char ***given, const struct arguments *takes, struct why *why) {
    const char *word = **given, *equals = strchr(word, '=');
    size_t len = equals ? (size_t)(equals - word) : strlen(word);
    char name[MOST_NAME + 1] = "";
    if (len <= MOST_NAME) memcpy(name, word, len);
    const char **value = place_of_value(takes, name);
    if (!value) return misuse(why, "unknown option %s", word);
    if (*value) return misuse(why, "%s is given twice", name);
    if (stands_alone(name)) {
        if (equals) return misuse(why, "%s takes no value", name);
        *value = word;
    } else if (equals) {
        *value = equals + 1;
    } else if ((*given)[1]) {
        *value = *++*given;
    } else {
        return misuse(why, "%s needs a value", name);
    }
    return true;
}

/* Whether a word asks for help in the place of an option or an operand; the word after an option that does not stand
   alone is its value. */
static bool asks_for_help(char **given, const struct arguments *takes) {
    for (; *given && strcmp(*given, "--") != 0; given++) {
        if (is_help(*given)) return true;
        if (place_of_value(takes, *given) && !stands_alone(*given) && given[1]) given++;
    }
    return false;
}

bool read_arguments(char **given, const struct arguments *takes, struct why *why) {
    const struct option *operand = takes->operands;
    bool only_operands = false;
    why->help = asks_for_help(given, takes);
    if (why->help) return false;
    for (; *given; given++) {
        const char *word = *given;
        if (!only_operands && strcmp(word, "--") == 0) {
            only_operands = true;
        } else if (!only_operands && word[0] == '-' && word[1] != '\0') {
            if (!take_option(&given, takes, why)) return false;
        } else if (!operand->name) {
            return misuse(why, "one argument too many: %s", word);
        } else {
            *operand++->value = word;
        }
    }
    if (!operand->name || (takes->or_no_operands && operand == takes->operands)) return true;
    return misuse(why, "%s is missing", operand->name);
}

bool read_number(const char *name, const char *text, double *value, struct why *why) {
    char *end;
    *value = strtod(text, &end);
    return end != text && *end == '\0' ? true : misuse(why, "%s: \"%s\" is no number", name, text);
}

bool read_whole(const char *name, const char *unit, const char *text, uint64_t most, uint64_t *value, struct why *why) {
    uint64_t sum = 0;
    const char *at = text;
    for (; *at >= '0' && *at <= '9'; at++) {
        uint64_t digit = (uint64_t)(*at - '0');
        if (digit > most || sum > (most - digit) / 10) {
            return misuse(why, "%s: %s is above %llu %s", name, text, (unsigned long long)most, unit);
        }
        sum = 10 * sum + digit;
    }
    *value = sum;
    return at != text && *at == '\0' ? true : misuse(why, "%s: \"%s\" is no whole number of %s", name, text, unit);
}
