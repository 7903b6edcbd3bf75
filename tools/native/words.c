#include "words.h"

#include <stdio.h>
#include <stdlib.h>
#include <string.h>

#include "texts.h"

#define LEAST_PERIOD 2
#define GREATEST_PERIOD 1440
#define USUAL_PERIOD 60

static const char MORE[] = "\n\nUsage: pespbench [OPTIONS] [ACTIVITIES]\n\nFor more information, try '--help'.\n";
static const char *const OPTIONS[FILES] = {NULL, "fixed", "times"};

/* The options so far. */
struct given {
    struct settings settings;
    bool has_period;
    char **rest;
};

static void refuse(const char *form, const char *word, const char *name) {
    fputs("error: ", stderr);
    fprintf(stderr, form, word, name);
    fputs(MORE, stderr);
    exit(2);
}

/* The length of a valid UTF-8 character in bytes, in its shortest form, and not a surrogate; 0 if it is invalid. */
static int length_of(const unsigned char *at) {
    if (at[0] < 0x80) return 1;
    int length = at[0] >= 0xf0 ? 4 : at[0] >= 0xe0 ? 3 : 2;
    if (at[0] < 0xc2 || at[0] > 0xf4) return 0;
    for (int place = 1; place < length; place += 1)
        if ((at[place] & 0xc0) != 0x80) return 0;
    bool is_long = (at[0] == 0xe0 && at[1] < 0xa0) || (at[0] == 0xf0 && at[1] < 0x90);
    bool is_beyond = (at[0] == 0xed && at[1] > 0x9f) || (at[0] == 0xf4 && at[1] > 0x8f);
    return is_long || is_beyond ? 0 : length;
}

static bool is_text(const char *word) {
    int length = 1;
    for (const unsigned char *at = (const unsigned char *)word; *at != 0 && length != 0; at += length) length = length_of(at);
    return length != 0;
}

static uint16_t period_of(const char *word) {
    const char *digits = word + (*word == '+');
    unsigned period = 0;
    for (const char *at = digits; *at >= '0' && *at <= '9' && period <= GREATEST_PERIOD; at += 1) period = 10 * period + (unsigned)(*at - '0');
    bool is_number = *digits != 0 && digits[strspn(digits, "0123456789")] == 0;
    if (!is_number || period < LEAST_PERIOD || period > GREATEST_PERIOD) refuse("invalid value '%s' for '--period <T>': it is not in 2..=1440", word, "");
    return (uint16_t)period;
}

/* The value of an option follows `=`, or is the next word, unless that begins with `-`. */
static const char *value_of(struct given *given, const char *name, const char *inside) {
    if (inside != NULL) return inside;
    const char *next = *given->rest;
    if (next == NULL || (next[0] == '-' && next[1] != 0)) refuse("a value is required for '--%s'%s", name, "");
    given->rest += 1;
    return next;
}

static void once(bool is_given, const char *name) {
    if (is_given) refuse("the argument '--%s' cannot be used multiple times%s", name, "");
}

static void help(void) {
    write_all(HELP, sizeof HELP - 1);
    exit(0);
}

static void version(void) {
    write_all(VERSION_TEXT, sizeof VERSION_TEXT - 1);
    exit(0);
}

/* Handles an option with a value; returns whether it is one. */
static bool take_valued(struct given *given, const char *name, const char *inside) {
    if (strcmp(name, "period") == 0) {
        const char *value = value_of(given, name, inside);
        once(given->has_period, name);
        given->settings.period = period_of(value);
        given->has_period = true;
        return true;
    }
    for (int place = FIXED; place <= TIMES; place += 1) {
        if (strcmp(name, OPTIONS[place]) != 0) continue;
        const char *value = value_of(given, name, inside);
        once(given->settings.paths[place] != NULL, name);
        given->settings.paths[place] = value;
        return true;
    }
    return false;
}

static bool take_plain(struct given *given, const char *name, const char *inside) {
    bool is_check = strcmp(name, "check") == 0, is_help = strcmp(name, "help") == 0;
    if (!is_check && !is_help && strcmp(name, "version") != 0) return false;
    if (inside != NULL) refuse("unexpected value '%s' for '--%s'", inside, name);
    if (is_help) help();
    if (!is_check) version();
    once(given->settings.is_check, name);
    given->settings.is_check = true;
    return true;
}

static void take_option(struct given *given, const char *word) {
    if (word[1] == '-') {
        char name[16] = "";
        const char *inside = strchr(word, '=');
        size_t length = inside != NULL ? (size_t)(inside - word - 2) : strlen(word + 2);
        if (length < sizeof name) memcpy(name, word + 2, length);
        inside = inside != NULL ? inside + 1 : NULL;
        if (take_valued(given, name, inside) || take_plain(given, name, inside)) return;
    } else if (word[1] == 'h') {
        help();
    } else if (word[1] == 'V') {
        version();
    }
    refuse("unexpected argument '%s' found%s", word, "");
}

static void take_file(struct given *given, const char *word) {
    if (given->settings.paths[ACTIVITIES] != NULL) refuse("unexpected argument '%s' found%s", word, "");
    given->settings.paths[ACTIVITIES] = word;
}

struct settings settings_of(int count, char **words) {
    for (int place = 1; place < count; place += 1)
        if (!is_text(words[place])) refuse("a word of the command line is not UTF-8%s%s", "", "");
    struct given given = {{USUAL_PERIOD, false, {NULL, NULL, NULL}}, false, count > 0 ? words + 1 : words};
    bool are_files = false;
    while (*given.rest != NULL) {
        const char *word = *given.rest++;
        if (!are_files && strcmp(word, "--") == 0) are_files = true;
        else if (!are_files && word[0] == '-' && word[1] != 0) take_option(&given, word);
        else take_file(&given, word);
    }
    return given.settings;
}
