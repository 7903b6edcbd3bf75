/* The words of the command line. */
#ifndef WORDS_H
#define WORDS_H

#include <stdbool.h>
#include <stddef.h>
#include <stdint.h>

enum { ACTIVITIES, FIXED, TIMES, FILES };

struct settings {
    uint16_t period;
    bool is_check;
    const char *paths[FILES]; /* null where there is none */
};

/* Parses the words like the program, in order; the first refused one ends the process with status 2. A request for help or the
 * version is answered, and ends it too. */
struct settings settings_of(int count, char **words);

/* Ends the process with status 1, and reports the fault like the program. */
void fail(const char *form, ...) __attribute__((noreturn, format(printf, 1, 2)));

/* Writes all of it to standard output, or fails. */
void write_all(const void *bytes, size_t length);

#endif
