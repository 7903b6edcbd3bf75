/* Answers commands over files, like pespbench: the same replies, the same line for a fault, the same exit status.
 *
 * usage: answer PERIOD ACTIVITIES FIXED TIMES <COMMANDS, with `-` for a missing file */
#include "pespbench.h"

#include <signal.h>
#include <stdio.h>
#include <stdlib.h>
#include <string.h>

#define LONGEST_FILE 67108864

struct bytes {
    uint8_t *at;
    size_t length;
};

static const char *const names[] = {"activities", "fixed", "times"};

static void fail(const char *why) {
    fprintf(stderr, "pespbench: %s\n", why);
    exit(1);
}

static struct bytes room(size_t length) {
    struct bytes bytes = {malloc(length != 0 ? length : 1), length};
    if (bytes.at == NULL) fail("out of memory at line 0");
    return bytes;
}

/* The bytes of a stream up to its end, a failure, or the limit; ferror distinguishes the first two. */
static struct bytes whole(FILE *file, size_t most) {
    struct bytes bytes = room(0);
    static uint8_t piece[65536];
    size_t more, size = 0;
    while (bytes.length <= most && (more = fread(piece, 1, sizeof piece, file)) > 0) {
        if (bytes.length + more > size) {
            size = 2 * (bytes.length + more);
            bytes.at = realloc(bytes.at, size);
            if (bytes.at == NULL) fail("out of memory at line 0");
        }
        memcpy(bytes.at + bytes.length, piece, more);
        bytes.length += more;
    }
    return bytes;
}

static void fail_of(const char *name, const char *why) {
    fprintf(stderr, "pespbench: %s file %s\n", name, why);
    exit(1);
}

static struct bytes file_at(const char *path, const char *name) {
    if (strcmp(path, "-") == 0) return room(0);
    FILE *file = fopen(path, "rb");
    if (file == NULL) fail_of(name, "cannot be read");
    struct bytes bytes = whole(file, LONGEST_FILE);
    if (ferror(file)) fail_of(name, "cannot be read");
    if (bytes.length > LONGEST_FILE) fail_of(name, "is too long");
    fclose(file);
    return bytes;
}

/* The commands; if reading fails, the complete lines before that. */
static struct bytes commands_of(FILE *file) {
    struct bytes commands = whole(file, SIZE_MAX - 1);
    if (ferror(file)) {
        while (commands.length > 0 && commands.at[commands.length - 1] != '\n') commands.length -= 1;
    }
    return commands;
}

/* The period of a word of digits, optionally after a +. */
static uint16_t period_of(const char *word) {
    const char *digits = word + (*word == '+');
    unsigned long period = 0;
    for (const char *at = digits; *at >= '0' && *at <= '9' && period <= 1440; at += 1) period = 10 * period + (unsigned long)(*at - '0');
    if (digits[0] == '\0' || digits[strspn(digits, "0123456789")] != '\0' || period < 2 || period > 1440) {
        fprintf(stderr, "answer: PERIOD is a whole number from 2 to 1440\n");
        exit(2);
    }
    return (uint16_t)period;
}

static const char *text_of(uint32_t reason) {
    static const char *const texts[] = {"wrong number of fields", "is not a number", "is out of range",
        "weight has a fraction", "lower bound above upper bound", "activity number is repeated", "event is repeated",
        "event is not in the instance", "too many events", "too many activities", "out of memory"};
    return texts[reason - PESP_FIELD_COUNT];
}

static void tell(const struct pesp_told *told) {
    unsigned long long place = told->place;
    switch (told->status) {
    case PESP_DONE: return;
    case PESP_NOT_READ: fprintf(stderr, "pespbench: commands cannot be read\n"); return;
    case PESP_NOT_WRITTEN: fprintf(stderr, "pespbench: out of memory for the replies\n"); return;
    case PESP_MEMORY: fprintf(stderr, "pespbench: out of memory at line %llu\n", place); return;
    case PESP_LONG_LINE: fprintf(stderr, "pespbench: line %llu is longer than 4096 bytes\n", place); return;
    case PESP_MANY_LINES: fprintf(stderr, "pespbench: more than 1000000 lines\n"); return;
    case PESP_NO_PERIOD: fprintf(stderr, "pespbench: the period is not 2 to 1440\n"); return;
    default: fprintf(stderr, "pespbench: %s file, record %llu: ", names[told->status - PESP_FAULT_OF_ACTIVITIES], place);
    }
    if (told->field != 0) fprintf(stderr, "field %u ", (unsigned)told->field);
    fprintf(stderr, "%s\n", text_of(told->reason));
}

static struct bytes answered(uint16_t period, const struct bytes files[3], struct bytes commands, struct pesp_told *told) {
    struct bytes out = room(1 << 16);
    for (;;) {
        pesp_answer(period, files[0].at, files[0].length, files[1].at, files[1].length, files[2].at, files[2].length,
                    commands.at, commands.length, out.at, out.length, told);
        if (told->length <= out.length) return out;
        free(out.at);
        out = room(told->length);
    }
}

int main(int count, char **words) {
    if (count != 5) {
        fprintf(stderr, "usage: answer PERIOD ACTIVITIES FIXED TIMES <COMMANDS\n");
        return 2;
    }
#ifdef SIGPIPE
    signal(SIGPIPE, SIG_IGN);
#endif
    uint16_t period = period_of(words[1]);
    struct bytes files[3];
    for (int place = 0; place < 3; place += 1) files[place] = file_at(words[2 + place], names[place]);
    struct bytes commands = commands_of(stdin);
    struct pesp_told told;
    struct bytes out = answered(period, files, commands, &told);
    if (fwrite(out.at, 1, told.length, stdout) != told.length || fflush(stdout) != 0) fail("replies cannot be written");
    if (told.status == PESP_DONE && ferror(stdin)) told.status = PESP_NOT_READ;
    tell(&told);
    free(out.at);
    free(commands.at);
    for (int place = 0; place < 3; place += 1) free(files[place].at);
    return told.status == PESP_DONE ? 0 : 1;
}
