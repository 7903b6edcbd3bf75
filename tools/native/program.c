/* The program over the library: its words, files, streams, exit statuses and faults. It is not proved. */
#include "pespbench.h"

#include <errno.h>
#include <fcntl.h>
#include <poll.h>
#include <signal.h>
#include <stdarg.h>
#include <stdio.h>
#include <stdlib.h>
#include <string.h>
#include <unistd.h>

#include "words.h"

#define LONGEST_FILE 67108864u
#define LONGEST_LINE 4096u
#define MOST_LINES 1000000u
#define PIECE 1048576u

struct bytes {
    uint8_t *at;
    size_t length, room;
};

static const char *const NAMES[FILES] = {"activities", "fixed", "times"};
static const char *const REASONS[] = {"", "wrong number of fields", "is not a number", "is out of range", "weight has a fraction",
    "lower bound above upper bound", "activity number is repeated", "event is repeated", "event is not in the instance",
    "too many events", "too many activities", "out of memory"};

void fail(const char *form, ...) {
    va_list more;
    va_start(more, form);
    fputs("pespbench: ", stderr);
    vfprintf(stderr, form, more);
    fputc('\n', stderr);
    va_end(more);
    exit(1);
}

/* Whether to repeat a call; a shared device may not wait by itself. */
static bool again(int file, short events) {
    struct pollfd wanted = {file, events, 0};
    if (errno == EAGAIN || errno == EWOULDBLOCK) poll(&wanted, 1, -1);
    return errno == EAGAIN || errno == EWOULDBLOCK || errno == EINTR;
}

void write_all(const void *bytes, size_t length) {
    for (const uint8_t *from = bytes; length > 0;) {
        ssize_t count = write(1, from, length);
        if (count < 0 && !again(1, POLLOUT)) fail("replies cannot be written");
        if (count > 0) {
            from += count;
            length -= (size_t)count;
        }
    }
}

/* Reads some more bytes; returns their number, 0 at the end, and below 0 on failure. */
static ssize_t read_more(int file, struct bytes *bytes) {
    if (bytes->room - bytes->length < PIECE) {
        bytes->room = 2 * bytes->room + PIECE;
        bytes->at = realloc(bytes->at, bytes->room);
        if (bytes->at == NULL) fail("out of memory at line 0");
    }
    ssize_t count;
    do count = read(file, bytes->at + bytes->length, PIECE);
    while (count < 0 && again(file, POLLIN));
    if (count > 0) bytes->length += (size_t)count;
    return count;
}

static struct bytes contents(const char *name, const char *path) {
    struct bytes bytes = {NULL, 0, 0};
    if (path == NULL) return bytes;
    int file = open(path, O_RDONLY | O_CLOEXEC);
    if (file < 0) fail("%s file cannot be read", name);
    ssize_t count = 1;
    while (count > 0 && bytes.length <= LONGEST_FILE) count = read_more(file, &bytes);
    if (count < 0) fail("%s file cannot be read", name);
    if (bytes.length > LONGEST_FILE) fail("%s file is too long", name);
    close(file);
    return bytes;
}

static void fail_of_file(const struct pesp_told *told) {
    char field[32] = "";
    if (told->field != 0) snprintf(field, sizeof field, "field %u ", (unsigned)told->field);
    fail("%s file, record %llu: %s%s", NAMES[told->status - PESP_FAULT_OF_ACTIVITIES], (unsigned long long)told->place, field, REASONS[told->reason]);
}

/* Opens a session of the files, whose faults end the process. */
static struct pesp_session opened(const struct settings *settings) {
    struct bytes files[FILES];
    struct pesp_session session = {0};
    struct pesp_told told;
    for (int place = 0; place < FILES; place += 1) files[place] = contents(NAMES[place], settings->paths[place]);
    pesp_open(settings->period, files[0].at, files[0].length, files[1].at, files[1].length, files[2].at, files[2].length, &session, &told);
    if (told.status >= PESP_FAULT_OF_ACTIVITIES && told.status <= PESP_FAULT_OF_TIMES) fail_of_file(&told);
    if (told.status != PESP_DONE) fail("out of memory at line 0");
    for (int place = 0; place < FILES; place += 1) free(files[place].at);
    return session;
}

/* Answers a line on standard output. Replies to changes and searches fit the first room; a query whose reply does not is repeated. */
static void answer(struct pesp_session *session, const uint8_t *line, size_t length, unsigned place) {
    static struct bytes out = {NULL, 0, 0};
    struct pesp_told told = {PIECE, 0, PESP_DONE, 0, 0};
    do {
        if (told.length > out.room) {
            out.room = told.length;
            out.at = realloc(out.at, out.room);
            if (out.at == NULL) fail("out of memory at line %u", place);
        }
        pesp_ask(session, line, length, out.at, out.room, &told);
    } while (told.status == PESP_DONE && told.length > out.room);
    if (told.status != PESP_DONE) fail("out of memory at line %u", place);
    write_all(out.at, told.length);
}

/* Answers the complete lines; the last one of all may have no line feed. Returns how many bytes they have. */
static size_t answer_lines(struct pesp_session *session, const struct bytes *held, bool is_over, unsigned *place) {
    size_t from = 0;
    while (from < held->length) {
        const uint8_t *line = held->at + from, *end = memchr(line, '\n', held->length - from);
        size_t length = end != NULL ? (size_t)(end - line) : held->length - from;
        if (*place == MOST_LINES) fail("more than %u lines", MOST_LINES);
        if (length > LONGEST_LINE) fail("line %u is longer than %u bytes", *place + 1, LONGEST_LINE);
        if (end == NULL && !is_over) break;
        answer(session, line, length, *place += 1);
        from += length + (end != NULL);
    }
    return from;
}

static void answer_all(struct pesp_session *session) {
    struct bytes held = {NULL, 0, 0};
    unsigned place = 0;
    for (bool is_over = false; !is_over;) {
        ssize_t count = read_more(0, &held);
        if (count < 0) fail("commands cannot be read");
        is_over = count == 0;
        size_t done = answer_lines(session, &held, is_over, &place);
        memmove(held.at, held.at + done, held.length - done);
        held.length -= done;
    }
    free(held.at);
}

int main(int count, char **words) {
    signal(SIGPIPE, SIG_IGN);
    struct settings settings = settings_of(count, words);
    struct pesp_session session = opened(&settings);
    if (settings.is_check) {
        static const char *const CHECK[] = {"tensions", "violations", "cost"};
        for (int place = 0; place < 3; place += 1) answer(&session, (const uint8_t *)CHECK[place], strlen(CHECK[place]), 0);
    } else {
        answer_all(&session);
    }
    pesp_close(&session);
    return 0;
}
