/* A caller of the library in process that makes the calls that scripts order, each with memory of exactly the needed size. */
#ifndef CALLER_H
#define CALLER_H

#include "pespbench.h"

#include <stdbool.h>
#include <stddef.h>
#include <stdint.h>
#include <stdio.h>

/* An order: `kind` is one of the letters that calls.c lists. */
struct order {
    char kind;
    unsigned slot;                 /* the session */
    uint64_t first, second, third; /* a period; an event and a time, or an activity and a tension, and nodes; or nodes */
    size_t room;                   /* how many bytes or numbers there is room for */
    int refusal;                   /* of enum refusal */
    size_t lengths[4];
    uint8_t *texts[4]; /* files, commands, a line: null where the length is 0 */
};

/* How memory requests are refused in a call that is repeated until none is. */
enum refusal { NONE = 0, ALONE = 1, WITH_ALL_LATER_ONES = 2 };

/* The result of a call. */
struct answer {
    struct pesp_told told;
    uint64_t numbers[4]; /* of a cost, a change, a search or a price */
    uint8_t *room;
    size_t bytes; /* how many the room has */
    size_t shown; /* how many of those the call has filled in */
    bool is_kept; /* whether the rest of the room stayed as it was */
};

/* calls.c */
void make_call(const struct order *order, struct pesp_session *session, struct answer *answer);
void let_go(struct answer *answer);
/* The network, the domains and the working timetable, as bytes. */
uint8_t *state_of(struct pesp_session *session, size_t *length);

/* memory.c: the functions that heap.c calls instead of malloc, realloc and free. */
void refuse_requests(uint64_t from, uint64_t to);
/* The number of requests refused since the last reset. */
uint64_t refused_requests(void);
/* The blocks that this thread allocated in calls and has not freed. */
long held_blocks(void);
struct totals {
    long held;
    unsigned long requests, refused;
};
struct totals all_threads(void);

/* A block of exactly this many bytes, or null for none; without memory the caller ends. */
void *block_of(size_t bytes);

#endif
