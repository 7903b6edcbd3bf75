/* The workbench in process: sessions that answer line by line, and whole runs of pespbench in memory, for C and for
 * languages that call C.
 *
 * The library is crates/pesp_embedded, proved, as a static library: tools/library builds its out/libpesp_embedded.a.
 * Link heap.c with it, or the toolchain's own heap. The caller's duties are below; nothing checks them. */
#ifndef PESPBENCH_H
#define PESPBENCH_H

#include <stdbool.h>
#include <stddef.h>
#include <stdint.h>

#ifdef __cplusplus
extern "C" {
#endif

/* The version of this header, as pesp_version returns that of the library: 1,000,000 for each major, 1,000 for each minor number,
 * and the patch. It is that of the last release, also with unreleased changes. */
#define PESP_VERSION 2000
uint32_t pesp_version(void);

/* How a call ended. */
enum pesp_status {
    PESP_DONE = 0,                /* all lines are answered */
    PESP_FAULT_OF_ACTIVITIES = 1, /* the file has a fault: `place` is its record, `reason` why, and nothing is answered */
    PESP_FAULT_OF_FIXED = 2,
    PESP_FAULT_OF_TIMES = 3,
    PESP_NOT_READ = 4,    /* commands cannot be read; memory always can, so this never occurs */
    PESP_NOT_WRITTEN = 5, /* no memory for the replies: `out` has a prefix of them */
    PESP_MEMORY = 6,      /* no memory at line `place`, 0 before the first: the lines before it are answered */
    PESP_LONG_LINE = 7,   /* line `place` has more than 4,096 bytes: the lines before it are answered */
    PESP_MANY_LINES = 8,  /* there are more than 1,000,000 lines: those are answered */
    PESP_NO_PERIOD = 9,   /* the period is not 2 to 1,440: nothing is done, and `out` is unchanged */
    /* Only of calls on a session. Nothing is done, and the call's outputs are unchanged. */
    PESP_CLOSED = 10,       /* the session is closed */
    PESP_OPEN = 11,         /* the session is open already */
    PESP_NOT_ONE_LINE = 12, /* there is a line feed in the line */
    PESP_REFUSED = 13       /* refused, as in docs/FORMATS.md: `reason` is the number, `place` the event or 0 */
};

/* Why a record of a file is refused. */
enum pesp_reason {
    PESP_FIELD_COUNT = 1,        /* wrong number of fields */
    PESP_BAD_NUMBER = 2,         /* field `field`, from 1, is not a number */
    PESP_OUT_OF_RANGE = 3,       /* field `field`, from 1, is out of range */
    PESP_FRACTIONAL_WEIGHT = 4,  /* weight has a fraction */
    PESP_CROSSED = 5,            /* lower bound above upper bound */
    PESP_DUPLICATE_ACTIVITY = 6, /* activity number is repeated */
    PESP_DUPLICATE_EVENT = 7,    /* event is repeated */
    PESP_NO_EVENT = 8,           /* event is not in the instance */
    PESP_TOO_MANY_EVENTS = 9,
    PESP_TOO_MANY_ACTIVITIES = 10,
    PESP_READING_MEMORY = 11 /* no memory to read this record */
};

/* The report of a call. */
struct pesp_told {
    uint64_t length; /* the bytes of the replies, or the count of numbers, even if `out` has less room for them */
    uint64_t place;  /* a record or a line, from 1; 0 if the status names none */
    uint32_t status; /* of pesp_status */
    uint32_t reason; /* of pesp_reason, for a fault of a file; the number of a refusal; else 0 */
    uint32_t field;  /* for PESP_BAD_NUMBER and PESP_OUT_OF_RANGE; else 0 */
};

/* Answers the lines of `commands`, like pespbench with these files: the same bytes.
 *
 * period: the time after which everything repeats, in the unit of the files, usually minutes: 2 to 1,440.
 * activities, fixed, times: the bytes of the files (docs/FORMATS.md has their forms). One without bytes is missing.
 * commands: the lines, with or without a last line feed.
 * out: the buffer for the replies. It receives as many of their bytes as fit, from its start; the rest of it is
 *     unchanged. If `told->length` is greater than `out_length`, call again with that length: a run gives the same
 *     replies each time (tested, not proved), unless memory runs out.
 * told: is always filled in completely.
 *
 * Nothing is kept between calls, and nothing of the caller's is kept or freed: when a call returns, it has freed all
 * memory that it allocated. It uses malloc, realloc and free (heap.c). Calls on several threads are independent.
 *
 * The caller ensures that each pointer is to memory of its own, or null where the length is 0 (the library itself never
 * receives null: the names at the end of this file ensure that, for calls that are compiled with it); that the bytes of
 * the first four pairs are set, and do not change during the call; that `out` (which need not be set) and `told` do not
 * overlap any other argument; that each length is below 2^63; and that the stack has room (192 kB). `period` is any
 * whole number of 16 bits. */
void pesp_answer(uint16_t period, const uint8_t *activities, size_t activities_length, const uint8_t *fixed,
                 size_t fixed_length, const uint8_t *times, size_t times_length, const uint8_t *commands,
                 size_t commands_length, uint8_t *out, size_t out_length, struct pesp_told *told);

/* A session: an instance and a working timetable, kept from call to call. Only the library reads or writes its fields.
 *
 * One of zeros is closed: struct pesp_session session = {0}. The library reports what it can detect: a call on a closed
 * session, and opening one that is open. The caller ensures the rest: a session is not null, only these calls open and
 * close it, and no copy of one is used beside it, nor one of bytes that no call wrote. One call at a time uses it, on any
 * thread; two sessions are independent. For other arguments the rules of pesp_answer apply. */
struct pesp_session {
    void *at;
    bool is_open;
};

/* Opens a closed session from the files, which it reads like pesp_answer. If `told->status` is not PESP_DONE, the session
 * is unchanged, and all memory is freed: an invalid period, a fault of a file, PESP_MEMORY at 0, PESP_OPEN. */
void pesp_open(uint16_t period, const uint8_t *activities, size_t activities_length, const uint8_t *fixed,
               size_t fixed_length, const uint8_t *times, size_t times_length, struct pesp_session *session,
               struct pesp_told *told);

/* Frees all memory of a session (tested, not proved) and closes it; a closed one stays closed. One that is not closed is
 * never freed. */
void pesp_close(struct pesp_session *session);

/* Answers one line, without its line feed: the program's bytes. The replies so far are those of a run over the lines so
 * far, of which a session may have any number.
 *
 * out: the buffer for the reply, as in pesp_answer. The reply to a change has at most 127 bytes; if a longer one does not
 *     fit, ask again.
 * If `told->status` is not PESP_DONE, the line is not answered, and instance and working timetable are unchanged:
 * PESP_CLOSED; PESP_LONG_LINE; PESP_NOT_ONE_LINE; PESP_MEMORY, which a blank line or a comment never causes: the first of
 * them that applies. Their `place` is 0. */
void pesp_ask(struct pesp_session *session, const uint8_t *line, size_t line_length, uint8_t *out, size_t out_length,
              struct pesp_told *told);

/* The cost of the working timetable, as a number. PESP_REFUSED, 11, if an event has no time: `place` is the least such
 * event. PESP_CLOSED. Nothing changes, and if every event has a time the call takes the same time at every size. */
void pesp_cost(struct pesp_session *session, uint64_t *cost, struct pesp_told *told);

/* By how much the cost would change if the event had this time: pesp_cost after `time` with both, less pesp_cost now.
 * Nothing changes. Its work is proportional to the activities at the event. PESP_CLOSED; then PESP_REFUSED, in this order:
 * 2, there is no such event, which is `place`; 4, the time is not below the period; 11, an event has no time: `place` is the
 * least such event. */
void pesp_try_move(struct pesp_session *session, uint32_t event, uint16_t time, int64_t *change, struct pesp_told *told);

/* Instead of the time of an event without one. */
#define PESP_NO_TIME 65535

/* The events, ascending, and the working timetable: the time of each event, in the same order. Nothing changes. PESP_CLOSED.
 *
 * out: the buffer for `out_length` numbers, aligned as C requires. It receives as many as fit, from its start; the rest of
 *     it is unchanged. `told->length` is the number of events. */
void pesp_events(struct pesp_session *session, uint32_t *out, size_t out_length, struct pesp_told *told);
void pesp_times(struct pesp_session *session, uint16_t *out, size_t out_length, struct pesp_told *told);

/* The domain of an event, as of `domain`: residue r is in it exactly if out[r / 8] >> r % 8 & 1. Nothing changes. There are
 * (period + 7) / 8 bytes, as `told->length` says; `out` is as in pesp_answer. PESP_CLOSED; PESP_REFUSED, 2, if there is no
 * such event, which is `place`. */
void pesp_domain(struct pesp_session *session, uint32_t event, uint8_t *out, size_t out_length, struct pesp_told *told);

/* The state of a search. */
enum pesp_search_state {
    PESP_NOTHING_YET = 0, /* it stopped with no timetable; there may be one */
    PESP_BEST_SO_FAR = 1, /* it stopped with a timetable that meets everything */
    PESP_OPTIMUM = 2,     /* the optimum is known, and returned */
    PESP_NO_TIMETABLE = 3 /* it is known that no timetable meets everything */
};

/* The quality of the timetable that a search returns; costs are as in pesp_cost. */
struct pesp_found {
    uint64_t cost;        /* of that timetable; 0 if none is returned */
    uint64_t lower_bound; /* a lower bound of each that meets everything; for PESP_OPTIMUM `cost`; 0 if there is none */
    uint32_t state;       /* of pesp_search_state */
    uint32_t goes_on;     /* 1 if the next call resumes this one, 0 if it restarts, or the search has ended */
};

/* Searches for the optimum with the work of `nodes` nodes (docs/FORMATS.md, `try`), and returns the best timetable so far, its
 * cost, and a lower bound. Instance and working timetable do not change.
 *
 * Successive calls are one search: each resumes the previous one, so call repeatedly, with as many nodes as you can wait for,
 * until the state is PESP_OPTIMUM or PESP_NO_TIMETABLE. Once the least cost is known, a call after one without progress
 * towards the first timetable of that cost takes up to twice as long as that one. Double the nodes after a call with
 * `goes_on` 0: a network of too many cycles is searched from the start each time. No later call of a search returns a dearer
 * timetable, or a smaller lower bound (tested, not proved).
 * If lines have changed the network in between (an event, a window, a fixed time, an activity, its ends, span or weight), the
 * next call restarts, with the best timetable so far if that still meets everything. Lines that change only times, and
 * queries, do not affect the search: `try` is a separate one (not proved); `optimum` and `adopt` resume this one to its end.
 *
 * nodes: any number, a limit of the call. With 0 it searches only what needs no node, such as an event with an empty domain,
 *     and returns the known answer again, or the best timetable so far, as long as it meets everything, with bound 0,
 *     and `goes_on` that of the last search with more nodes, of any network.
 * out: the time of each event in that timetable, as in pesp_times; for PESP_OPTIMUM those of `optimum`. If no timetable is
 *     returned, `told->length` is 0, and `out` unchanged. If it has less room, ask again with 0 nodes.
 * found: is filled in completely if `told->status` is PESP_DONE, and otherwise unchanged. PESP_CLOSED; PESP_MEMORY.
 *
 * The known answer remains until an edit that may change it, and until then `optimum`, `adopt` and this call answer at once.
 * No call can be stopped. */
void pesp_search(struct pesp_session *session, uint64_t nodes, uint16_t *out, size_t out_length, struct pesp_found *found,
                 struct pesp_told *told);

/* What the best timetable costs with the event at the time: what pesp_search returns after the line `fix`, but nothing of the
 * session changes, and at a time outside of the event's window no timetable meets everything. Call with more nodes until the
 * state is PESP_OPTIMUM or PESP_NO_TIMETABLE, or the cost equals the lower bound and so is the least; a call resumes the last
 * one of the same question, if `goes_on` was 1. Prices and pesp_search do not affect each other (not proved).
 *
 * nodes: as in pesp_search.
 * found: the cost, the lower bound and the state, if `told->status` is PESP_DONE, and otherwise unchanged. PESP_CLOSED;
 *     PESP_REFUSED: 2 if there is no such event, 4 if the time is not below the period; PESP_MEMORY. */
void pesp_price(struct pesp_session *session, uint32_t event, uint16_t time, uint64_t nodes, struct pesp_found *found,
                struct pesp_told *told);

/* What the best timetable costs with this tension of the activity, up to whole periods: what pesp_search returns after the line
 * `span A x x`, but nothing of the session changes. The activity itself then costs nothing: add its own cost, weight times
 * (tension - lower). Any tension can be asked for, also outside of the span.
 *
 * tension: any number of 16 bits. Those that differ by whole periods have the same price: pass it modulo the period, so that a
 *     call resumes the last one.
 * nodes, found: as in pesp_price. PESP_CLOSED; PESP_REFUSED: 6 if there is no such activity (`place` is 0); PESP_MEMORY. */
void pesp_price_tension(struct pesp_session *session, uint32_t activity, uint16_t tension, uint64_t nodes,
                        struct pesp_found *found, struct pesp_told *told);

#ifdef __cplusplus
}
#endif

/* Instead of null for empty data: bytes, and room for bytes and numbers, of which none is read or written. */
static inline const uint8_t *pesp_bytes(const uint8_t *bytes) {
    static const uint8_t none = 0;
    return bytes != NULL ? bytes : &none;
}

static inline uint8_t *pesp_room(uint8_t *out) {
    static uint8_t none;
    return out != NULL ? out : &none;
}

static inline uint16_t *pesp_room_of_times(uint16_t *out) {
    static uint16_t none;
    return out != NULL ? out : &none;
}

static inline uint32_t *pesp_room_of_events(uint32_t *out) {
    static uint32_t none;
    return out != NULL ? out : &none;
}

#define pesp_answer(period, activities, activities_length, fixed, fixed_length, times, times_length, commands, commands_length, \
                    out, out_length, told)                                                                                      \
    pesp_answer(period, pesp_bytes(activities), activities_length, pesp_bytes(fixed), fixed_length, pesp_bytes(times),          \
                times_length, pesp_bytes(commands), commands_length, pesp_room(out), out_length, told)
#define pesp_open(period, activities, activities_length, fixed, fixed_length, times, times_length, session, told)         \
    pesp_open(period, pesp_bytes(activities), activities_length, pesp_bytes(fixed), fixed_length, pesp_bytes(times), \
              times_length, session, told)
#define pesp_ask(session, line, line_length, out, out_length, told) \
    pesp_ask(session, pesp_bytes(line), line_length, pesp_room(out), out_length, told)
#define pesp_events(session, out, out_length, told) pesp_events(session, pesp_room_of_events(out), out_length, told)
#define pesp_times(session, out, out_length, told) pesp_times(session, pesp_room_of_times(out), out_length, told)
#define pesp_domain(session, event, out, out_length, told) pesp_domain(session, event, pesp_room(out), out_length, told)
#define pesp_search(session, nodes, out, out_length, found, told) \
    pesp_search(session, nodes, pesp_room_of_times(out), out_length, found, told)

#endif
