/* Executes scripts of orders, each in a thread of its own, and writes the result of each call.
 *
 * usage: caller SCRIPT ANSWERS [SCRIPT ANSWERS]
 *
 * An order is a line of eleven words, KIND SLOT FIRST SECOND THIRD ROOM REFUSAL and four lengths, and the texts after it. KIND is a
 * call of calls.c, or `m`, which moves a session to another place in memory, or `x`, at which two threads exchange their
 * sessions. An answer is a line, KIND, told, the four numbers, how many bytes are shown, a fault or `-`; and the bytes. One
 * of a call that was refused memory has KIND in upper case, and the call is made again. The last line of standard output has
 * the blocks that are still held, the calls, the requests for memory and how many of those were refused. */
#include "caller.h"

#include <ctype.h>
#include <inttypes.h>
#include <pthread.h>
#include <stdlib.h>
#include <string.h>

/* This many requests of a call are refused one by one, and then fewer and fewer of them. */
enum { SLOTS = 4, THREADS = 2, REFUSED_IN_TURN = 150 };

struct work {
    FILE *script, *answers;
    struct pesp_session **sessions;
    unsigned long calls;
    int number, exchanges;
};

static struct pesp_session *all_sessions[THREADS][SLOTS];
static int thread_count;
static pthread_barrier_t meeting;

static void give_up(const char *why) {
    fprintf(stderr, "caller: %s\n", why);
    exit(3);
}

static bool read_order(FILE *script, struct order *order) {
    *order = (struct order){0};
    int words = fscanf(script, " %c %u %" SCNu64 " %" SCNu64 " %" SCNu64 " %zu %d %zu %zu %zu %zu", &order->kind, &order->slot,
                       &order->first, &order->second, &order->third, &order->room, &order->refusal, &order->lengths[0],
                       &order->lengths[1], &order->lengths[2], &order->lengths[3]);
    if (words == EOF) return false;
    if (words != 11 || order->slot >= SLOTS || getc(script) != '\n') give_up("an order cannot be read");
    for (int place = 0; place < 4; place += 1) {
        size_t length = order->lengths[place];
        order->texts[place] = block_of(length);
        if (length != 0 && fread(order->texts[place], 1, length, script) != length) give_up("an order is cut");
    }
    return true;
}

static void write_answer(FILE *answers, char kind, const struct answer *answer, const char *fault) {
    const struct pesp_told *told = &answer->told;
    fprintf(answers, "%c %" PRIu64 " %" PRIu64 " %" PRIu32 " %" PRIu32 " %" PRIu32, kind, told->length, told->place, told->status,
            told->reason, told->field);
    for (int place = 0; place < 4; place += 1) fprintf(answers, " %" PRIu64, answer->numbers[place]);
    fprintf(answers, " %zu %s\n", answer->shown, fault != NULL ? fault : answer->is_kept ? "-" : "the rest of the room has changed");
    if (answer->shown != 0) fwrite(answer->room, 1, answer->shown, answers);
}

/* Moves a session to another place in memory; the first place is then unusable. */
static void move_session(struct pesp_session **place) {
    struct pesp_session *other = block_of(sizeof *other);
    memcpy(other, *place, sizeof *other);
    memset(*place, 0xA5, sizeof **place);
    free(*place);
    *place = other;
}

static bool is_open(struct pesp_session *session) {
    uint64_t cost = 0;
    struct pesp_told told;
    pesp_cost(session, &cost, &told);
    return told.status != PESP_CLOSED;
}

/* The fault after a call that was refused memory, if any: it must free everything, and leave a session unchanged. */
static const char *fault_of(const struct order *order, struct pesp_session *session, bool was_open, uint8_t *before, size_t length, long held) {
    if (order->kind == 'o' && !was_open && is_open(session)) return "a session is open after a fault";
    if (!was_open) return held_blocks() == held ? NULL : "memory is kept by a call that was refused it";
    size_t now_length = 0;
    uint8_t *now = state_of(session, &now_length);
    bool is_same = now_length == length && memcmp(now, before, length) == 0;
    free(now);
    return is_same ? NULL : "a call that was refused memory has changed the session";
}

/* Whether a call that was refused memory is repeated: not if it succeeded nevertheless. */
static bool is_made_again(const struct order *order, struct pesp_session *session, const struct answer *answer, uint8_t *before, size_t length) {
    if (answer->told.status != PESP_DONE || order->kind == 'w') return true;
    if (order->kind == 'o') {
        pesp_close(session);
        return true;
    }
    if (order->kind != 'a') return false;
    size_t now_length = 0;
    uint8_t *now = state_of(session, &now_length);
    bool is_same = now_length == length && memcmp(now, before, length) == 0;
    free(now);
    return is_same;
}

/* Makes a call with one memory request after the other refused, until none is or it succeeds nevertheless. */
static void refuse_each(struct work *work, const struct order *order, struct pesp_session *session) {
    bool was_open = order->kind != 'w' && is_open(session), is_again = true;
    size_t length = 0;
    uint8_t *before = was_open ? state_of(session, &length) : NULL;
    for (uint64_t request = 1, tried = 0; is_again; tried += 1, request += 1 + tried / REFUSED_IN_TURN) {
        struct answer answer;
        long held = held_blocks();
        refuse_requests(request, order->refusal == ALONE ? request : UINT64_MAX);
        make_call(order, session, &answer);
        uint64_t refused = refused_requests();
        refuse_requests(0, 0);
        work->calls += 1;
        is_again = refused != 0 && is_made_again(order, session, &answer, before, length);
        const char *fault = is_again ? fault_of(order, session, was_open, before, length, held) : NULL;
        write_answer(work->answers, is_again ? (char)toupper(order->kind) : order->kind, &answer, fault);
        let_go(&answer);
    }
    free(before);
}

static void carry_out(struct work *work, const struct order *order) {
    struct pesp_session **session = &work->sessions[order->slot];
    if (order->kind == 'm') {
        move_session(session);
    } else if (order->kind == 'x') {
        pthread_barrier_wait(&meeting);
        work->exchanges += 1;
        work->sessions = all_sessions[(work->number + work->exchanges) % thread_count];
    } else if (order->refusal != NONE) {
        refuse_each(work, order, *session);
    } else {
        struct answer answer;
        make_call(order, *session, &answer);
        work->calls += 1;
        write_answer(work->answers, order->kind, &answer, NULL);
        let_go(&answer);
    }
}

static void *carry_out_all(void *given) {
    struct work *work = given;
    struct order order;
    while (read_order(work->script, &order)) {
        carry_out(work, &order);
        for (int place = 0; place < 4; place += 1) free(order.texts[place]);
    }
    return NULL;
}

static void start(struct work *work, int number, char **paths, pthread_t *thread) {
    *work = (struct work){fopen(paths[0], "rb"), fopen(paths[1], "wb"), all_sessions[number], 0, number, 0};
    if (work->script == NULL || work->answers == NULL) give_up("a file cannot be opened");
    for (int slot = 0; slot < SLOTS; slot += 1) {
        struct pesp_session *session = block_of(sizeof *session);
        memset(session, 0, sizeof *session);
        all_sessions[number][slot] = session;
    }
    if (pthread_create(thread, NULL, carry_out_all, work) != 0) give_up("no thread");
}

int main(int count, char **words) {
    static struct work works[THREADS];
    pthread_t threads[THREADS];
    thread_count = (count - 1) / 2;
    if (count % 2 == 0 || thread_count < 1 || thread_count > THREADS) give_up("SCRIPT ANSWERS, once or twice");
    pthread_barrier_init(&meeting, NULL, (unsigned)thread_count);
    for (int number = 0; number < thread_count; number += 1) start(&works[number], number, words + 1 + 2 * number, &threads[number]);
    unsigned long calls = 0;
    for (int number = 0; number < thread_count; number += 1) {
        pthread_join(threads[number], NULL);
        calls += works[number].calls;
        fclose(works[number].script);
        if (fclose(works[number].answers) != 0) give_up("answers cannot be written");
    }
    for (int number = 0; number < thread_count; number += 1)
        for (int slot = 0; slot < SLOTS; slot += 1) free(all_sessions[number][slot]);
    struct totals totals = all_threads();
    printf("%ld %lu %lu %lu\n", totals.held, calls, totals.requests, totals.refused);
    return 0;
}
