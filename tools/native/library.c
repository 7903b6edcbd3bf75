/* The calls of pespbench.h over the page's module in C: each session has a module of its own, and uses only that one's memory.
 * Arguments are copied into it, and results out of it. It is not proved. */
#include "pespbench.h"

#undef pesp_answer
#undef pesp_open
#undef pesp_ask
#undef pesp_events
#undef pesp_times
#undef pesp_domain
#undef pesp_search

#include <stdlib.h>
#include <string.h>

#include "module.h"
#include "runtime.h"

#define EXPORTED __attribute__((visibility("default")))
#define ADDRESSES 0xffff0000u
/* Bytes of a line, and one too many. */
#define LINE 4097u
/* Room for the longest reply of a search, and for all events and times. */
#define ROOM 1048576u
#define LARGEST_ROOM 0x20000000u

/* A module and its blocks: its session, the report of a call, a number or the result of a search, a line, and replies. */
struct bench {
    Z_module_instance_t module;
    uint64_t session, told, number, line, out, room;
};

static uint8_t *at(struct bench *bench, uint64_t block) {
    return bench->module.w2c_memory.data + block;
}

static struct pesp_told ended(uint32_t status) {
    struct pesp_told told = {0, 0, status, 0, 0};
    return told;
}

static uint64_t taken(struct bench *bench, uint64_t bytes) {
    return Z_moduleZ_pesp_take(&bench->module, bytes != 0 ? bytes : 1);
}

/* The block for bytes that are copied into the module; 0 if there is no memory. */
static uint64_t given(struct bench *bench, const uint8_t *bytes, size_t length) {
    uint64_t block = taken(bench, length);
    if (block != 0 && length != 0) memcpy(at(bench, block), bytes, length);
    return block;
}

static void let_go(struct bench *bench) {
    Z_module_free(&bench->module);
    free(bench);
}

static bool has_blocks(struct bench *bench) {
    bench->session = taken(bench, sizeof(struct pesp_session));
    bench->told = taken(bench, sizeof(struct pesp_told));
    bench->number = taken(bench, sizeof(struct pesp_found));
    bench->line = taken(bench, LINE);
    bench->out = taken(bench, ROOM);
    bench->room = ROOM;
    return bench->session != 0 && bench->told != 0 && bench->number != 0 && bench->line != 0 && bench->out != 0;
}

/* A module with its blocks, or null if there is no memory. */
static struct bench *made(void) {
    struct bench *bench = calloc(1, sizeof *bench);
    if (bench == NULL || !has_memory()) {
        free(bench);
        return NULL;
    }
    Z_module_instantiate(&bench->module);
    Z_moduleZ_pesp_limit(&bench->module, ADDRESSES);
    if (has_blocks(bench)) {
        memset(at(bench, bench->session), 0, sizeof(struct pesp_session));
        return bench;
    }
    let_go(bench);
    return NULL;
}

static struct pesp_told told_by(struct bench *bench) {
    struct pesp_told told;
    memcpy(&told, at(bench, bench->told), sizeof told);
    return told;
}

static size_t least(size_t left, size_t right) {
    return left < right ? left : right;
}

/* Enlarges the block of replies to this room, if there is memory; its contents are lost. */
static void widen(struct bench *bench, size_t wanted) {
    if (wanted <= bench->room) return;
    uint64_t block = taken(bench, least(wanted, LARGEST_ROOM));
    if (block == 0) return;
    Z_moduleZ_pesp_give_back(&bench->module, bench->out);
    bench->out = block;
    bench->room = least(wanted, LARGEST_ROOM);
}

static struct pesp_told put(struct bench *bench, void *out, size_t out_length, size_t width) {
    struct pesp_told told = told_by(bench);
    size_t count = least(told.length, least(out_length, bench->room / width));
    if (told.status == PESP_DONE && count != 0) memcpy(out, at(bench, bench->out), count * width);
    return told;
}

EXPORTED uint32_t pesp_version(void) { return PESP_VERSION; }

EXPORTED void pesp_answer(uint16_t period, const uint8_t *activities, size_t activities_length, const uint8_t *fixed,
                          size_t fixed_length, const uint8_t *times, size_t times_length, const uint8_t *commands,
                          size_t commands_length, uint8_t *out, size_t out_length, struct pesp_told *told) {
    struct bench *bench = made();
    *told = ended(period < 2 || period > 1440 ? PESP_NO_PERIOD : PESP_MEMORY);
    if (bench == NULL) return;
    uint64_t files[] = {given(bench, activities, activities_length), given(bench, fixed, fixed_length),
                        given(bench, times, times_length), given(bench, commands, commands_length)};
    widen(bench, out_length);
    bool is_there = files[0] != 0 && files[1] != 0 && files[2] != 0 && files[3] != 0 && bench->room >= least(out_length, LARGEST_ROOM);
    if (is_there) {
        size_t room = least(out_length, bench->room);
        Z_moduleZ_pesp_answer(&bench->module, period, files[0], activities_length, files[1], fixed_length, files[2], times_length,
                              files[3], commands_length, bench->out, room, bench->told);
        *told = told_by(bench);
        if (told->status != PESP_NO_PERIOD) memcpy(out, at(bench, bench->out), least(told->length, room));
    }
    let_go(bench);
}

EXPORTED void pesp_open(uint16_t period, const uint8_t *activities, size_t activities_length, const uint8_t *fixed,
                        size_t fixed_length, const uint8_t *times, size_t times_length, struct pesp_session *session,
                        struct pesp_told *told) {
    *told = ended(session->is_open ? PESP_OPEN : PESP_MEMORY);
    struct bench *bench = session->is_open ? NULL : made();
    if (bench == NULL) return;
    uint64_t files[] = {given(bench, activities, activities_length), given(bench, fixed, fixed_length), given(bench, times, times_length)};
    if (files[0] != 0 && files[1] != 0 && files[2] != 0) {
        Z_moduleZ_pesp_open(&bench->module, period, files[0], activities_length, files[1], fixed_length, files[2], times_length,
                            bench->session, bench->told);
        *told = told_by(bench);
    }
    if (told->status != PESP_DONE) {
        let_go(bench);
        return;
    }
    for (int place = 0; place < 3; place += 1) Z_moduleZ_pesp_give_back(&bench->module, files[place]);
    session->at = bench;
    session->is_open = true;
}

EXPORTED void pesp_close(struct pesp_session *session) {
    if (session->is_open) let_go(session->at);
    session->is_open = false;
    session->at = NULL;
}

/* The module of a session; a closed session is reported, and has none. */
static struct bench *bench_of(struct pesp_session *session, struct pesp_told *told) {
    *told = ended(PESP_CLOSED);
    return session->is_open ? session->at : NULL;
}

/* A query whose reply is longer than the room is repeated; the reply to a change has few bytes. */
EXPORTED void pesp_ask(struct pesp_session *session, const uint8_t *line, size_t line_length, uint8_t *out, size_t out_length,
                       struct pesp_told *told) {
    struct bench *bench = bench_of(session, told);
    if (bench == NULL) return;
    line_length = least(line_length, LINE);
    if (line_length != 0) memcpy(at(bench, bench->line), line, line_length);
    for (int turn = 0; turn < 2; turn += 1) {
        Z_moduleZ_pesp_ask(&bench->module, bench->session, bench->line, line_length, bench->out, bench->room, bench->told);
        *told = put(bench, out, out_length, 1);
        if (told->status != PESP_DONE || least(told->length, out_length) <= bench->room) return;
        widen(bench, told->length);
        if (bench->room < least(told->length, out_length)) break;
    }
    *told = ended(PESP_MEMORY);
}

EXPORTED void pesp_cost(struct pesp_session *session, uint64_t *cost, struct pesp_told *told) {
    struct bench *bench = bench_of(session, told);
    if (bench == NULL) return;
    Z_moduleZ_pesp_cost(&bench->module, bench->session, bench->number, bench->told);
    *told = told_by(bench);
    if (told->status == PESP_DONE) memcpy(cost, at(bench, bench->number), sizeof *cost);
}

EXPORTED void pesp_try_move(struct pesp_session *session, uint32_t event, uint16_t time, int64_t *change, struct pesp_told *told) {
    struct bench *bench = bench_of(session, told);
    if (bench == NULL) return;
    Z_moduleZ_pesp_try_move(&bench->module, bench->session, event, time, bench->number, bench->told);
    *told = told_by(bench);
    if (told->status == PESP_DONE) memcpy(change, at(bench, bench->number), sizeof *change);
}

EXPORTED void pesp_events(struct pesp_session *session, uint32_t *out, size_t out_length, struct pesp_told *told) {
    struct bench *bench = bench_of(session, told);
    if (bench == NULL) return;
    Z_moduleZ_pesp_events(&bench->module, bench->session, bench->out, bench->room / sizeof *out, bench->told);
    *told = put(bench, out, out_length, sizeof *out);
}

EXPORTED void pesp_times(struct pesp_session *session, uint16_t *out, size_t out_length, struct pesp_told *told) {
    struct bench *bench = bench_of(session, told);
    if (bench == NULL) return;
    Z_moduleZ_pesp_times(&bench->module, bench->session, bench->out, bench->room / sizeof *out, bench->told);
    *told = put(bench, out, out_length, sizeof *out);
}

EXPORTED void pesp_domain(struct pesp_session *session, uint32_t event, uint8_t *out, size_t out_length, struct pesp_told *told) {
    struct bench *bench = bench_of(session, told);
    if (bench == NULL) return;
    Z_moduleZ_pesp_domain(&bench->module, bench->session, event, bench->out, bench->room, bench->told);
    *told = put(bench, out, out_length, 1);
}

EXPORTED void pesp_search(struct pesp_session *session, uint64_t nodes, uint16_t *out, size_t out_length, struct pesp_found *found,
                          struct pesp_told *told) {
    struct bench *bench = bench_of(session, told);
    if (bench == NULL) return;
    Z_moduleZ_pesp_search(&bench->module, bench->session, nodes, bench->out, bench->room / sizeof *out, bench->number, bench->told);
    *told = put(bench, out, out_length, sizeof *out);
    if (told->status == PESP_DONE) memcpy(found, at(bench, bench->number), sizeof *found);
}

EXPORTED void pesp_price(struct pesp_session *session, uint32_t event, uint16_t time, uint64_t nodes, struct pesp_found *found,
                         struct pesp_told *told) {
    struct bench *bench = bench_of(session, told);
    if (bench == NULL) return;
    Z_moduleZ_pesp_price(&bench->module, bench->session, event, time, nodes, bench->number, bench->told);
    *told = told_by(bench);
    if (told->status == PESP_DONE) memcpy(found, at(bench, bench->number), sizeof *found);
}

EXPORTED void pesp_price_tension(struct pesp_session *session, uint32_t activity, uint16_t tension, uint64_t nodes,
                                 struct pesp_found *found, struct pesp_told *told) {
    struct bench *bench = bench_of(session, told);
    if (bench == NULL) return;
    Z_moduleZ_pesp_price_tension(&bench->module, bench->session, activity, tension, nodes, bench->number, bench->told);
    *told = told_by(bench);
    if (told->status == PESP_DONE) memcpy(found, at(bench, bench->number), sizeof *found);
}
