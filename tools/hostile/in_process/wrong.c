/* A library that is wrong in one way, which the environment's WRONG numbers, over the right one. The tests must find each. */
#include "caller.h"

#include <stdlib.h>
#include <string.h>

#undef pesp_ask
#undef pesp_search

void *watched_malloc(size_t bytes);
void __real_pesp_ask(struct pesp_session *session, const uint8_t *line, size_t line_length, uint8_t *out, size_t out_length, struct pesp_told *told);
void __real_pesp_search(struct pesp_session *session, uint64_t nodes, uint16_t *out, size_t out_length, struct pesp_found *found, struct pesp_told *told);
void __wrap_pesp_ask(struct pesp_session *session, const uint8_t *line, size_t line_length, uint8_t *out, size_t out_length, struct pesp_told *told);
void __wrap_pesp_search(struct pesp_session *session, uint64_t nodes, uint16_t *out, size_t out_length, struct pesp_found *found, struct pesp_told *told);

/* The order is that of judged.py. */
enum wrong {
    NOTHING, WRITES_AFTER_THE_ROOM, READS_AFTER_THE_LINE, READS_WHAT_IS_FREED, KEEPS_MEMORY, READS_WHAT_IS_NOT_SET, SHARES_A_COUNT,
    ANSWERS_ANOTHER_BYTE, TELLS_WHAT_FITS, CHANGES_WITHOUT_MEMORY, TELLS_A_GREATER_BOUND, TELLS_ANOTHER_COST, LOSES_A_TIME,
    READS_WHAT_IT_WAS_NOT_GIVEN, TELLS_ANOTHER_PRICE, LEAVES_THE_EVENT, LEAVES_THE_EVENT_WITHOUT_MEMORY,
    PRICES_ANOTHER_TENSION, LEAVES_THE_TENSION
};

static enum wrong wrong(void) {
    const char *number = getenv("WRONG");
    return number != NULL ? (enum wrong)atoi(number) : NOTHING;
}

static volatile unsigned long shared;

/* The compiler must not see that its target is freed. */
static unsigned char *volatile freed;

static void read_what_is_freed(void) {
    freed = calloc(8, 1);
    free(freed);
    if (freed != NULL) shared = *freed;
}

static void read_what_is_not_set(void) {
    volatile unsigned char *block = malloc(8);
    if (block != NULL && block[3] == 7) shared = 1;
    free((void *)(uintptr_t)block);
}

static void go_wrong_before(const uint8_t *line, size_t line_length) {
    switch (wrong()) {
    case READS_AFTER_THE_LINE: if (line_length != 0) shared = ((const volatile uint8_t *)line)[line_length]; break;
    case READS_WHAT_IS_FREED: read_what_is_freed(); break;
    case KEEPS_MEMORY: watched_malloc(8); break;
    case READS_WHAT_IS_NOT_SET: read_what_is_not_set(); break;
    case SHARES_A_COUNT: shared += 1; break;
    default: break;
    }
}

void __wrap_pesp_ask(struct pesp_session *session, const uint8_t *line, size_t line_length, uint8_t *out, size_t out_length, struct pesp_told *told) {
    go_wrong_before(line, line_length);
    /* So the library's own code reads one byte too many. */
    size_t read = line_length + (wrong() == READS_WHAT_IT_WAS_NOT_GIVEN && line_length != 0);
    __real_pesp_ask(session, line, read, out, out_length, told);
    bool is_shown = told->status == PESP_DONE && told->length != 0 && out_length != 0;
    bool is_time = line_length > 4 && memcmp(line, "time", 4) == 0;
    if (wrong() == WRITES_AFTER_THE_ROOM && out_length != 0) ((volatile uint8_t *)out)[out_length] = 0;
    if (wrong() == ANSWERS_ANOTHER_BYTE && is_shown) out[0] ^= 1;
    if (wrong() == TELLS_WHAT_FITS && is_shown && told->length > out_length) told->length = out_length;
    if (wrong() == CHANGES_WITHOUT_MEMORY && told->status == PESP_MEMORY) {
        struct pesp_told again;
        uint8_t byte;
        refuse_requests(0, 0);
        __real_pesp_ask(session, line, line_length, &byte, 0, &again);
        refuse_requests(1, 1);
        free(watched_malloc(1));
    }
    if (wrong() == LOSES_A_TIME && is_time) {
        struct pesp_told again;
        uint8_t byte;
        __real_pesp_ask(session, (const uint8_t *)"untime 1", 8, &byte, 0, &again);
    }
}

void __wrap_pesp_search(struct pesp_session *session, uint64_t nodes, uint16_t *out, size_t out_length, struct pesp_found *found, struct pesp_told *told) {
    __real_pesp_search(session, nodes, out, out_length, found, told);
    if (told->status != PESP_DONE) return;
    if (wrong() == TELLS_A_GREATER_BOUND && found->state == PESP_BEST_SO_FAR) found->lower_bound = found->cost + 1;
    if (wrong() == TELLS_ANOTHER_COST && found->state == PESP_BEST_SO_FAR) found->cost += 1;
}

#ifndef WITHOUT_PRICES
void __real_pesp_price(struct pesp_session *session, uint32_t event, uint16_t time, uint64_t nodes, struct pesp_found *found, struct pesp_told *told);
void __wrap_pesp_price(struct pesp_session *session, uint32_t event, uint16_t time, uint64_t nodes, struct pesp_found *found, struct pesp_told *told);
void __real_pesp_price_tension(struct pesp_session *session, uint32_t activity, uint16_t tension, uint64_t nodes, struct pesp_found *found, struct pesp_told *told);
void __wrap_pesp_price_tension(struct pesp_session *session, uint32_t activity, uint16_t tension, uint64_t nodes, struct pesp_found *found, struct pesp_told *told);

static void leave(struct pesp_session *session, const char *line) {
    struct pesp_told told;
    uint8_t byte;
    refuse_requests(0, 0);
    __real_pesp_ask(session, (const uint8_t *)line, strlen(line), &byte, 0, &told);
    refuse_requests(1, 1);
    free(watched_malloc(1));
}

void __wrap_pesp_price(struct pesp_session *session, uint32_t event, uint16_t time, uint64_t nodes, struct pesp_found *found, struct pesp_told *told) {
    __real_pesp_price(session, event, time, nodes, found, told);
    char line[32];
    snprintf(line, sizeof line, "fix %u %u", event, time);
    if (wrong() == TELLS_ANOTHER_PRICE && told->status == PESP_DONE && found->state == PESP_OPTIMUM) found->cost += 1;
    if (wrong() == LEAVES_THE_EVENT && told->status == PESP_DONE) leave(session, line);
    if (wrong() == LEAVES_THE_EVENT_WITHOUT_MEMORY && told->status == PESP_MEMORY) leave(session, line);
}

void __wrap_pesp_price_tension(struct pesp_session *session, uint32_t activity, uint16_t tension, uint64_t nodes, struct pesp_found *found, struct pesp_told *told) {
    __real_pesp_price_tension(session, activity, (uint16_t)(tension + (wrong() == PRICES_ANOTHER_TENSION)), nodes, found, told);
    char line[32];
    snprintf(line, sizeof line, "span %u %u %u", activity, tension, tension);
    if (wrong() == LEAVES_THE_TENSION && told->status == PESP_DONE) leave(session, line);
}
#endif
