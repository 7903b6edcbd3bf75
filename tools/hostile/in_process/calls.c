/* The calls of pespbench.h by a letter, each with buffers and texts of exactly the needed size. */
#include "caller.h"

#include <stdlib.h>
#include <string.h>

/* The contents of a buffer, a number and an answer before a call. */
enum { BEFORE = 0xA5, NUMBER_BEFORE = 7 };

/* The bytes in a buffer. */
static size_t width_of(char kind) {
    return kind == 'e' ? sizeof(uint32_t) : kind == 't' || kind == 's' ? sizeof(uint16_t) : 1;
}

static void open_session(const struct order *order, struct pesp_session *session, struct answer *answer) {
    pesp_open((uint16_t)order->first, order->texts[0], order->lengths[0], order->texts[1], order->lengths[1], order->texts[2],
              order->lengths[2], session, &answer->told);
}

static void answer_run(const struct order *order, struct answer *answer) {
    pesp_answer((uint16_t)order->first, order->texts[0], order->lengths[0], order->texts[1], order->lengths[1],
                order->texts[2], order->lengths[2], order->texts[3], order->lengths[3], answer->room, order->room,
                &answer->told);
}

static void ask_cost(struct pesp_session *session, struct answer *answer) {
    uint64_t cost = NUMBER_BEFORE;
    pesp_cost(session, &cost, &answer->told);
    answer->numbers[0] = cost;
}

static void try_move(const struct order *order, struct pesp_session *session, struct answer *answer) {
    int64_t change = NUMBER_BEFORE;
    pesp_try_move(session, (uint32_t)order->first, (uint16_t)order->second, &change, &answer->told);
    answer->numbers[0] = (uint64_t)change;
}

static void put_found(const struct pesp_found *found, struct answer *answer) {
    answer->numbers[0] = found->cost;
    answer->numbers[1] = found->lower_bound;
    answer->numbers[2] = found->state;
    answer->numbers[3] = found->goes_on;
}

static void search(const struct order *order, struct pesp_session *session, struct answer *answer) {
    struct pesp_found found = {NUMBER_BEFORE, NUMBER_BEFORE, NUMBER_BEFORE, NUMBER_BEFORE};
    pesp_search(session, order->first, (uint16_t *)(void *)answer->room, order->room, &found, &answer->told);
    put_found(&found, answer);
}

#ifndef WITHOUT_PRICES
static void price(const struct order *order, struct pesp_session *session, struct answer *answer) {
    struct pesp_found found = {NUMBER_BEFORE, NUMBER_BEFORE, NUMBER_BEFORE, NUMBER_BEFORE};
    uint32_t number = (uint32_t)order->first;
    uint16_t value = (uint16_t)order->second;
    if (order->kind == 'p') pesp_price(session, number, value, order->third, &found, &answer->told);
    else pesp_price_tension(session, number, value, order->third, &found, &answer->told);
    put_found(&found, answer);
}
#endif

static void dispatch(const struct order *order, struct pesp_session *session, struct answer *answer) {
    uint8_t *room = answer->room;
    switch (order->kind) {
    case 'o': open_session(order, session, answer); break;
    case 'c': pesp_close(session); break;
    case 'a': pesp_ask(session, order->texts[0], order->lengths[0], room, order->room, &answer->told); break;
    case 'k': ask_cost(session, answer); break;
    case 'v': try_move(order, session, answer); break;
    case 'e': pesp_events(session, (uint32_t *)(void *)room, order->room, &answer->told); break;
    case 't': pesp_times(session, (uint16_t *)(void *)room, order->room, &answer->told); break;
    case 'd': pesp_domain(session, (uint32_t)order->first, room, order->room, &answer->told); break;
    case 's': search(order, session, answer); break;
#ifndef WITHOUT_PRICES
    case 'p':
    case 'q': price(order, session, answer); break;
#endif
    case 'w': answer_run(order, answer); break;
    default: fprintf(stderr, "caller: no call %c\n", order->kind), exit(3);
    }
}

void make_call(const struct order *order, struct pesp_session *session, struct answer *answer) {
    struct pesp_told nothing = {9, 9, 9, 9, 9};
    *answer = (struct answer){.told = nothing, .bytes = order->room * width_of(order->kind)};
    answer->room = block_of(answer->bytes);
    if (answer->bytes != 0) memset(answer->room, BEFORE, answer->bytes);
    dispatch(order, session, answer);
    answer->shown = answer->bytes != 0 ? answer->told.length * width_of(order->kind) : 0;
    if (answer->shown > answer->bytes) answer->shown = answer->bytes;
    answer->is_kept = true;
    for (size_t place = answer->shown; place < answer->bytes; place += 1)
        if (answer->room[place] != BEFORE) answer->is_kept = false;
}

void let_go(struct answer *answer) { free(answer->room); }

/* Appends a part of a state to the earlier ones. */
static uint8_t *joined(uint8_t *state, size_t *length, const struct answer *answer) {
    uint8_t *longer = block_of(*length + answer->shown + 1);
    if (*length != 0) memcpy(longer, state, *length);
    if (answer->shown != 0) memcpy(longer + *length, answer->room, answer->shown);
    free(state);
    *length += answer->shown;
    return longer;
}

uint8_t *state_of(struct pesp_session *session, size_t *length) {
    static const char *const asked[] = {"dump", "domains", ""};
    uint8_t *state = NULL;
    *length = 0;
    for (int part = 0; part < 3; part += 1) {
        struct order order = {.kind = part < 2 ? 'a' : 't', .lengths = {strlen(asked[part])}};
        struct answer answer;
        order.texts[0] = (uint8_t *)(void *)(uintptr_t)asked[part];
        make_call(&order, session, &answer);
        order.room = answer.told.length;
        let_go(&answer);
        make_call(&order, session, &answer);
        state = joined(state, length, &answer);
        let_go(&answer);
    }
    return state;
}
