/* A local search over a session: opens an activities file and a timetable for it, tries to move one event after another,
 * and makes each move that does not raise the cost.
 *
 * usage: moves PERIOD ACTIVITIES TIMES MOVES, where each event of the activities has a time in TIMES */
#include "pespbench.h"

#include <inttypes.h>
#include <stdio.h>
#include <stdlib.h>
#include <time.h>

struct bytes {
    uint8_t *at;
    size_t length;
};

static void fail(const char *why, const struct pesp_told *told) {
    fprintf(stderr, "moves: %s: status %" PRIu32 ", reason %" PRIu32 ", place %" PRIu64 "\n", why, told->status, told->reason, told->place);
    exit(1);
}

static struct bytes file_at(const char *path) {
    static const struct pesp_told none;
    FILE *file = fopen(path, "rb");
    if (file == NULL || fseek(file, 0, SEEK_END) != 0) fail(path, &none);
    long length = ftell(file);
    rewind(file);
    struct bytes bytes = {malloc((size_t)length + 1), (size_t)length};
    if (bytes.at == NULL || fread(bytes.at, 1, bytes.length, file) != bytes.length) fail(path, &none);
    fclose(file);
    return bytes;
}

static void set(struct pesp_session *session, unsigned event, unsigned time) {
    char line[32];
    uint8_t reply[128];
    struct pesp_told told;
    int length = snprintf(line, sizeof line, "time %u %u", event, time);
    pesp_ask(session, (const uint8_t *)line, (size_t)length, reply, sizeof reply, &told);
    if (told.status != PESP_DONE) fail(line, &told);
}

static uint64_t cost_of(struct pesp_session *session) {
    uint64_t cost = 0;
    struct pesp_told told;
    pesp_cost(session, &cost, &told);
    if (told.status != PESP_DONE) fail("no cost", &told);
    return cost;
}

/* The change of the cost. */
static int64_t change_of(struct pesp_session *session, unsigned event, unsigned time) {
    int64_t change = 0;
    struct pesp_told told;
    pesp_try_move(session, event, (uint16_t)time, &change, &told);
    if (told.status != PESP_DONE) fail("no change", &told);
    return change;
}

int main(int count, char **words) {
    /* A greater period does not fit in 16 bits. */
    if (count != 5 || strtoul(words[1], NULL, 10) > 1440) {
        fprintf(stderr, "usage: moves PERIOD ACTIVITIES TIMES MOVES\n");
        return 2;
    }
    unsigned period = (unsigned)strtoul(words[1], NULL, 10), moves = (unsigned)strtoul(words[4], NULL, 10);
    struct bytes activities = file_at(words[2]), times = file_at(words[3]);
    struct pesp_session session = {0};
    struct pesp_told told;
    pesp_open((uint16_t)period, activities.at, activities.length, NULL, 0, times.at, times.length, &session, &told);
    if (told.status != PESP_DONE) fail("not opened", &told);

    static uint32_t events[20000];
    pesp_events(&session, events, sizeof events / sizeof *events, &told);
    uint64_t known = told.length;
    uint64_t first = cost_of(&session);
    uint32_t drawn = 1;
    clock_t begun = clock();
    for (unsigned move = 0; move < moves && known != 0; move += 1) {
        drawn = drawn * 1664525 + 1013904223;
        unsigned event = events[(drawn >> 8) % known], time = (drawn >> 16) % period;
        if (change_of(&session, event, time) <= 0) set(&session, event, time);
    }
    double seconds = (double)(clock() - begun) / CLOCKS_PER_SEC;
    uint64_t cost = cost_of(&session);
    pesp_close(&session);
    printf("cost %" PRIu64 ", now %" PRIu64 "\n", first, cost);
    fprintf(stderr, "%u moves, %.0f a second\n", moves, seconds > 0 ? moves / seconds : 0);
    free(activities.at);
    free(times.at);
    return 0;
}
