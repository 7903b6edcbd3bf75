/* What each minute of an event costs, as a picture: opens a network and draws the least cost with the event at each minute as
 * a bar, with `-` where no timetable has the event there, and `^` below the best minutes.
 *
 * usage: prices PERIOD ACTIVITIES FIXED EVENT, with `-` for missing fixed times */
#include "pespbench.h"

#include <inttypes.h>
#include <stdio.h>
#include <stdlib.h>
#include <string.h>

/* The nodes of the first call, often enough for the least cost; the height of the picture, in characters; the longest file, and the longest period. */
enum { NODES = 10, HEIGHT = 8, LONGEST_FILE = 1 << 26, LONGEST_PERIOD = 1440 };

/* The prices of all minutes, and the least and the greatest cost. */
struct profile {
    uint16_t period;
    struct pesp_found prices[LONGEST_PERIOD];
    uint64_t least, greatest;
};

static uint8_t activities[LONGEST_FILE], fixed[LONGEST_FILE];

static void fail(const char *why, const struct pesp_told *told) {
    fprintf(stderr, "prices: %s: status %" PRIu32 ", reason %" PRIu32 ", place %" PRIu64 "\n", why, told->status, told->reason, told->place);
    exit(1);
}

static size_t read_file(const char *path, uint8_t *bytes) {
    static const struct pesp_told none;
    if (strcmp(path, "-") == 0) return 0;
    FILE *file = fopen(path, "rb");
    if (file == NULL) fail(path, &none);
    size_t length = fread(bytes, 1, LONGEST_FILE, file);
    fclose(file);
    return length;
}

/* Each call has twice the nodes of the one before it, which it resumes. A cost that equals the lower bound is the least. */
static struct pesp_found price_of(struct pesp_session *session, unsigned event, unsigned time) {
    struct pesp_found found = {0, 0, PESP_NOTHING_YET, 0};
    for (uint64_t nodes = NODES; found.state < PESP_OPTIMUM; nodes *= 2) {
        struct pesp_told told;
        pesp_price(session, event, (uint16_t)time, nodes, &found, &told);
        if (told.status != PESP_DONE) fail("no price", &told);
        if (found.state == PESP_BEST_SO_FAR && found.cost == found.lower_bound) found.state = PESP_OPTIMUM;
    }
    return found;
}

static void fill(struct profile *profile, struct pesp_session *session, unsigned event) {
    profile->least = UINT64_MAX;
    for (unsigned time = 0; time < profile->period; time += 1) {
        struct pesp_found found = profile->prices[time] = price_of(session, event, time);
        if (found.state != PESP_OPTIMUM) continue;
        if (found.cost < profile->least) profile->least = found.cost;
        if (found.cost > profile->greatest) profile->greatest = found.cost;
    }
}

/* What the picture has of a minute in a row, from 0 below the bars to HEIGHT. */
static char drawn(const struct profile *profile, unsigned time, unsigned row) {
    const struct pesp_found *found = &profile->prices[time];
    if (found->state != PESP_OPTIMUM) return row == 1 ? '-' : ' ';
    if (row == 0) return found->cost == profile->least ? '^' : ' ';
    uint64_t range = profile->greatest - profile->least;
    uint64_t height = range == 0 ? 1 : 1 + (found->cost - profile->least) * (HEIGHT - 1) / range;
    return row <= height ? '#' : ' ';
}

static void draw(const struct profile *profile) {
    char line[LONGEST_PERIOD];
    for (unsigned row = profile->least == profile->greatest ? 2 : HEIGHT + 1; row-- > 0;) {
        int length = 0;
        for (unsigned time = 0; time < profile->period; time += 1) {
            line[time] = drawn(profile, time, row);
            if (line[time] != ' ') length = (int)time + 1;
        }
        printf("%.*s\n", length, line);
    }
    for (unsigned time = 0; time < profile->period; time += 10) printf("%-*u", time + 10 < profile->period ? 10 : 1, time);
    printf("\nat best %" PRIu64 ", at worst %" PRIu64 "\n", profile->least, profile->greatest);
}

int main(int count, char **words) {
    /* A greater period does not fit in 16 bits. */
    if (count != 5 || strtoul(words[1], NULL, 10) > 1440) {
        fprintf(stderr, "usage: prices PERIOD ACTIVITIES FIXED EVENT\n");
        return 2;
    }
    static struct profile profile;
    struct pesp_session session = {0};
    struct pesp_told told;
    profile.period = (uint16_t)strtoul(words[1], NULL, 10);
    pesp_open(profile.period, activities, read_file(words[2], activities), fixed, read_file(words[3], fixed), NULL, 0, &session, &told);
    if (told.status != PESP_DONE) fail("not opened", &told);
    fill(&profile, &session, (unsigned)strtoul(words[4], NULL, 10));
    pesp_close(&session);
    if (profile.least == UINT64_MAX) puts("no timetable meets everything");
    else draw(&profile);
    return 0;
}
