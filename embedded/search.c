/* A search over a session that reports the quality of its timetable: opens an activities file and searches by calls of equal
 * size, until the optimum is known or a second has passed.
 *
 * usage: search PERIOD ACTIVITIES */
#include "pespbench.h"

#include <inttypes.h>
#include <stdio.h>
#include <stdlib.h>
#include <time.h>

/* The nodes of a call. */
enum { NODES = 1000 };

static uint8_t file[1 << 26];

int main(int count, char **words) {
    /* A greater period does not fit in 16 bits. */
    FILE *activities = count == 3 && strtoul(words[1], NULL, 10) <= 1440 ? fopen(words[2], "rb") : NULL;
    if (activities == NULL) {
        fprintf(stderr, "usage: search PERIOD ACTIVITIES\n");
        return 2;
    }
    size_t length = fread(file, 1, sizeof file, activities);
    fclose(activities);
    struct pesp_session session = {0};
    struct pesp_found found = {0, 0, PESP_NOTHING_YET, 0};
    struct pesp_told told;
    pesp_open((uint16_t)strtoul(words[1], NULL, 10), file, length, NULL, 0, NULL, 0, &session, &told);

    static uint16_t times[20000];
    clock_t begun = clock();
    /* A call resumes the one before it; one that restarts has twice the nodes. */
    for (uint64_t nodes = NODES; told.status == PESP_DONE && found.state < PESP_OPTIMUM && clock() - begun < CLOCKS_PER_SEC;) {
        pesp_search(&session, nodes, times, sizeof times / sizeof *times, &found, &told);
        if (!found.goes_on) nodes *= 2;
    }
    pesp_close(&session);
    if (told.status != PESP_DONE) {
        fprintf(stderr, "search: status %" PRIu32 "\n", told.status);
        return 1;
    }
    if (found.state == PESP_NO_TIMETABLE) puts("no timetable meets everything");
    if (found.state == PESP_NOTHING_YET) printf("no timetable yet, none costs less than %" PRIu64 "\n", found.lower_bound);
    if (found.state == PESP_BEST_SO_FAR || found.state == PESP_OPTIMUM)
        printf("cost %" PRIu64 ", none costs less than %" PRIu64 "\n", found.cost, found.lower_bound);
    return 0;
}
