/* The heap under heap.c, which is compiled with these names instead of malloc, realloc and free: it counts the library's
 * requests, and refuses those that it is told to. */
#include "caller.h"

#include <stdatomic.h>
#include <stdlib.h>

void *watched_malloc(size_t bytes);
void *watched_realloc(void *block, size_t bytes);
void watched_free(void *block);

static _Thread_local struct {
    uint64_t from, to, requests, refused;
    long held;
} here;

/* Relaxed, so that they add no order between threads that would not exist without them. */
static atomic_long held;
static atomic_ulong requests, refused;

void refuse_requests(uint64_t from, uint64_t to) {
    here.from = from;
    here.to = to;
    here.requests = here.refused = 0;
}

uint64_t refused_requests(void) { return here.refused; }

long held_blocks(void) { return here.held; }

struct totals all_threads(void) {
    struct totals totals = {atomic_load(&held), atomic_load(&requests), atomic_load(&refused)};
    return totals;
}

static bool is_refused(void) {
    atomic_fetch_add_explicit(&requests, 1, memory_order_relaxed);
    here.requests += 1;
    if (here.requests < here.from || here.requests > here.to) return false;
    here.refused += 1;
    atomic_fetch_add_explicit(&refused, 1, memory_order_relaxed);
    return true;
}

static void count(long blocks) {
    here.held += blocks;
    atomic_fetch_add_explicit(&held, blocks, memory_order_relaxed);
}

void *watched_malloc(size_t bytes) {
    void *block = is_refused() ? NULL : malloc(bytes);
    if (block != NULL) count(1);
    return block;
}

void *watched_realloc(void *block, size_t bytes) { return is_refused() ? NULL : realloc(block, bytes); }

void watched_free(void *block) {
    if (block != NULL) count(-1);
    free(block);
}

void *block_of(size_t bytes) {
    if (bytes == 0) return NULL;
    void *block = malloc(bytes);
    if (block == NULL) {
        fprintf(stderr, "caller: out of memory\n");
        exit(3);
    }
    return block;
}
