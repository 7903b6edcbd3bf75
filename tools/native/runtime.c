/* The runtime of the translated module: memory that grows, and an end at impossible calls. It is not proved.
 *
 * Eight gigabytes of addresses are reserved for each memory, of which the system provides the used pages. So no address of 32
 * bits with an offset is outside of them, and the system ends a process that reads an unused one. */
#define _GNU_SOURCE
#include "runtime.h"

#include <stdio.h>
#include <stdlib.h>
#include <sys/mman.h>

#define PAGE 65536u
#define KEPT 0x200000000ul
/* More than a module's initial memory. */
#define FIRST_PAGES 32u

/* The memory of the next module of this thread. */
static _Thread_local uint8_t *kept;

bool has_memory(void) {
    void *data = mmap(NULL, KEPT, PROT_NONE, MAP_PRIVATE | MAP_ANONYMOUS | MAP_NORESERVE, -1, 0);
    if (data == MAP_FAILED) return false;
    kept = data;
    if (mprotect(kept, FIRST_PAGES * PAGE, PROT_READ | PROT_WRITE) == 0) return true;
    munmap(data, KEPT);
    return false;
}

void wasm_rt_allocate_memory(wasm_rt_memory_t *memory, uint32_t pages, uint32_t most) {
    if (pages > FIRST_PAGES) wasm_rt_trap(WASM_RT_TRAP_OOB);
    memory->data = kept;
    memory->pages = pages;
    memory->size = pages * PAGE;
    memory->max_pages = most;
}

uint32_t wasm_rt_grow_memory(wasm_rt_memory_t *memory, uint32_t more) {
    uint32_t before = memory->pages;
    if (more >= memory->max_pages - before) return UINT32_MAX;
    if (mprotect(memory->data, (size_t)(before + more) * PAGE, PROT_READ | PROT_WRITE) != 0) return UINT32_MAX;
    memory->pages += more;
    memory->size = memory->pages * PAGE;
    return before;
}

void wasm_rt_free_memory(wasm_rt_memory_t *memory) {
    munmap(memory->data, KEPT);
}

void wasm_rt_trap(wasm_rt_trap_t why) {
    fprintf(stderr, "pespbench: the page's module broke off: %d\n", (int)why);
    abort();
}

/* No function of the module is called by its type. */
uint32_t wasm_rt_register_func_type(uint32_t taken, uint32_t given, ...) {
    return 0 * (taken + given);
}
