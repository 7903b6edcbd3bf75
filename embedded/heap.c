/* The heap that the library calls, over malloc, realloc and free. The toolchain has the same; this one needs no toolchain.
 * Nothing proves it. The three come from one allocator, and align a block to each power of two up to 16 that divides its
 * size. */
#include <stddef.h>
#include <stdint.h>
#include <stdlib.h>

/* Whether there was memory, and its address: two registers. Without memory the address is unused, and not null. */
struct tried {
    uint64_t is_there;
    void *block;
};

static _Alignas(16) unsigned char nowhere[16];

static struct tried tried(void *block) {
    struct tried answer = {block != NULL, block != NULL ? block : nowhere};
    return answer;
}

/* The least block of no bytes has those of its alignment. */
struct tried rattle_alloc(size_t bytes, size_t alignment) {
    return tried(malloc(bytes != 0 ? bytes : alignment));
}

struct tried rattle_realloc(void *block, size_t held, size_t bytes, size_t alignment) {
    (void)held;
    return tried(realloc(block, bytes != 0 ? bytes : alignment));
}

void rattle_dealloc(void *block) {
    free(block);
}
