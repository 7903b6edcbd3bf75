// A heap over the module's own memory, and what the compiled library calls. It is not proved.
//
// The size of a block is that of a class: a power of two, or one and a half times one. A freed block is kept for its class.
// If no block is in use, as between two runs with no session open, the heap starts again, so that no memory is lost to old
// classes.

typedef __SIZE_TYPE__ size_t;
typedef unsigned char byte;
typedef unsigned long u64;

enum { PAGE = 65536, CLASSES = 128, HEAD = 16, LEAST = 32, AT_ONCE = 16 * PAGE };

// In front of each block: its class, and the next free block of the class.
struct head {
    size_t class;
    struct head *next;
};

extern byte __heap_base;

// Blocks are below `top`, and may extend to `end`; both are 0 before the first block.
static size_t top, end;
static struct head *kept[CLASSES];
static size_t in_use, most_in_use;
// No block is beyond `limit`, nor beyond what an address of 32 bits can reach.
static const size_t addressable = ((size_t)1 << 32) - PAGE;
static size_t limit = (size_t)1 << 30;

static size_t bytes_of(size_t class) {
    return class & 1 ? (size_t)2 << (class / 2) : (size_t)3 << (class / 2 - 1);
}

// The least class whose blocks have this many bytes, at least LEAST.
static size_t class_of(size_t bytes) {
    size_t bit = 63 - __builtin_clzl(bytes - 1);
    return bytes <= (size_t)3 << (bit - 1) ? 2 * bit : 2 * bit + 1;
}

static size_t bytes_there(void) {
    return (size_t)__builtin_wasm_memory_size(0) * PAGE;
}

// Queries the present size of memory, and not the result of memory.grow: if a tool has lowered the memory to 32
// bits, a refusal is no longer -1 of 64 bits.
static int grows(size_t bytes) {
    if (bytes > limit - end) return 0;
    if (bytes_there() < end + bytes) {
        __builtin_wasm_memory_grow(0, (end + bytes - bytes_there() + PAGE - 1) / PAGE);
        if (bytes_there() < end + bytes) return 0;
    }
    end += bytes;
    return 1;
}

static void begin(void) {
    top = ((size_t)&__heap_base + HEAD - 1) & ~(size_t)(HEAD - 1);
    end = bytes_there() < limit ? bytes_there() : limit;
    for (size_t class = 0; class < CLASSES; class++) kept[class] = 0;
}

// A block that was never used, or none if memory runs out.
static struct head *new_block(size_t class) {
    size_t bytes = bytes_of(class);
    if (!top) begin();
    if (end < top) return 0;
    if (bytes > end - top) {
        size_t wanted = bytes - (end - top);
        if (!(wanted < AT_ONCE && grows(AT_ONCE)) && !grows(wanted)) return 0;
    }
    struct head *head = (struct head *)top;
    top += bytes;
    return head;
}

static byte *taken(size_t bytes) {
    if (bytes >= addressable) return 0;
    size_t class = class_of(bytes + HEAD < LEAST ? LEAST : bytes + HEAD);
    struct head *head = kept[class];
    if (head) kept[class] = head->next;
    else head = new_block(class);
    if (!head) return 0;
    head->class = class;
    in_use += bytes_of(class);
    if (in_use > most_in_use) most_in_use = in_use;
    return (byte *)head + HEAD;
}

static struct head *head_of(byte *block) {
    return (struct head *)(block - HEAD);
}

static void given_back(byte *block) {
    struct head *head = head_of(block);
    in_use -= bytes_of(head->class);
    if (!in_use) {
        begin();
        return;
    }
    head->next = kept[head->class];
    kept[head->class] = head;
}

static byte *regrown(byte *block, size_t held, size_t bytes) {
    if (bytes + HEAD <= bytes_of(head_of(block)->class)) return block;
    byte *larger = taken(bytes);
    if (!larger) return 0;
    __builtin_memcpy(larger, block, held);
    given_back(block);
    return larger;
}

// ---- what the compiled library calls

// Whether there was memory, and where.
struct tried {
    u64 is_there;
    byte *block;
};

static byte nowhere __attribute__((aligned(16)));

static struct tried tried(byte *block) {
    return block ? (struct tried){1, block} : (struct tried){0, &nowhere};
}

struct tried rattle_alloc(size_t bytes, size_t alignment) {
    return tried(taken(bytes ? bytes : alignment));
}

struct tried rattle_realloc(byte *block, size_t held, size_t bytes, size_t alignment) {
    return tried(regrown(block, held, bytes ? bytes : alignment));
}

void rattle_dealloc(byte *block) {
    given_back(block);
}

// ---- what the page calls

#define EXPORTED(name) __attribute__((export_name(name)))

EXPORTED("pesp_take") byte *pesp_take(size_t bytes) {
    return taken(bytes);
}

EXPORTED("pesp_give_back") void pesp_give_back(byte *block) {
    given_back(block);
}

// To be called while no block is in use.
EXPORTED("pesp_limit") void pesp_limit(size_t bytes) {
    limit = bytes < addressable ? bytes : addressable;
    begin();
}

EXPORTED("pesp_in_use") size_t pesp_in_use(void) {
    return in_use;
}

EXPORTED("pesp_most_in_use") size_t pesp_most_in_use(void) {
    return most_in_use;
}

// ---- what clang may call for a copy, a comparison, or a product or shift of 128 bits

void *memcpy(void *to, const void *from, size_t bytes) {
    for (size_t at = 0; at < bytes; at++) ((byte *)to)[at] = ((const byte *)from)[at];
    return to;
}

void *memmove(void *to, const void *from, size_t bytes) {
    if ((byte *)to < (const byte *)from) return memcpy(to, from, bytes);
    while (bytes--) ((byte *)to)[bytes] = ((const byte *)from)[bytes];
    return to;
}

void *memset(void *to, int value, size_t bytes) {
    for (size_t at = 0; at < bytes; at++) ((byte *)to)[at] = (byte)value;
    return to;
}

int memcmp(const void *left, const void *right, size_t bytes) {
    for (size_t at = 0; at < bytes; at++) {
        int apart = (int)((const byte *)left)[at] - (int)((const byte *)right)[at];
        if (apart) return apart;
    }
    return 0;
}

int bcmp(const void *left, const void *right, size_t bytes) {
    return memcmp(left, right, bytes);
}

// By halves of 32 bits.
__int128 __multi3(__int128 left, __int128 right) {
    u64 mask = 0xffffffff;
    u64 left_low = (u64)left, left_high = (u64)((unsigned __int128)left >> 64);
    u64 right_low = (u64)right, right_high = (u64)((unsigned __int128)right >> 64);
    u64 low_low = (left_low & mask) * (right_low & mask), high_low = (left_low >> 32) * (right_low & mask);
    u64 low_high = (left_low & mask) * (right_low >> 32), high_high = (left_low >> 32) * (right_low >> 32);
    u64 middle = (low_low >> 32) + (high_low & mask) + (low_high & mask);
    u64 low = (low_low & mask) | (middle << 32);
    u64 high = high_high + (high_low >> 32) + (low_high >> 32) + (middle >> 32);
    high += left_low * right_high + left_high * right_low;
    return (__int128)(((unsigned __int128)high << 64) | low);
}

static __int128 joined(u64 high, u64 low) {
    return (__int128)((unsigned __int128)high << 64 | low);
}

static u64 high_of(__int128 number) {
    return (u64)((unsigned __int128)number >> 64);
}

// By less than 128 bits.
__int128 __ashlti3(__int128 number, int by) {
    u64 high = high_of(number), low = (u64)number;
    if (by & 64) return joined(low << (by & 63), 0);
    return by ? joined(high << by | low >> (64 - by), low << by) : number;
}

__int128 __lshrti3(__int128 number, int by) {
    u64 high = high_of(number), low = (u64)number;
    if (by & 64) return joined(0, high >> (by & 63));
    return by ? joined(high >> by, low >> by | high << (64 - by)) : number;
}

__int128 __ashrti3(__int128 number, int by) {
    u64 high = high_of(number), low = (u64)number, sign = -(high >> 63);
    if (by & 64) return joined(sign, (u64)((long)high >> (by & 63)));
    return by ? joined((u64)((long)high >> by), low >> by | high << (64 - by)) : number;
}
