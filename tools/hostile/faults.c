/* A library that is preloaded before an unchanged program. Before `main` it waits for orders; for each it runs the program
   in a child, refuses the memory requests or answers the device calls that the order names, and reports the end.

   HOSTILE_ORDERS and HOSTILE_REPORTS are the numbers of the pipes for orders and reports. Standard input is read from its
   start in each run, and standard output and standard error are emptied before it: all three are files.

   A request is a call of malloc, calloc, realloc or one with an alignment, counted from 1 once this library is
   ready: earlier requests of the loader are not seen. Freeing memory is never refused. */

#include "system.h"

enum call { READ_COMMANDS, READ_FILE, WRITE_REPLIES, WRITE_ERROR, OPEN, LENGTH, CLOSE, CALLS };

struct order {
    number refuse_from, refuse_to; /* the requests for memory that are refused */
    number refuse_too;             /* one that is refused besides; 0: none */
    number call;                   /* the call of devices that is meant below */
    number from, to;               /* its calls that are answered otherwise */
    number every;                  /* each call whose number this divides is answered otherwise too, if it is not 0 */
    number answer;                 /* the number of an error; 0: the call answers 0 */
    number most;                   /* each of the calls moves at most so many bytes, if it is not 0 */
    number seconds;                /* a run of more seconds is ended by a signal */
};

struct report {
    number status, requests, refused, answered, calls[CALLS];
};

static struct order order;
static struct report *report;
static int running;

/* Memory requests */

static int is_refused(void) {
    if (!running) return 0;
    number place = ++report->requests;
    if ((place < order.refuse_from || place > order.refuse_to) && place != order.refuse_too) return 0;
    report->refused++;
    *__errno_location() = NO_MEMORY;
    return 1;
}

void *malloc(number size) { return is_refused() ? 0 : __libc_malloc(size); }

void *calloc(number count, number size) { return is_refused() ? 0 : __libc_calloc(count, size); }

void *realloc(void *old, number size) { return size && is_refused() ? 0 : __libc_realloc(old, size); }

void *memalign(number align, number size) { return is_refused() ? 0 : __libc_memalign(align, size); }

void *aligned_alloc(number align, number size) { return is_refused() ? 0 : __libc_memalign(align, size); }

int posix_memalign(void **result, number align, number size) {
    void *memory = is_refused() ? 0 : __libc_memalign(align, size);
    if (!memory) return NO_MEMORY;
    *result = memory;
    return 0;
}

/* Device calls */

static int is_answered(enum call call) {
    number place = ++report->calls[call];
    if (call != order.call) return 0;
    if ((place < order.from || place > order.to) && !(order.every && place % order.every == 0)) return 0;
    report->answered++;
    return 1;
}

static long answer(void) {
    if (!order.answer) return 0;
    *__errno_location() = (int)order.answer;
    return -1;
}

static number piece(enum call call, number size) {
    return call == order.call && order.most && order.most < size ? order.most : size;
}

static long move(enum call call, long system_call, int device, const void *bytes, number size) {
    if (!running) return syscall(system_call, device, bytes, size);
    return is_answered(call) ? answer() : syscall(system_call, device, bytes, piece(call, size));
}

long read(int device, void *bytes, number size) {
    return move(device == 0 ? READ_COMMANDS : READ_FILE, SYS_READ, device, bytes, size);
}

long write(int device, const void *bytes, number size) {
    return move(device == 2 ? WRITE_ERROR : WRITE_REPLIES, SYS_WRITE, device, bytes, size);
}

int open(const char *path, int flags, int mode) {
    return running && is_answered(OPEN) ? (int)answer() : (int)syscall(SYS_OPENAT, AT_FDCWD, path, flags, mode);
}

int open64(const char *path, int flags, int mode) { return open(path, flags, mode); }

int statx(int folder, const char *path, int flags, unsigned mask, void *told) {
    return running && is_answered(LENGTH) ? (int)answer() : (int)syscall(SYS_STATX, folder, path, flags, mask, told);
}

int close(int device) {
    int closed = (int)syscall(SYS_CLOSE, device);
    return running && is_answered(CLOSE) ? (int)answer() : closed;
}

/* Orders and reports */

static int device_of(const char *name) {
    const char *digit = getenv(name);
    if (!digit) return -1;
    int device = 0;
    for (; *digit; digit++) device = device * 10 + (*digit - '0');
    return device;
}

static int takes_whole(long system_call, int device, char *bytes, number size) {
    while (size) {
        long moved = syscall(system_call, device, bytes, size);
        if (moved < 0 && *__errno_location() == INTERRUPTED) continue;
        if (moved <= 0) return 0;
        bytes += moved;
        size -= moved;
    }
    return 1;
}

static void start_devices_again(void) {
    for (int device = 0; device < 3; device++) syscall(SYS_LSEEK, device, 0, 0);
    for (int device = 1; device < 3; device++) syscall(SYS_FTRUNCATE, device, 0);
}

__attribute__((constructor)) static void serve(void) {
    int orders = device_of("HOSTILE_ORDERS"), reports = device_of("HOSTILE_REPORTS");
    if (orders < 0 || reports < 0) return;
    report = mmap(0, sizeof *report, READ_AND_WRITE, SHARED_WITHOUT_FILE, -1, 0);
    if (report == (void *)-1) _exit(99);
    while (takes_whole(SYS_READ, orders, (char *)&order, sizeof order)) {
        *report = (struct report){0};
        start_devices_again();
        int child = fork(), status = 0;
        if (child < 0) _exit(99);
        if (child == 0) {
            syscall(SYS_CLOSE, orders);
            syscall(SYS_CLOSE, reports);
            alarm((unsigned)order.seconds);
            running = 1;
            return;
        }
        while (waitpid(child, &status, 0) < 0) {}
        report->status = (number)(unsigned)status;
        if (!takes_whole(SYS_WRITE, reports, (char *)report, sizeof *report)) _exit(99);
    }
    _exit(0);
}
