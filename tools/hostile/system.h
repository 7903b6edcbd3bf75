/* The system's declarations that the library needs: so it builds with any C compiler for Linux on x86-64, and without its headers. */

typedef unsigned long number;

extern char *getenv(const char *);
extern int *__errno_location(void);
extern long syscall(long, ...);
extern int fork(void);
extern int waitpid(int, int *, int);
extern unsigned alarm(unsigned);
extern void *mmap(void *, number, int, int, int, long);
extern void _exit(int) __attribute__((noreturn));
extern void *__libc_malloc(number);
extern void *__libc_calloc(number, number);
extern void *__libc_realloc(void *, number);
extern void *__libc_memalign(number, number);

enum { SYS_READ = 0, SYS_WRITE = 1, SYS_CLOSE = 3, SYS_LSEEK = 8, SYS_FTRUNCATE = 77, SYS_OPENAT = 257, SYS_STATX = 332 };
enum { AT_FDCWD = -100, READ_AND_WRITE = 3, SHARED_WITHOUT_FILE = 0x21, INTERRUPTED = 4, NO_MEMORY = 12 };
