// Notes which places of the built program are reached. tools/texts.py loads it into a copy of the program in which a break point (int3)
// stands at each of them, with these settings:
// - REACHED_WHOLE: the program without break points
// - REACHED_BEGIN, REACHED_AT, REACHED_SIZE: the address of its code, the offset of the code in the file, and its size
// - REACHED_FILE: the file to which the address of each place is appended, in eight bytes, when it is reached for the first time
// At a break point the byte of the program comes back, and the program goes on there. (It declares what it calls itself, so that the
// kit's compiler needs no headers.)
typedef unsigned long size;

extern char *getenv(const char *);
extern long atol(const char *);
extern int open(const char *, int, ...);
extern long write(int, const void *, size);
extern void *mmap(void *, size, int, int, int, long);
extern int mprotect(void *, size, int);
extern int sigaction(int, const void *, void *);
extern int dl_iterate_phdr(int (*)(const long *, size, void *), void *);
extern void _exit(int);

// As <fcntl.h>, <sys/mman.h>, <signal.h> and <ucontext.h> have them on Linux for x86-64.
#define CREATE_TO_APPEND 02101
#define READ 1
#define ALL_RIGHTS 7
#define PRIVATE 2
#define FAILED ((void *)-1)
#define SIGTRAP 5
#define WITH_CONTEXT 4
#define NEXT_INSTRUCTION 21

#define PAGE 4096
#define CANNOT 125

static const char *whole;
static char *code;
static long begins, file = -1;

// Takes the address at which the program was loaded, which is that of the first of all.
static int take_base(const long *of, size bytes, void *base) {
    *(long *)base = of[0];
    return 1;
}

static void stopped(int signal, void *what, long *context) {
    char *at = (char *)context[NEXT_INSTRUCTION] - 1;
    long address = begins + (at - code);
    *at = whole[at - code];
    context[NEXT_INSTRUCTION] = (long)at;
    write((int)file, &address, sizeof address);
}

// What the kernel's `struct sigaction` is in the C library.
static struct {
    void (*handler)(int, void *, long *);
    long masked[16];
    int how;
    void (*restore)(void);
} handler = {stopped, {0}, WITH_CONTEXT, 0};

__attribute__((constructor)) static void begin(void) {
    const char *path = getenv("REACHED_WHOLE");
    if (!path)
        return;
    long base, offset = atol(getenv("REACHED_AT")), bytes = atol(getenv("REACHED_SIZE"));
    begins = atol(getenv("REACHED_BEGIN"));
    dl_iterate_phdr(take_base, &base);
    code = (char *)base + begins;
    file = open(getenv("REACHED_FILE"), CREATE_TO_APPEND, 0644);
    whole = mmap(0, (size)(offset + bytes), READ, PRIVATE, open(path, 0), 0);
    char *page = code - (size)code % PAGE;
    if (file < 0 || whole == FAILED || mprotect(page, (size)(code + bytes - page), ALL_RIGHTS) || sigaction(SIGTRAP, &handler, 0))
        _exit(CANNOT);
    whole += offset;
}
