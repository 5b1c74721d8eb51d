// Replaces open, close, read, write, malloc and realloc. tools/narrow.py loads it into the built program, with these settings:
// - NARROW_OUTPUT, NARROW_STEP, NARROW_ROOM: the output with this number takes at most STEP bytes at a call and ROOM bytes in all, and then fails
// - NARROW_ONCE: it fails once, and then has room for all; if this is `0`, it fails by taking no byte
// - NARROW_PIECE, NARROW_GIVEN: a reader gives at most PIECE bytes at a call, with a pause before each, and GIVEN bytes in all, and then fails
// While a file is open whose name is `full`, each request for memory is refused. (It declares what it calls itself, so that the kit's
// compiler needs no headers.)
typedef unsigned long size;

extern void *dlsym(void *, const char *);
extern char *getenv(const char *);
extern long atol(const char *);
extern int *__errno_location(void);

// As <dlfcn.h> and <errno.h> have them on Linux for x86-64.
#define THE_NEXT ((void *)-1)
#define EINTR 4
#define EIO 5
#define EPIPE 32

// More than any text has.
#define ALL 1000000000

static long output = -1, step, room, once, piece, given;
static int has_paused, full = -1;

static long number_of(const char *name) {
    const char *text = getenv(name);
    return text ? atol(text) : -1;
}

__attribute__((constructor)) static void begin(void) {
    output = number_of("NARROW_OUTPUT");
    step = number_of("NARROW_STEP");
    room = number_of("NARROW_ROOM");
    once = number_of("NARROW_ONCE");
    piece = number_of("NARROW_PIECE");
    given = number_of("NARROW_GIVEN");
}

static long least(long one, long other) { return one < other ? one : other; }

static long fails(int error) {
    *__errno_location() = error;
    return -1;
}

int open(const char *name, int how, unsigned mode) {
    static int (*next)(const char *, int, unsigned);
    if (!next)
        next = dlsym(THE_NEXT, "open");
    int file = next(name, how, mode);
    if (name[0] == 'f' && name[1] == 'u' && name[2] == 'l' && name[3] == 'l' && !name[4])
        full = file;
    return file;
}

int close(int file) {
    static int (*next)(int);
    if (!next)
        next = dlsym(THE_NEXT, "close");
    if (file == full)
        full = -1;
    return next(file);
}

long read(int file, void *bytes, size count) {
    static long (*next)(int, void *, size);
    if (!next)
        next = dlsym(THE_NEXT, "read");
    if (piece < 0)
        return next(file, bytes, count);
    has_paused = !has_paused;
    if (has_paused)
        return fails(EINTR);
    if (given == 0)
        return fails(EIO);
    long got = next(file, bytes, (size)least(least(piece, given), (long)count));
    given -= got > 0 ? got : 0;
    return got;
}

long write(int file, const void *bytes, size count) {
    static long (*next)(int, const void *, size);
    if (!next)
        next = dlsym(THE_NEXT, "write");
    if (file != output)
        return next(file, bytes, count);
    if (room == 0) {
        room = once >= 0 ? ALL : 0;
        return once ? fails(EPIPE) : 0;
    }
    long took = next(file, bytes, (size)least(least(step, room), (long)count));
    room -= took > 0 ? took : 0;
    return took;
}

long __write(int file, const void *bytes, size count) { return write(file, bytes, count); }

void *malloc(size bytes) {
    static void *(*next)(size);
    if (!next)
        next = dlsym(THE_NEXT, "malloc");
    return full >= 0 ? (void *)0 : next(bytes);
}

void *realloc(void *block, size bytes) {
    static void *(*next)(void *, size);
    if (!next)
        next = dlsym(THE_NEXT, "realloc");
    return full >= 0 ? (void *)0 : next(block, bytes);
}
