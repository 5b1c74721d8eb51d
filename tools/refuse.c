// Replaces malloc and realloc. tools/refuse.py loads it into a built program, with the settings REFUSE_FIRST and REFUSE_LAST. For each
// number from the first to the last the program runs once, in a copy of the process that is made before the program begins. In
// that copy the request for memory with that number, from 1, is refused. A copy writes its output to the file `out-NUMBER` and its errors
// to `err-NUMBER`, and has LONGEST seconds. When it has ended, the process that made it prints a line: the number, the status as wait
// reports it, and 1 if a request was refused, else 0. (It declares what it calls itself, so that the kit's compiler needs no headers.)
typedef unsigned long size;

extern void *dlsym(void *, const char *);
extern char *getenv(const char *);
extern long atol(const char *);
extern int open(const char *, int, ...);
extern int close(int);
extern int dup2(int, int);
extern long write(int, const void *, size);
extern int snprintf(char *, size, const char *, ...);
extern void *mmap(void *, size, int, int, int, long);
extern int fork(void);
extern int waitpid(int, int *, int);
extern unsigned alarm(unsigned);
extern void _exit(int);

// As <dlfcn.h>, <fcntl.h> and <sys/mman.h> have them on Linux for x86-64.
#define THE_NEXT ((void *)-1)
#define CREATE_TO_WRITE 01101
#define READ_AND_WRITE 3
#define SHARED_MEMORY 041
#define FAILED ((void *)-1)

#define LONGEST 60
#define CANNOT 125

static long made, refused_one;
static volatile int *has_refused;

static long number_of(const char *name) {
    const char *text = getenv(name);
    return text ? atol(text) : 0;
}

// Has an output lead to a file of this copy.
static void lead(int output, const char *name, long number) {
    char path[40];
    snprintf(path, sizeof path, "%s-%ld", name, number);
    int file = open(path, CREATE_TO_WRITE, 0644);
    if (file < 0 || dup2(file, output) < 0)
        _exit(CANNOT);
    close(file);
}

// Has standard input of this copy come from the beginning of a file, if the setting REFUSE_INPUT names one.
static void begin_input(void) {
    const char *path = getenv("REFUSE_INPUT");
    if (!path)
        return;
    int file = open(path, 0);
    if (file < 0 || dup2(file, 0) < 0)
        _exit(CANNOT);
    close(file);
}

__attribute__((constructor)) static void begin(void) {
    long first = number_of("REFUSE_FIRST"), last = number_of("REFUSE_LAST");
    has_refused = mmap(0, sizeof(int), READ_AND_WRITE, SHARED_MEMORY, -1, 0);
    if (has_refused == FAILED)
        _exit(CANNOT);
    for (long number = first; number <= last; number++) {
        *has_refused = 0;
        int copy = fork(), status;
        if (copy == 0) {
            begin_input();
            lead(1, "out", number);
            lead(2, "err", number);
            alarm(LONGEST);
            refused_one = number;
            made = 0;
            return;
        }
        char line[60];
        if (copy < 0 || waitpid(copy, &status, 0) < 0)
            _exit(CANNOT);
        long length = snprintf(line, sizeof line, "%ld %d %d\n", number, status, *has_refused);
        if (write(1, line, (size)length) != length)
            _exit(CANNOT);
    }
    _exit(0);
}

static int is_refused(void) {
    if (__atomic_add_fetch(&made, 1, __ATOMIC_SEQ_CST) != refused_one)
        return 0;
    *has_refused = 1;
    return 1;
}

void *malloc(size bytes) {
    static void *(*next)(size);
    if (!next)
        next = dlsym(THE_NEXT, "malloc");
    return is_refused() ? (void *)0 : next(bytes);
}

void *realloc(void *block, size bytes) {
    static void *(*next)(void *, size);
    if (!next)
        next = dlsym(THE_NEXT, "realloc");
    return is_refused() ? (void *)0 : next(block, bytes);
}
