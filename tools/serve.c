// Runs the built program many times in one process. tools/served.py loads it before the program, where it takes the place of the beginning
// of the C library, if SERVE is set. It waits for requests on standard input. For each one a new process (fork) changes bytes of the program
// in its memory, and runs it. The answer on standard output is what the process came to: its status, or the number of a signal below 0.
//
// A request is its length in 4 bytes, the count of changes in 8, and the changes: each has the address and the length in 8 bytes each, and
// the bytes. The length -1 is for an address in the program that is written as where it was loaded. Texts follow, each with a zero after it:
// the folder to run in, the files of standard input, output and errors, and the words of the call. (It declares what it calls itself, so that
// the kit's compiler needs no headers.)
typedef unsigned long size;

extern void *dlsym(void *, const char *);
extern void *dlopen(const char *, int);
extern char *getenv(const char *);
extern void *malloc(size);
extern void free(void *);
extern void *memcpy(void *, const void *, size);
extern size strlen(const char *);
extern long read(int, void *, size);
extern long write(int, const void *, size);
extern int open(const char *, int, ...);
extern int close(int);
extern int dup2(int, int);
extern int fcntl(int, int, ...);
extern int chdir(const char *);
extern int mprotect(void *, size, int);
extern int setrlimit(int, const unsigned long *);
extern int fork(void);
extern int waitpid(int, int *, int);
extern void exit(int);
extern void _exit(int);

// As <dlfcn.h>, <elf.h>, <fcntl.h>, <sys/mman.h> and <sys/resource.h> have them on Linux for x86-64.
#define NEXT ((void *)-1)
#define LAZY 1
#define INIT_ARRAY 25
#define INIT_ARRAY_BYTES 27
#define DUPLICATE_TO_CLOSE 1030
#define READ 0
#define WRITE_WHOLE 01101
#define ALL_RIGHTS 7
enum { LIMIT_SECONDS = 0, LIMIT_OF_A_FILE = 1, LIMIT_OF_A_CORE = 4, LIMIT_OF_MEMORY = 9 };

#define PAGE 4096
#define CANNOT 125
#define MOST_WORDS 300
// What a run may use: a changed program may go on without end.
#define SECONDS 10
#define BYTES_OF_A_FILE (1ul << 28)
#define BYTES_OF_MEMORY (1ul << 33)

typedef int program(int, char **, char **);
typedef void beginning(int, char **, char **);
typedef int start(program *, int, char **, void (*)(void), void (*)(void), void (*)(void), void *);

// As <link.h> has it.
struct loaded {
    long base;
    char *name;
    long (*dynamic)[2];
};

static program *whole;
static struct loaded *its;

static void take(int from, char *to, size bytes) {
    while (bytes) {
        long came = read(from, to, bytes);
        if (came <= 0)
            _exit(0);
        to += came;
        bytes -= (size)came;
    }
}

static void limit(int what, size most) {
    unsigned long both[2] = {most, most};
    setrlimit(what, both);
}

// Makes the changes of a request, and returns what follows them.
static char *change(char *at) {
    long count, place, bytes;
    memcpy(&count, at, 8);
    at += 8;
    while (count--) {
        memcpy(&place, at, 8);
        memcpy(&bytes, at + 8, 8);
        at += 16;
        int is_address = bytes < 0;
        bytes = is_address ? 8 : bytes;
        char *to = (char *)(its->base + place), *page = to - (size)to % PAGE;
        if (mprotect(page, (size)(to + bytes - page), ALL_RIGHTS))
            _exit(CANNOT);
        memcpy(to, at, (size)bytes);
        if (is_address)
            *(long *)to += its->base;
        at += bytes;
    }
    return at;
}

static char *next(char **text) {
    char *here = *text;
    *text += strlen(here) + 1;
    return here;
}

// Gives the program its arguments, as the loader did at the beginning.
static void begin_again(int count, char **words, char **around) {
    long at = 0, bytes = 0;
    for (long(*it)[2] = its->dynamic; (*it)[0]; it++) {
        at = (*it)[0] == INIT_ARRAY ? (*it)[1] : at;
        bytes = (*it)[0] == INIT_ARRAY_BYTES ? (*it)[1] : bytes;
    }
    beginning **all = (beginning **)(its->base + at);
    for (long it = 0; it < bytes / 8; it++)
        all[it](count, words, around);
}

static void run(char *request, size bytes, char **around) {
    static char *words[MOST_WORDS + 1];
    char *text = change(request);
    int count = 0;
    char *folder = next(&text);
    int files[3] = {open(next(&text), READ), open(next(&text), WRITE_WHOLE, 0666), open(next(&text), WRITE_WHOLE, 0666)};
    while (text < request + bytes && count < MOST_WORDS)
        words[count++] = next(&text);
    if (files[0] < 0 || files[1] < 0 || files[2] < 0 || chdir(folder))
        _exit(CANNOT);
    for (int it = 0; it < 3; it++) {
        dup2(files[it], it);
        close(files[it]);
    }
    limit(LIMIT_SECONDS, SECONDS);
    limit(LIMIT_OF_A_FILE, BYTES_OF_A_FILE);
    limit(LIMIT_OF_A_CORE, 0);
    limit(LIMIT_OF_MEMORY, BYTES_OF_MEMORY);
    begin_again(count, words, around);
    exit(whole(count, words, around));
}

static int serve(int count, char **words, char **around) {
    if (!getenv("SERVE"))
        return whole(count, words, around);
    its = dlopen(0, LAZY);
    int in = fcntl(0, DUPLICATE_TO_CLOSE, 100), out = fcntl(1, DUPLICATE_TO_CLOSE, 100);
    for (;;) {
        unsigned bytes;
        take(in, (char *)&bytes, sizeof bytes);
        char *request = malloc(bytes + 1);
        take(in, request, bytes);
        int child = fork(), status = CANNOT << 8;
        if (!child) {
            close(in);
            close(out);
            run(request, bytes, around);
        }
        free(request);
        if (child > 0)
            waitpid(child, &status, 0);
        int came = status & 127 ? -(status & 127) : status >> 8 & 255;
        if (write(out, &came, sizeof came) != sizeof came)
            _exit(0);
    }
}

int __libc_start_main(program *main, int count, char **words, void (*first)(void), void (*last)(void), void (*loader)(void), void *stack) {
    whole = main;
    return ((start *)dlsym(NEXT, "__libc_start_main"))(serve, count, words, first, last, loader, stack);
}
