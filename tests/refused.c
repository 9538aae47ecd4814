/* A library to preload: it refuses the allocation whose number is in the environment's REFUSED, and a program that
   ends before it has asked for that many ends with status 99 in place of its own. Where the environment has COUNTED, the
   last line of a program's standard error is how many allocations it asked for, and how many bytes these are together.

   Where the environment has SWEPT, a folder, the program is run once for each number from FIRST on in steps of STEP, until it asks
   for fewer, or up to MOST: each run is a copy of the process as it was before `main`, with the folder's file `given` as its standard
   input, and its standard output goes to a file of the folder that has the number as its name. For each run the process
   itself writes a line: the number, and the status that `waitpid` tells.

   A program that may have threads ends by _exit, where no destructor is run. */
extern void *__libc_malloc(unsigned long), *__libc_realloc(void *, unsigned long);
extern char *getenv(const char *);
extern long atol(const char *);
extern int dprintf(int, const char *, ...), snprintf(char *, unsigned long, const char *, ...);
extern int fork(void), waitpid(int, int *, int), open(const char *, int, ...), dup2(int, int), close(int);
extern unsigned alarm(unsigned);
extern long syscall(long, ...);

enum { EXIT_GROUP = 231, READ = 0, WRITE_NEW = 01 | 0100 | 01000, LONGEST = 60, OVER = 99 };

static long made, bytes, number = -1;
static int has_ended;

static long number_in(const char *name) {
    const char *text = getenv(name);
    return text ? atol(text) : 0;
}

static long refused(void) {
    if (number < 0)
        number = number_in("REFUSED");
    return number;
}

void *malloc(unsigned long size) {
    bytes += size;
    return ++made == refused() ? 0 : __libc_malloc(size);
}

void *realloc(void *old, unsigned long size) {
    bytes += size;
    return ++made == refused() ? 0 : __libc_realloc(old, size);
}

/* The status with which a program ends, which is told once. */
static int ended(int status) {
    long count = made, sum = bytes;
    if (has_ended)
        return status;
    has_ended = 1;
    if (getenv("COUNTED"))
        dprintf(2, "%ld %ld\n", count, sum);
    return count < refused() ? OVER : status;
}

void _exit(int status) {
    syscall(EXIT_GROUP, ended(status));
    for (;;)
        ;
}

/* Opens a file of the folder in the place of an open one. */
static void put(int place, const char *folder, const char *name, int how) {
    char path[4096];
    int file;
    snprintf(path, sizeof path, "%s/%s", folder, name);
    file = open(path, how, 0600);
    if (file < 0)
        syscall(EXIT_GROUP, 98);
    dup2(file, place);
    close(file);
}

__attribute__((constructor)) static void sweep(void) {
    const char *folder = getenv("SWEPT");
    long tried, step = number_in("STEP"), most = number_in("MOST"), made_before = made, bytes_before = bytes;
    if (!folder)
        return;
    for (tried = number_in("FIRST"); tried < most; tried += step) {
        int status = 0, child = fork();
        if (!child) {
            char name[32];
            snprintf(name, sizeof name, "%ld", tried);
            put(0, folder, "given", READ);
            put(1, folder, name, WRITE_NEW);
            alarm(LONGEST);
            made = made_before, bytes = bytes_before, number = tried;
            return;
        }
        if (child < 0 || waitpid(child, &status, 0) != child)
            syscall(EXIT_GROUP, 98);
        dprintf(1, "%ld %d\n", tried, status);
        if (status == OVER << 8)
            break;
    }
    syscall(EXIT_GROUP, 0);
}

__attribute__((destructor)) static void end(void) {
    if (ended(0))
        syscall(EXIT_GROUP, OVER);
}
