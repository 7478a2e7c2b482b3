/* Is loaded before the C library (LD_PRELOAD), counts what a program asks of it, and lets one call fail.

   FAILING_CALL   memory, read, write, open, statx, realpath, fchmod, fsync or rename: the calls of which one fails
   FAILING_NUMBER which of them, from 1; with FAILING_ON=1 all later ones fail too
   FAILING_HOW    a number: the call fails with this errno; `short`: a read or write moves one byte; `none`: a write moves none
   FAILING_PIECE  no read or write moves more bytes than this
   FAILING_CUT    no read moves bytes before and after this place of the input at once; from there on the peak of memory begins anew
   FAILING_REPORT a file that gets a line of counts when `main` begins, when the call fails, when the input is read from the
                  place FAILING_CUT on, and at exit

   The program has one input, or a list before it, and writes nothing to standard error in a run without failures. */
#define _GNU_SOURCE
#include <dlfcn.h>
#include <errno.h>
#include <fcntl.h>
#include <malloc.h>
#include <stdint.h>
#include <stdio.h>
#include <stdlib.h>
#include <string.h>
#include <sys/stat.h>
#include <sys/syscall.h>
#include <unistd.h>

void *__libc_malloc(size_t), *__libc_calloc(size_t, size_t), *__libc_realloc(void *, size_t), *__libc_memalign(size_t, size_t);
void __libc_free(void *);

enum kind { MEMORY, READ, WRITE, OPEN, STATX, REALPATH, FCHMOD, FSYNC, RENAME, KINDS };
static const char *const names[KINDS] = { "memory", "read", "write", "open", "statx", "realpath", "fchmod", "fsync", "rename" };

static long counts[KINDS], number, taken, written, live, peak, cut = -1, piece = INT64_MAX;
static int failing = KINDS, on, cut_told, error, moved = -1, report = -1;
static char *(*next_realpath)(const char *, char *);

/* The most memory that the process has had, in kilobytes. */
static long resident(void)
{
    char text[4096];
    int file = syscall(SYS_openat, AT_FDCWD, "/proc/self/status", O_RDONLY);
    long length = syscall(SYS_read, file, text, sizeof text - 1);
    syscall(SYS_close, file);
    text[length > 0 ? length : 0] = 0;
    char *found = strstr(text, "VmHWM:");
    return found ? atol(found + 6) : 0;
}

static void tell(const char *when)
{
    char line[400];
    int end = snprintf(line, sizeof line, "%s taken=%ld written=%ld live=%ld peak=%ld resident=%ld", when, taken, written, live, peak,
                       resident());
    for (int kind = 0; kind < KINDS; kind++)
        end += snprintf(line + end, sizeof line - end, " %s=%ld", names[kind], counts[kind]);
    line[end++] = '\n';
    if (report >= 0)
        syscall(SYS_write, report, line, end);
}

__attribute__((constructor)) static void begin(void)
{
    const char *call = getenv("FAILING_CALL"), *how = getenv("FAILING_HOW"), *path = getenv("FAILING_REPORT");
    for (int kind = 0; call && kind < KINDS; kind++)
        if (!strcmp(call, names[kind]))
            failing = kind;
    number = getenv("FAILING_NUMBER") ? atol(getenv("FAILING_NUMBER")) : 0;
    on = getenv("FAILING_ON") != NULL;
    piece = getenv("FAILING_PIECE") ? atol(getenv("FAILING_PIECE")) : piece;
    cut = getenv("FAILING_CUT") ? atol(getenv("FAILING_CUT")) : cut;
    if (how && (!strcmp(how, "short") || !strcmp(how, "none")))
        moved = *how == 's';
    else
        error = how ? atoi(how) : EIO;
    if (path)
        report = syscall(SYS_openat, AT_FDCWD, path, O_WRONLY | O_CREAT | O_APPEND | O_CLOEXEC, 0644);
    next_realpath = dlsym(RTLD_NEXT, "realpath");
}

__attribute__((destructor)) static void end(void)
{
    tell("exit");
}

/* Whether this call is the one that fails. */
static int fails(int kind)
{
    counts[kind]++;
    if (kind != failing || counts[kind] < number || (counts[kind] > number && !on))
        return 0;
    if (counts[kind] == number)
        tell("fails");
    errno = error;
    return 1;
}

static void *got(void *place)
{
    live += place ? malloc_usable_size(place) : 0;
    peak = live > peak ? live : peak;
    return place;
}

static int refused(void)
{
    if (!fails(MEMORY))
        return 0;
    errno = ENOMEM;
    return 1;
}

void *malloc(size_t size) { return refused() ? NULL : got(__libc_malloc(size)); }
void *calloc(size_t count, size_t size) { return refused() ? NULL : got(__libc_calloc(count, size)); }
void *memalign(size_t to, size_t size) { return refused() ? NULL : got(__libc_memalign(to, size)); }
void *aligned_alloc(size_t to, size_t size) { return refused() ? NULL : got(__libc_memalign(to, size)); }

int posix_memalign(void **place, size_t to, size_t size)
{
    *place = refused() ? NULL : got(__libc_memalign(to, size));
    return *place ? 0 : ENOMEM;
}

void *realloc(void *old, size_t size)
{
    long before = old ? malloc_usable_size(old) : 0;
    if (refused())
        return NULL;
    void *place = __libc_realloc(old, size);
    live -= place || !size ? before : 0;
    return got(place);
}

void free(void *place)
{
    live -= place ? malloc_usable_size(place) : 0;
    __libc_free(place);
}

ssize_t read(int file, void *bytes, size_t size)
{
    if (taken == cut && !cut_told++) {
        peak = live;
        tell("cut");
    }
    size_t most = taken < cut && (size_t)(cut - taken) < size ? (size_t)(cut - taken) : size;
    most = most < (size_t)piece ? most : (size_t)piece;
    if (fails(READ)) {
        if (moved < 0)
            return -1;
        most = most < (size_t)moved ? most : (size_t)moved;
    }
    ssize_t found = syscall(SYS_read, file, bytes, most);
    taken += found > 0 ? found : 0;
    return found;
}

ssize_t write(int file, const void *bytes, size_t size)
{
    size_t most = size < (size_t)piece ? size : (size_t)piece;
    if (fails(WRITE)) {
        if (moved <= 0)
            return moved;
        most = 1;
    }
    ssize_t put = syscall(SYS_write, file, bytes, most);
    written += put > 0 && file != 2 ? put : 0;
    return put;
}

ssize_t __write(int file, const void *bytes, size_t size) { return write(file, bytes, size); }

int open(const char *path, int flags, ...)
{
    __builtin_va_list more;
    __builtin_va_start(more, flags);
    int mode = flags & O_CREAT ? __builtin_va_arg(more, int) : 0;
    __builtin_va_end(more);
    /* what stands for the standard files is no file of the job, and does no harm where it is not opened */
    if (strcmp(path, "/dev/null") == 0)
        return syscall(SYS_openat, AT_FDCWD, path, flags, mode);
    return fails(OPEN) ? -1 : syscall(SYS_openat, AT_FDCWD, path, flags, mode);
}

int statx(int folder, const char *path, int flags, unsigned mask, struct statx *found)
{
    return fails(STATX) ? -1 : syscall(SYS_statx, folder, path, flags, mask, found);
}

char *realpath(const char *path, char *place) { return fails(REALPATH) ? NULL : next_realpath(path, place); }

int fchmod(int file, mode_t mode) { return fails(FCHMOD) ? -1 : syscall(SYS_fchmod, file, mode); }
int fsync(int file) { return fails(FSYNC) ? -1 : syscall(SYS_fsync, file); }
int rename(const char *from, const char *to) { return fails(RENAME) ? -1 : syscall(SYS_rename, from, to); }

static int (*program)(int, char **, char **);

static int told_main(int count, char **words, char **variables)
{
    tell("main");
    return program(count, words, variables);
}

int __libc_start_main(int (*main)(int, char **, char **), int count, char **words, void (*init)(void), void (*fini)(void),
                      void (*loader)(void), void *stack)
{
    int (*next)(int (*)(int, char **, char **), int, char **, void (*)(void), void (*)(void), void (*)(void), void *);
    next = dlsym(RTLD_NEXT, "__libc_start_main");
    program = main;
    return next(told_main, count, words, init, fini, loader, stack);
}
