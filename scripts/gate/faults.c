/* Loaded before the C library, it makes one call of a program fail: the growth of memory, the write to standard
   output or to a file that was opened, the read, the read at a place of a file (`read-at`), or the look at what a file
   is (`look`). FAULT_KIND names the kind, and FAULT_AT says which call of it. A short write takes one byte; what is
   interrupted takes or gives none, and may be tried again. It creates the file FAULT_MARK where the call came. Seven
   kinds change many calls, the first of which creates that file. With `one-number` every file has the number 1 on its
   device. With `one-byte` every read gives a byte. With `random` reads and writes are interrupted or short, as FAULT_AT
   seeds it. With `interrupted-line` so many writes to standard error are interrupted. With `paced` each read of a file
   run.scene waits for a byte of the descriptor FAULT_AT, and ends behind a line feed. With `no-root` the folder `/`
   cannot be opened. With `grows` a file gets a line more once its end was read. `scripts/check-faults`,
   `scripts/check-process` and `scripts/check-replay` use it. */
#define _GNU_SOURCE
#include <dlfcn.h>
#include <errno.h>
#include <fcntl.h>
#include <stdarg.h>
#include <stdio.h>
#include <stdlib.h>
#include <string.h>
#include <sys/stat.h>
#include <sys/uio.h>
#include <unistd.h>

static long calls_before = -1;
static const char *kind = "";

__attribute__((constructor)) static void begin(void)
{
    if (getenv("FAULT_KIND") && getenv("FAULT_AT")) {
        kind = getenv("FAULT_KIND");
        calls_before = atol(getenv("FAULT_AT")) - 1;
    }
}

/* Creates the file FAULT_MARK, once. */
static void mark(void)
{
    static int is_marked;
    if (is_marked++ || !getenv("FAULT_MARK"))
        return;
    int file = open(getenv("FAULT_MARK"), O_CREAT | O_WRONLY, 0600);
    if (file >= 0)
        close(file);
}

/* Whether this call, of this kind, or of it with `short-` or `interrupted-` before, is the one. */
static int fails(const char *plain)
{
    const char *rest = strstr(kind, plain);
    if (calls_before < 0 || !rest || strcmp(rest, plain)
        || (rest != kind && strncmp(kind, "short-", rest - kind) && strncmp(kind, "interrupted-", rest - kind)))
        return 0;
    if (calls_before-- > 0)
        return 0;
    mark();
    return 1;
}

/* Whether calls of this kind change, of which this is one. */
static int is(const char *name)
{
    if (strcmp(kind, name))
        return 0;
    mark();
    return 1;
}

/* A number below the limit, by a generator with 64 bits of state. */
static size_t drawn(size_t limit)
{
    static unsigned long long state;
    if (!state)
        state = 2 * (unsigned long long)calls_before + 1;
    state = state * 6364136223846793005ULL + 1442695040888963407ULL;
    return (state >> 33) % limit;
}

/* How many of these bytes a call is to take or give: none where it is interrupted. */
static size_t some_of(size_t count)
{
    switch (drawn(4)) {
    case 0:
        return 0;
    case 1:
        return count;
    default:
        return count ? 1 + drawn(count) : 0;
    }
}

static int is_lines(int file)
{
    char link[32], path[4096];
    snprintf(link, sizeof link, "/proc/self/fd/%d", file);
    ssize_t length = readlink(link, path, sizeof path - 1);
    if (length < 0)
        return 0;
    path[length] = 0;
    return length >= 10 && !strcmp(path + length - 10, "/run.scene");
}

/* Reads up to the next line feed, once the gate gives a byte. */
static ssize_t read_line(ssize_t (*real)(int, void *, size_t), int file, char *bytes, size_t count)
{
    char gate;
    size_t at = 0;
    while (real(calls_before + 1, &gate, 1) < 0 && errno == EINTR)
        ;
    while (at < count) {
        ssize_t given = real(file, bytes + at, 1);
        if (given <= 0)
            return at ? (ssize_t)at : given;
        if (bytes[at++] == '\n')
            break;
    }
    return at;
}

/* Puts a wrong line behind the end of a file. */
static void grow(int file)
{
    char link[32];
    snprintf(link, sizeof link, "/proc/self/fd/%d", file);
    int end = open(link, O_WRONLY | O_APPEND);
    if (end >= 0 && write(end, "\ndnoe\t-\n", 8) == 8)
        mark();
    close(end);
}

static void *next(const char *name)
{
    return dlsym(RTLD_NEXT, name);
}

void *malloc(size_t size)
{
    static void *(*real)(size_t);
    if (!real)
        real = next("malloc");
    return fails("growth") ? NULL : real(size);
}

void *realloc(void *block, size_t size)
{
    static void *(*real)(void *, size_t);
    if (!real)
        real = next("realloc");
    return fails("growth") ? NULL : real(block, size);
}

ssize_t write(int file, const void *bytes, size_t count)
{
    static ssize_t (*real)(int, const void *, size_t);
    if (!real)
        real = next("write");
    if (count && is("random")) {
        size_t some = some_of(count);
        if (some)
            return real(file, bytes, some);
        errno = EINTR;
        return -1;
    }
    if (file == 2 && is("interrupted-line") && calls_before-- > 0) {
        errno = EINTR;
        return -1;
    }
    if (file != 2 && fails(file == 1 ? "write" : "store-write")) {
        if (!strncmp(kind, "short-", 6))
            return real(file, bytes, count ? 1 : 0);
        errno = strncmp(kind, "interrupted-", 12) ? ENOSPC : EINTR;
        return -1;
    }
    return real(file, bytes, count);
}

ssize_t read(int file, void *bytes, size_t count)
{
    static ssize_t (*real)(int, void *, size_t);
    if (!real)
        real = next("read");
    if (is("one-byte"))
        return real(file, bytes, count ? 1 : 0);
    if (is_lines(file) && is("paced"))
        return read_line(real, file, bytes, count);
    if (count && is("random")) {
        size_t some = some_of(count);
        if (some)
            return real(file, bytes, some);
        errno = EINTR;
        return -1;
    }
    if (fails("read")) {
        errno = strncmp(kind, "interrupted-", 12) ? EIO : EINTR;
        return -1;
    }
    ssize_t given = real(file, bytes, count);
    if (given == 0 && count && !strcmp(kind, "grows"))
        grow(file);
    return given;
}

int open(const char *path, int flags, ...)
{
    static int (*real)(const char *, int, ...);
    mode_t mode = 0;
    if (flags & O_CREAT) {
        va_list more;
        va_start(more, flags);
        mode = va_arg(more, int);
        va_end(more);
    }
    if (!real)
        real = next("open");
    if (!strcmp(path, "/") && is("no-root")) {
        errno = EACCES;
        return -1;
    }
    return real(path, flags, mode);
}

ssize_t pread(int file, void *bytes, size_t count, off_t offset)
{
    static ssize_t (*real)(int, void *, size_t, off_t);
    if (!real)
        real = next("pread");
    if (fails("read-at")) {
        errno = EIO;
        return -1;
    }
    return real(file, bytes, count, offset);
}

int statx(int folder, const char *path, int flags, unsigned int mask, struct statx *result)
{
    static int (*real)(int, const char *, int, unsigned int, struct statx *);
    if (!real)
        real = next("statx");
    if (fails("look")) {
        errno = EIO;
        return -1;
    }
    int status = real(folder, path, flags, mask, result);
    if (status == 0 && is("one-number"))
        result->stx_ino = 1;
    return status;
}
