/* Stands before the C library's calls for memory and for bytes, and has one of them fail.
 *
 *   FAULT      which kind of call: alloc, open, read, write, seek; or open-interrupted, read-interrupted,
 *              write-interrupted (by a signal); or read-again, write-again (a stream that doesn't wait), write-broken
 *              (a pipe that nobody reads), write-full (a full disk), write-none (a write that answers 0); or
 *              short-read, short-write, which move few bytes in place of many; or pages, which are requests for memory:
 *              from the Nth on the system gives the C library no further page, and what it then refuses has failed
 *   FAULT_AT   N, counted from 1: which call of that kind (0 or absent: none). Or each: every write on standard output
 *              begins a part, in which calls are counted anew. In the first part the first call fails, in the next the
 *              second, and so on. After a part in which none failed, the first call fails again
 *   FAULT_TO   one (or absent): the Nth call alone; all: the Nth and each later one; write: the Nth and each later one
 *              until the program next writes; none: no call, they are only counted
 *   FAULT_SIZE how many bytes a short read or write moves at most (absent: one)
 *   FAULT_LOG  a file that afterwards holds "calls=C failed=F errors=E": the calls of that kind, those that failed,
 *              and how many of these were writes on standard error. With each, every part has such a line
 *
 * Only what the program asks for by these names is counted. What the C library takes for itself isn't seen.
 */
#define _GNU_SOURCE
#include <errno.h>
#include <fcntl.h>
#include <stdarg.h>
#include <stdio.h>
#include <stdlib.h>
#include <string.h>
#include <sys/resource.h>
#include <sys/syscall.h>
#include <unistd.h>

enum kind {
    NONE, ALLOC, OPEN, READ, WRITE, READ_INTERRUPTED, WRITE_INTERRUPTED, WRITE_BROKEN, SHORT_READ, SHORT_WRITE, SEEK,
    READ_AGAIN, WRITE_AGAIN, WRITE_FULL, WRITE_NONE, OPEN_INTERRUPTED, PAGES, KINDS
};

static const char *const names[KINDS] = {"", "alloc", "open", "read", "write", "read-interrupted", "write-interrupted",
                                         "write-broken", "short-read", "short-write", "seek", "read-again",
                                         "write-again", "write-full", "write-none",
                                         "open-interrupted", "pages"};

static enum kind wanted;
static int in_parts, none, all, until_write, and_later;
static unsigned long at, calls, failed, errors;

extern void *__libc_malloc(size_t);
extern void *__libc_calloc(size_t, size_t);
extern void *__libc_realloc(void *, size_t);

static int fails(enum kind kind) {
    if (kind != wanted)
        return 0;
    calls++;
    if (none || at == 0 || calls < at || (calls > at && !and_later))
        return 0;
    failed++;
    return 1;
}

static void begin_part(void) {
    and_later = all || until_write;
    calls = failed = errors = 0;
}

__attribute__((constructor)) static void begin(void) {
    const char *kind = getenv("FAULT"), *which = getenv("FAULT_AT"), *until = getenv("FAULT_TO");
    for (int i = 1; kind && i < KINDS; i++)
        if (!strcmp(kind, names[i]))
            wanted = (enum kind)i;
    in_parts = which && !strcmp(which, "each");
    at = which && !in_parts ? strtoul(which, NULL, 10) : 0;
    none = until && !strcmp(until, "none");
    all = until && !strcmp(until, "all");
    until_write = until && !strcmp(until, "write");
    begin_part();
}

__attribute__((destructor)) static void end(void) {
    const char *log = getenv("FAULT_LOG");
    char line[96];
    int length = snprintf(line, sizeof line, "calls=%lu failed=%lu errors=%lu\n", calls, failed, errors);
    int flags = O_WRONLY | O_CREAT | (in_parts ? O_APPEND : O_TRUNC);
    int file = log ? (int)syscall(SYS_open, log, flags, 0644) : -1;
    if (file >= 0) {
        syscall(SYS_write, file, line, (size_t)length);
        syscall(SYS_close, file);
    }
}

static void next_part(void) {
    end();
    at = failed ? at + 1 : 1;
    begin_part();
}

static void *no_memory(void) {
    errno = ENOMEM;
    return NULL;
}

/* Counts a request for memory, and ends the supply of pages at the Nth. */
static void request(void) {
    const struct rlimit none = {1, 1};
    if (wanted == PAGES && ++calls == at)
        setrlimit(RLIMIT_DATA, &none);
}

static void *answer(void *block) {
    if (wanted == PAGES && !block)
        failed++;
    return block;
}

void *malloc(size_t size) {
    request();
    return fails(ALLOC) ? no_memory() : answer(__libc_malloc(size));
}

void *calloc(size_t count, size_t size) {
    request();
    return fails(ALLOC) ? no_memory() : answer(__libc_calloc(count, size));
}

void *realloc(void *block, size_t size) {
    request();
    return fails(ALLOC) ? no_memory() : answer(__libc_realloc(block, size));
}

/* The size of a short read or write of so many bytes. */
static size_t short_size(size_t size) {
    const char *most = getenv("FAULT_SIZE");
    size_t count = most ? strtoul(most, NULL, 10) : 1;
    return count < size ? count : size;
}

ssize_t read(int file, void *target, size_t size) {
    if (fails(READ))
        return errno = EIO, -1;
    if (fails(READ_INTERRUPTED))
        return errno = EINTR, -1;
    if (fails(READ_AGAIN))
        return errno = EAGAIN, -1;
    if (size > 1 && fails(SHORT_READ))
        size = short_size(size);
    return syscall(SYS_read, file, target, size);
}

off_t lseek(int file, off_t offset, int whence) {
    if (fails(SEEK))
        return errno = ESPIPE, -1;
    return syscall(SYS_lseek, file, offset, whence);
}

static ssize_t not_written(int file, int why) {
    if (file == STDERR_FILENO)
        errors++;
    return errno = why, -1;
}

ssize_t write(int file, const void *text, size_t size) {
    if (until_write && failed)
        and_later = 0;
    if (in_parts && file == STDOUT_FILENO)
        next_part();
    if (fails(WRITE))
        return not_written(file, EIO);
    if (fails(WRITE_INTERRUPTED))
        return not_written(file, EINTR);
    if (fails(WRITE_BROKEN))
        return not_written(file, EPIPE);
    if (fails(WRITE_AGAIN))
        return not_written(file, EAGAIN);
    if (fails(WRITE_FULL))
        return not_written(file, ENOSPC);
    if (fails(WRITE_NONE))
        return not_written(file, 0) + 1;
    if (size > 1 && fails(SHORT_WRITE))
        size = short_size(size);
    return syscall(SYS_write, file, text, size);
}

ssize_t __write(int file, const void *text, size_t size) {
    return write(file, text, size);
}

int open(const char *name, int flags, ...) {
    va_list rest;
    va_start(rest, flags);
    mode_t mode = flags & O_CREAT ? va_arg(rest, mode_t) : 0;
    va_end(rest);
    if (fails(OPEN))
        return errno = EMFILE, -1;
    if (fails(OPEN_INTERRUPTED))
        return errno = EINTR, -1;
    return (int)syscall(SYS_open, name, flags, mode);
}
