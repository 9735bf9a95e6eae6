/* Goes before the C library's open, read and write, for tests/edge. Calls are counted from 1.
   MOST=N: a read or a write moves at most N bytes. INTERRUPTS=N: a signal interrupts each read and write N times first.
   AT=N and HOW: what becomes of call N: `fail` (with the error number ERRNO), `short` (it moves at most one byte), `zero` (it returns 0
   and moves nothing), or `interrupt` (a signal interrupts it once, and the call that tries again has the next number).
   CALLS=FILE: a line is written there for each call: `open NAME COUNT`, `read FILE COUNT` or `write FILE COUNT`, FILE being the
   descriptor and COUNT what the call returned. */
#define _GNU_SOURCE
#include <errno.h>
#include <fcntl.h>
#include <stdarg.h>
#include <stdio.h>
#include <stdlib.h>
#include <string.h>
#include <sys/syscall.h>
#include <unistd.h>

static long calls, interrupts;

static long number(const char *name) {
    const char *word = getenv(name);
    return word ? atol(word) : 0;
}

/* Counts a call, and returns what becomes of it. */
static const char *counted(void) {
    const char *how = getenv("HOW");
    if (++calls != number("AT") || how == NULL) return "";
    errno = strcmp(how, "interrupt") == 0 ? EINTR : (int)number("ERRNO");
    return how;
}

static int fails(const char *how) { return strcmp(how, "fail") == 0 || strcmp(how, "interrupt") == 0; }

/* Puts a call down, and returns what it returned. */
static long told(const char *kind, const char *of, long count) {
    const char *name = getenv("CALLS");
    int flags = O_WRONLY | O_CREAT | O_APPEND | (calls == 1 ? O_TRUNC : 0), error = errno;
    int file = name ? (int)syscall(SYS_openat, AT_FDCWD, name, flags, 0600) : -1;
    if (file >= 0) {
        char line[512];
        int size = snprintf(line, sizeof line, "%s %.400s %ld\n", kind, of, count);
        if (syscall(SYS_write, file, line, size) != size) abort();
        syscall(SYS_close, file);
    }
    errno = error;
    return count;
}

static ssize_t moved(long call, const char *kind, int file, void *place, size_t size) {
    size_t most = (size_t)number("MOST");
    char of[16];
    if (interrupts++ < number("INTERRUPTS")) {
        errno = EINTR;
        return -1;
    }
    interrupts = 0;
    snprintf(of, sizeof of, "%d", file);
    const char *how = counted();
    if (fails(how)) return told(kind, of, -1);
    if (strcmp(how, "zero") == 0) return told(kind, of, 0);
    if (strcmp(how, "short") == 0) most = 1;
    return told(kind, of, syscall(call, file, place, most && size > most ? most : size));
}

ssize_t read(int file, void *place, size_t size) { return moved(SYS_read, "read", file, place, size); }

ssize_t write(int file, const void *place, size_t size) { return moved(SYS_write, "write", file, (void *)place, size); }

static int opened(const char *name, int flags, mode_t mode) {
    const char *last = strrchr(name, '/');
    const char *how = counted();
    return (int)told("open", last ? last + 1 : name, fails(how) ? -1 : syscall(SYS_openat, AT_FDCWD, name, flags, mode));
}

#define OPENS(function) \
    int function(const char *name, int flags, ...) { \
        va_list more; \
        va_start(more, flags); \
        mode_t mode = flags & O_CREAT ? va_arg(more, mode_t) : 0; \
        va_end(more); \
        return opened(name, flags, mode); \
    }

OPENS(open)
OPENS(open64)
