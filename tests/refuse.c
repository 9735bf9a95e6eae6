/* Replaces the C library's allocator: the request for memory with the number of the variable REFUSE fails, counted from 1.
   If the variable ASKED names a file, the number of requests is written there at the end. If the variable EACH names a file, each
   request fails in turn, in a copy of the process that is made for it: the process waits for the copy, writes a line for it to that
   file, and goes on as if nothing had failed. The line has the number of the request, the status of the copy (128 and more for a
   signal), how many bytes were written to standard output, before and in the copy, a checksum of these, and how many bytes the copy
   wrote to standard error. The last
   line has 0 for the number and the status, and what the process itself wrote to standard output, which must be a file. The files
   EACH.out and EACH.err have what the last copy wrote. */
#define _GNU_SOURCE
#include <errno.h>
#include <fcntl.h>
#include <stddef.h>
#include <stdio.h>
#include <stdlib.h>
#include <sys/wait.h>
#include <unistd.h>

extern void *__libc_malloc(size_t);
extern void *__libc_calloc(size_t, size_t);
extern void *__libc_realloc(void *, size_t);
extern void *__libc_memalign(size_t, size_t);

enum { FILES = 16 };

static long asked, refuse = -1;
static const char *each;
static char names[2][4096];
static int lines = -1, is_inside;

static unsigned char piece[65536];

/* Sends what is written to standard output and standard error to the two files: the first has what was written before, the second is
   empty. */
static void into_files(void) {
    int before = open("/proc/self/fd/1", O_RDONLY);
    for (int k = 0; k < 2; k++) {
        int file = open(names[k], O_CREAT | O_TRUNC | O_WRONLY, 0600);
        if (before < 0 || file < 0) _exit(99);
        for (ssize_t many; k == 0 && (many = read(before, piece, sizeof piece)) > 0;)
            if (write(file, piece, (size_t)many) != many) _exit(99);
        if (dup2(file, k + 1) < 0) _exit(99);
        close(file);
    }
    close(before);
}

/* How many bytes a file has, and the checksum of Fowler, Noll and Vo of them. */
static long size_of(const char *name, unsigned long *sum) {
    long size = 0;
    *sum = 0xcbf29ce484222325;
    int file = open(name, O_RDONLY);
    for (ssize_t many; (many = read(file, piece, sizeof piece)) > 0; size += many)
        for (ssize_t k = 0; k < many; k++) *sum = (*sum ^ piece[k]) * 0x100000001b3;
    close(file);
    return size;
}

static void note(long number, int status, const char *output, const char *errors) {
    char line[256];
    unsigned long sum, other;
    long size = size_of(output, &sum);
    int many = snprintf(line, sizeof line, "%ld %d %ld %lx %ld\n", number, status, size, sum, errors ? size_of(errors, &other) : 0);
    if (write(lines, line, (size_t)many) != many) _exit(96);
}

/* Whether this is the copy of the process in which the request fails. A file that is open is read on where it was. */
static int copied(void) {
    off_t places[FILES];
    for (int k = 3; k < FILES; k++) places[k] = lseek(k, 0, SEEK_CUR);
    pid_t copy = fork();
    if (copy == 0) {
        into_files();
        return 1;
    }
    int status = 0;
    if (copy < 0 || waitpid(copy, &status, 0) < 0) _exit(98);
    for (int k = 3; k < FILES; k++)
        if (places[k] >= 0) lseek(k, places[k], SEEK_SET);
    note(asked, WIFEXITED(status) ? WEXITSTATUS(status) : 128 + WTERMSIG(status), names[0], names[1]);
    return 0;
}

static void begin(void) {
    const char *word = getenv("REFUSE");
    refuse = word ? atol(word) : 0;
    each = getenv("EACH");
    if (each == NULL) return;
    snprintf(names[0], sizeof names[0], "%s.out", each);
    snprintf(names[1], sizeof names[1], "%s.err", each);
    int file = open(each, O_CREAT | O_TRUNC | O_WRONLY | O_APPEND, 0600);
    lines = fcntl(file, F_DUPFD, FILES);
    close(file);
    if (lines < 0) _exit(97);
}

/* Whether this request fails. What the library itself asks for meanwhile is not counted. */
static int refused(void) {
    if (is_inside) return 0;
    is_inside = 1;
    if (refuse < 0) begin();
    ++asked;
    int fails = each == NULL ? asked == refuse : copied();
    if (fails) each = NULL;
    is_inside = 0;
    return fails;
}

void *malloc(size_t size) { return refused() ? (errno = ENOMEM, NULL) : __libc_malloc(size); }

void *calloc(size_t count, size_t size) { return refused() ? (errno = ENOMEM, NULL) : __libc_calloc(count, size); }

void *realloc(void *old, size_t size) { return refused() ? (errno = ENOMEM, NULL) : __libc_realloc(old, size); }

void *aligned_alloc(size_t align, size_t size) { return refused() ? (errno = ENOMEM, NULL) : __libc_memalign(align, size); }

int posix_memalign(void **place, size_t align, size_t size) {
    void *memory = refused() ? NULL : __libc_memalign(align, size);
    if (memory == NULL) return ENOMEM;
    *place = memory;
    return 0;
}

__attribute__((destructor)) static void tell(void) {
    const char *name = getenv("ASKED");
    long number = asked;
    is_inside = 1;
    if (each != NULL) note(0, 0, "/proc/self/fd/1", NULL);
    if (name == NULL) return;
    FILE *file = fopen(name, "w");
    if (file == NULL) return;
    fprintf(file, "%ld\n", number);
    fclose(file);
}
