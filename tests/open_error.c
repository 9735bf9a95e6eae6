/* Replaces the C library's open: each call fails with the system error whose number is the variable OPEN_ERROR, whatever the file is.
   So a file can be there although its opening says that it is not. */
#include <errno.h>
#include <stdlib.h>

static int failed(void) {
    const char *word = getenv("OPEN_ERROR");
    errno = word ? atoi(word) : EIO;
    return -1;
}

int open(const char *name, int flags, ...) {
    (void)name, (void)flags;
    return failed();
}

int open64(const char *name, int flags, ...) {
    (void)name, (void)flags;
    return failed();
}
