/* Makes the opening, the reads or the writes of one file fail in the program that it is loaded into (LD_PRELOAD).
 *
 * FAIL_ON      the file: the number of a descriptor, or a path
 * FAIL_AT      the number of the first call that fails, from 1; absent: none does
 * FAIL_WITH    the number of the error; absent or 0: the call moves no byte
 * FAIL_ONCE    if it is set, later calls are done again
 * FAIL_OPEN    the number of the error with which opening the path fails; absent: it is opened
 * COUNT_TO     if it is set, a file that gets the number of calls at the end
 *
 * A call that doesn't fail moves one byte. Other files are read and written as always.
 */
#define _GNU_SOURCE
#include <errno.h>
#include <fcntl.h>
#include <limits.h>
#include <stdarg.h>
#include <stdio.h>
#include <stdlib.h>
#include <string.h>
#include <sys/syscall.h>
#include <unistd.h>

static long calls;
static long first;
static int error;
static int once;
static int unopened;
static int descriptor = -1;
static char path[PATH_MAX];

__attribute__((constructor)) static void read_wishes(void) {
    const char *on = getenv("FAIL_ON");
    const char *at = getenv("FAIL_AT");
    const char *with = getenv("FAIL_WITH");
    first = at ? atol(at) : 0;
    error = with ? atoi(with) : 0;
    const char *opening = getenv("FAIL_OPEN");
    once = getenv("FAIL_ONCE") != NULL;
    unopened = opening ? atoi(opening) : 0;
    if (on && strspn(on, "0123456789") == strlen(on)) {
        descriptor = atoi(on);
    } else if (on && !realpath(on, path)) {
        path[0] = 0;
    }
}

__attribute__((destructor)) static void tell(void) {
    const char *to = getenv("COUNT_TO");
    long count = calls;
    descriptor = -1;
    path[0] = 0;
    FILE *file = to ? fopen(to, "w") : NULL;
    if (file) {
        fprintf(file, "%ld\n", count);
        fclose(file);
    }
}

static int is_chosen(int fd) {
    char link[64], found[PATH_MAX];
    if (!path[0]) {
        return fd == descriptor;
    }
    snprintf(link, sizeof link, "/proc/self/fd/%d", fd);
    ssize_t length = readlink(link, found, sizeof found - 1);
    if (length < 0) {
        return 0;
    }
    found[length] = 0;
    return strcmp(found, path) == 0;
}

/* How many bytes a call moves: all, or of the chosen file one; -1 if it fails, with the error set. */
static ssize_t moved(int fd, size_t count) {
    if (!is_chosen(fd)) {
        return (ssize_t)count;
    }
    calls++;
    if (first && (calls == first || (!once && calls > first))) {
        errno = error;
        return error ? -1 : 0;
    }
    return count > 1 ? 1 : (ssize_t)count;
}

int open(const char *name, int flags, ...) {
    char found[PATH_MAX];
    va_list rest;
    va_start(rest, flags);
    mode_t mode = flags & O_CREAT ? va_arg(rest, mode_t) : 0;
    va_end(rest);
    if (unopened && path[0] && realpath(name, found) && strcmp(found, path) == 0) {
        errno = unopened;
        return -1;
    }
    return (int)syscall(SYS_openat, AT_FDCWD, name, flags, mode);
}

ssize_t read(int fd, void *bytes, size_t count) {
    ssize_t most = moved(fd, count);
    return most > 0 ? syscall(SYS_read, fd, bytes, (size_t)most) : most;
}

ssize_t write(int fd, const void *bytes, size_t count) {
    ssize_t most = moved(fd, count);
    return most > 0 ? syscall(SYS_write, fd, bytes, (size_t)most) : most;
}
