/* Refuses memory to the program that it is loaded into (LD_PRELOAD).
 *
 * REFUSE_BY names a file of four 64-bit numbers, which the program and the check share:
 *
 *   growths   how many growths there were so far
 *   first     the number of the growth that is refused, counted from the start of the program from 1; 0: none is
 *   all       if it isn't 0, each growth after that one is refused too
 *   waits     1 while the program waits for standard input, and otherwise 0
 *
 * A growth is a call of malloc, calloc, aligned_alloc or posix_memalign, and one of realloc for more bytes.
 */
#define _GNU_SOURCE
#include <errno.h>
#include <fcntl.h>
#include <malloc.h>
#include <stdint.h>
#include <stdlib.h>
#include <sys/mman.h>
#include <sys/syscall.h>
#include <unistd.h>

extern void *__libc_malloc(size_t);
extern void *__libc_calloc(size_t, size_t);
extern void *__libc_realloc(void *, size_t);
extern void *__libc_memalign(size_t, size_t);

struct wishes {
    volatile int64_t growths, first, all, waits;
};

static struct wishes none;
static struct wishes *wishes = &none;

__attribute__((constructor)) static void read_wishes(void) {
    const char *path = getenv("REFUSE_BY");
    int file = path ? open(path, O_RDWR) : -1;
    if (file < 0) {
        return;
    }
    void *shared = mmap(NULL, sizeof(struct wishes), PROT_READ | PROT_WRITE, MAP_SHARED, file, 0);
    close(file);
    if (shared != MAP_FAILED) {
        wishes = shared;
        wishes->growths = 0;
    }
}

static int is_refused(void) {
    int64_t number = ++wishes->growths;
    if (wishes->first && (number == wishes->first || (wishes->all && number > wishes->first))) {
        errno = ENOMEM;
        return 1;
    }
    return 0;
}

void *malloc(size_t size) {
    return is_refused() ? NULL : __libc_malloc(size);
}

void *calloc(size_t count, size_t size) {
    return is_refused() ? NULL : __libc_calloc(count, size);
}

void *realloc(void *held, size_t size) {
    if (held && size <= malloc_usable_size(held)) {
        return __libc_realloc(held, size);
    }
    return is_refused() ? NULL : __libc_realloc(held, size);
}

void *aligned_alloc(size_t alignment, size_t size) {
    return is_refused() ? NULL : __libc_memalign(alignment, size);
}

int posix_memalign(void **held, size_t alignment, size_t size) {
    void *found = is_refused() ? NULL : __libc_memalign(alignment, size);
    if (!found) {
        return ENOMEM;
    }
    *held = found;
    return 0;
}

ssize_t read(int fd, void *bytes, size_t count) {
    if (fd != 0) {
        return syscall(SYS_read, fd, bytes, count);
    }
    wishes->waits = 1;
    ssize_t got = syscall(SYS_read, fd, bytes, count);
    wishes->waits = 0;
    return got;
}
