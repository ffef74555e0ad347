/* Counts the largest growth of memory of the program that it is loaded into (LD_PRELOAD).
 *
 * LARGEST_TO   a file that gets the largest number of bytes that one call asked for
 */
#define _GNU_SOURCE
#include <stdio.h>
#include <stdlib.h>

extern void *__libc_malloc(size_t);
extern void *__libc_calloc(size_t, size_t);
extern void *__libc_realloc(void *, size_t);
extern void *__libc_memalign(size_t, size_t);

static size_t largest;

static void see(size_t size) {
    if (size > largest) {
        largest = size;
    }
}

__attribute__((destructor)) static void tell(void) {
    const char *path = getenv("LARGEST_TO");
    size_t found = largest;
    FILE *file = path ? fopen(path, "w") : NULL;
    if (file) {
        fprintf(file, "%zu\n", found);
        fclose(file);
    }
}

void *malloc(size_t size) {
    see(size);
    return __libc_malloc(size);
}

void *calloc(size_t count, size_t size) {
    see(count * size);
    return __libc_calloc(count, size);
}

void *realloc(void *held, size_t size) {
    see(size);
    return __libc_realloc(held, size);
}

void *aligned_alloc(size_t alignment, size_t size) {
    see(size);
    return __libc_memalign(alignment, size);
}

int posix_memalign(void **held, size_t alignment, size_t size) {
    see(size);
    *held = __libc_memalign(alignment, size);
    return *held ? 0 : 12;
}
