/* Refuses one allocation of the program that it is loaded into: the one at the place REFUSED_AT, counted from 1. At the end the
   count of all allocations is written to the file REFUSED_COUNT, if that is set. */
#include <errno.h>
#include <stddef.h>
#include <stdio.h>
#include <stdlib.h>

void *__libc_malloc(size_t size);
void *__libc_realloc(void *old, size_t size);
void *__libc_calloc(size_t count, size_t size);
void *__libc_memalign(size_t alignment, size_t size);

static long place = -1, count;

static int is_refused(void) {
    if (place < 0) {
        const char *at = getenv("REFUSED_AT");
        place = at ? atol(at) : 0;
    }
    return ++count == place;
}

void *malloc(size_t size) {
    if (is_refused()) {
        errno = ENOMEM;
        return NULL;
    }
    return __libc_malloc(size);
}

void *realloc(void *old, size_t size) {
    if (is_refused()) {
        errno = ENOMEM;
        return NULL;
    }
    return __libc_realloc(old, size);
}

void *calloc(size_t many, size_t size) {
    if (is_refused()) {
        errno = ENOMEM;
        return NULL;
    }
    return __libc_calloc(many, size);
}

void *aligned_alloc(size_t alignment, size_t size) {
    if (is_refused()) {
        errno = ENOMEM;
        return NULL;
    }
    return __libc_memalign(alignment, size);
}

int posix_memalign(void **at, size_t alignment, size_t size) {
    if (is_refused()) {
        return ENOMEM;
    }
    *at = __libc_memalign(alignment, size);
    return *at ? 0 : ENOMEM;
}

__attribute__((destructor)) static void tell(void) {
    const char *name = getenv("REFUSED_COUNT");
    long all = count;
    FILE *file = name ? fopen(name, "w") : NULL;
    if (file) {
        fprintf(file, "%ld\n", all);
        fclose(file);
    }
}
