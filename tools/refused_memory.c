/* A library to be loaded before the C library: it refuses one request for memory, the one of the number in REFUSE (from 1), and
   writes how many there were to the file that COUNT names when the program ends. */
#define _GNU_SOURCE
#include <dlfcn.h>
#include <errno.h>
#include <stdio.h>
#include <stdlib.h>
#include <string.h>

static long requested, refuse = -1;

static int is_refused(void) {
    if (refuse < 0) {
        const char *number = getenv("REFUSE");
        refuse = number ? atol(number) : 0;
    }
    return ++requested == refuse;
}

extern void *__libc_malloc(size_t);
extern void *__libc_calloc(size_t, size_t);
extern void *__libc_realloc(void *, size_t);
extern void *__libc_memalign(size_t, size_t);

static void *none(void) {
    errno = ENOMEM;
    return NULL;
}

void *malloc(size_t size) { return is_refused() ? none() : __libc_malloc(size); }
void *calloc(size_t count, size_t size) { return is_refused() ? none() : __libc_calloc(count, size); }
void *realloc(void *old, size_t size) { return is_refused() ? none() : __libc_realloc(old, size); }
void *aligned_alloc(size_t to, size_t size) { return is_refused() ? none() : __libc_memalign(to, size); }
int posix_memalign(void **at, size_t to, size_t size) {
    if (is_refused())
        return ENOMEM;
    *at = __libc_memalign(to, size);
    return *at ? 0 : ENOMEM;
}

__attribute__((destructor)) static void report(void) {
    const char *name = getenv("COUNT");
    FILE *file = name ? fopen(name, "w") : NULL;
    if (file) {
        fprintf(file, "%ld\n", requested);
        fclose(file);
    }
}
