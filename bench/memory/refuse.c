/* Refuses one allocation: that of the number in REFUSE, counted from 1; with REFUSE=0 it refuses none, and tells
   at the end how many there were. Loaded by LD_PRELOAD. */
#define _GNU_SOURCE
#include <dlfcn.h>
#include <errno.h>
#include <stdio.h>
#include <stdlib.h>

static long count;
static long refused = -1;

/* Whether this allocation is the one to refuse. */
static int is_refused(void) {
    if (refused == -1) {
        const char *number = getenv("REFUSE");
        refused = number ? atol(number) : 0;
    }
    return ++count == refused;
}

__attribute__((destructor)) static void tell(void) {
    long all = count;
    if (refused == 0) fprintf(stderr, "%ld\n", all);
}

void *malloc(size_t size) {
    static void *(*next)(size_t);
    if (!next) next = dlsym(RTLD_NEXT, "malloc");
    return is_refused() ? NULL : next(size);
}

void *realloc(void *old, size_t size) {
    static void *(*next)(void *, size_t);
    if (!next) next = dlsym(RTLD_NEXT, "realloc");
    return is_refused() ? NULL : next(old, size);
}

void *aligned_alloc(size_t alignment, size_t size) {
    static void *(*next)(size_t, size_t);
    if (!next) next = dlsym(RTLD_NEXT, "aligned_alloc");
    return is_refused() ? NULL : next(alignment, size);
}

int posix_memalign(void **place, size_t alignment, size_t size) {
    static int (*next)(void **, size_t, size_t);
    if (!next) next = dlsym(RTLD_NEXT, "posix_memalign");
    return is_refused() ? ENOMEM : next(place, alignment, size);
}
