/* Preloaded before a program: refuses the allocation whose number, counted from 1, is in REFUSE_AT, and gives all others; where
   REFUSE_COUNT is set, it refuses so many one after another. When it refuses one it makes the file REFUSED_FILE. Allocations are
   counted over all threads. Built and used by refuse_allocations.py. */
#define _GNU_SOURCE
#include <dlfcn.h>
#include <errno.h>
#include <fcntl.h>
#include <stdatomic.h>
#include <stdlib.h>
#include <unistd.h>

static atomic_long given;
static long first;
static long count;

/* The number of a name of the environment, or what stands for it where it is not set. */
static long number_of(const char *name, long otherwise) {
    const char *number = getenv(name);
    return number ? atol(number) : otherwise;
}

__attribute__((constructor)) static void begin(void) {
    first = number_of("REFUSE_AT", 0);
    count = number_of("REFUSE_COUNT", 1);
    atomic_store(&given, 0);
}

/* Leaves the file that tells of the refusal. */
static void tell(void) {
    const char *name = getenv("REFUSED_FILE");
    int file = name ? creat(name, 0600) : -1;
    if (file >= 0) {
        close(file);
    }
}

/* Whether the allocation that is asked for now is one to refuse. */
static int is_refused(void) {
    long number = atomic_fetch_add(&given, 1) + 1;
    if (first == 0 || number < first || first + count <= number) {
        return 0;
    }
    tell();
    errno = ENOMEM;
    return 1;
}

void *malloc(size_t size) {
    static void *(*real)(size_t);
    if (!real) {
        real = dlsym(RTLD_NEXT, "malloc");
    }
    return is_refused() ? NULL : real(size);
}

void *realloc(void *old, size_t size) {
    static void *(*real)(void *, size_t);
    if (!real) {
        real = dlsym(RTLD_NEXT, "realloc");
    }
    return is_refused() ? NULL : real(old, size);
}

void *aligned_alloc(size_t alignment, size_t size) {
    static void *(*real)(size_t, size_t);
    if (!real) {
        real = dlsym(RTLD_NEXT, "aligned_alloc");
    }
    return is_refused() ? NULL : real(alignment, size);
}

int posix_memalign(void **block, size_t alignment, size_t size) {
    static int (*real)(void **, size_t, size_t);
    if (!real) {
        real = dlsym(RTLD_NEXT, "posix_memalign");
    }
    return is_refused() ? ENOMEM : real(block, alignment, size);
}
