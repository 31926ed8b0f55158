// Refuses one growth of a program: the one whose number is in GROWTH_AT, counted from 1. It stands between the program and the allocator of the C
// library, by LD_PRELOAD, and says on the standard error when it has refused one.
#define _GNU_SOURCE
#include <dlfcn.h>
#include <stdatomic.h>
#include <stdlib.h>
#include <unistd.h>

static const char SAID[] = "growth refused\n";
static atomic_long asked;

static int is_refused(void) {
    const char *at = getenv("GROWTH_AT");
    if (at == NULL || ++asked != atol(at)) return 0;
    return write(2, SAID, sizeof SAID - 1) > 0;
}

void *malloc(size_t size) {
    void *(*given)(size_t) = dlsym(RTLD_NEXT, "malloc");
    return is_refused() ? NULL : given(size);
}

void *realloc(void *old, size_t size) {
    void *(*given)(void *, size_t) = dlsym(RTLD_NEXT, "realloc");
    return is_refused() ? NULL : given(old, size);
}
