// Makes one allocation of a program fail: the one that FAIL_AT counts, from 1. Where COUNT_TO names a
// file, the number of allocations is written there at the end.
#define _GNU_SOURCE
#include <dlfcn.h>
#include <stdio.h>
#include <stdlib.h>

static unsigned long count, fail_at;
static void *(*next_malloc)(size_t);
static void *(*next_realloc)(void *, size_t);

__attribute__((constructor)) static void start(void) {
    const char *at = getenv("FAIL_AT");
    next_malloc = dlsym(RTLD_NEXT, "malloc");
    next_realloc = dlsym(RTLD_NEXT, "realloc");
    fail_at = at ? strtoul(at, 0, 10) : 0;
    count = 0;
}

__attribute__((destructor)) static void end(void) {
    const char *name = getenv("COUNT_TO");
    unsigned long all = count;
    FILE *file = name ? fopen(name, "w") : 0;
    if (file) {
        fprintf(file, "%lu\n", all);
        fclose(file);
    }
}

static int fails(void) { return ++count == fail_at; }

void *malloc(size_t size) {
    if (!next_malloc) next_malloc = dlsym(RTLD_NEXT, "malloc");
    return fails() ? 0 : next_malloc(size);
}

void *realloc(void *old, size_t size) {
    if (!next_realloc) next_realloc = dlsym(RTLD_NEXT, "realloc");
    return fails() ? 0 : next_realloc(old, size);
}
