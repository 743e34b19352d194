// Makes one call for memory fail: the FAIL_ALLOC-th, or with FAIL_REST set that one and each after it.
// With COUNT_ALLOC set, the number of calls is written to the file of this name as the program ends.
#define _GNU_SOURCE
#include <dlfcn.h>
#include <stdio.h>
#include <stdlib.h>

static void *(*next_malloc)(size_t);
static void *(*next_realloc)(void *, size_t);
static long calls, failing;
static int rest;

__attribute__((constructor)) static void start(void) {
    next_malloc = dlsym(RTLD_NEXT, "malloc");
    next_realloc = dlsym(RTLD_NEXT, "realloc");
    const char *number = getenv("FAIL_ALLOC");
    failing = number ? atol(number) : 0;
    rest = getenv("FAIL_REST") != NULL;
    calls = 0;
}

__attribute__((destructor)) static void stop(void) {
    const char *name = getenv("COUNT_ALLOC");
    long counted = calls;
    failing = 0;
    FILE *file = name ? fopen(name, "w") : NULL;
    if (file) {
        fprintf(file, "%ld\n", counted);
        fclose(file);
    }
}

static int fails(void) {
    calls++;
    return failing != 0 && (calls == failing || (rest && calls > failing));
}

void *malloc(size_t size) {
    if (!next_malloc) next_malloc = dlsym(RTLD_NEXT, "malloc");
    return fails() ? NULL : next_malloc(size);
}

void *realloc(void *block, size_t size) {
    if (!next_realloc) next_realloc = dlsym(RTLD_NEXT, "realloc");
    return fails() ? NULL : next_realloc(block, size);
}
