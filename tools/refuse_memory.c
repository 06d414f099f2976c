/* Loaded before the C library, lets one allocation fail: the one whose number, from 1 on, FAIL_ALLOC gives.
   Where COUNT_ALLOC names a file, writes into it how many allocations there were. */
#define _GNU_SOURCE
#include <dlfcn.h>
#include <stdio.h>
#include <stdlib.h>

static long count;

static int fails(void) {
    const char *number = getenv("FAIL_ALLOC");
    count++;
    return number != NULL && count == strtol(number, NULL, 10);
}

void *malloc(size_t size) {
    void *(*next)(size_t) = (void *(*)(size_t))dlsym(RTLD_NEXT, "malloc");
    return fails() ? NULL : next(size);
}

void *realloc(void *old, size_t size) {
    void *(*next)(void *, size_t) = (void *(*)(void *, size_t))dlsym(RTLD_NEXT, "realloc");
    return fails() ? NULL : next(old, size);
}

__attribute__((destructor)) static void tell(void) {
    const char *name = getenv("COUNT_ALLOC");
    FILE *file = name == NULL ? NULL : fopen(name, "w");
    if (file != NULL) {
        fprintf(file, "%ld\n", count);
        fclose(file);
    }
}
