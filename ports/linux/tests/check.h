// Counts what has to hold, and tells what does not.
#pragma once
#include <stdbool.h>
#include <stdio.h>

static unsigned long looked, wrong;

static inline bool expect(bool holds, const char *what) {
    looked++;
    if (!holds) {
        wrong++;
        printf("WRONG: %s\n", what);
    }
    return holds;
}

static inline int end_checks(const char *name) {
    printf("%s: looked at %lu things, %lu wrong\n", name, looked, wrong);
    return wrong != 0;
}
