// Looks whether the name of an open file still leads to it.
#define _GNU_SOURCE
#include "named.h"
#include <errno.h>
#include <stdio.h>
#include <sys/stat.h>
#include <unistd.h>

void take_name(struct named *named, const char *name, int file) {
    struct stat seen = {0};
    named->is_known = fstat(file, &seen) == 0 && seen.st_nlink != 0;
    named->device = seen.st_dev;
    named->inode = seen.st_ino;
    snprintf(named->name, sizeof named->name, "%s", name);
}

// Whether the name leads to another file than this one, or to none.
static bool leads_elsewhere(const struct named *named) {
    struct stat seen;
    if (stat(named->name, &seen) != 0) return errno == ENOENT || errno == ENOTDIR;
    return seen.st_dev != named->device || seen.st_ino != named->inode;
}

enum whereabouts find_file(const struct named *named, int file) {
    struct stat seen;
    if (!named->is_known) return AT_ITS_NAME;
    if (fstat(file, &seen) == 0 && seen.st_nlink == 0) return REMOVED;
    return leads_elsewhere(named) ? MOVED : AT_ITS_NAME;
}

bool remove_file(const struct named *named) {
    return named->is_known && !leads_elsewhere(named) && unlink(named->name) == 0;
}
