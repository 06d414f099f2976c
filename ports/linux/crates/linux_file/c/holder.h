// Tells which program has a file or a device that cannot be locked. `linux_device` and `zonedisk_linux` have this, too.
#pragma once
#include <stdbool.h>
#include <stdio.h>
#include <sys/stat.h>
#include <sys/sysmacros.h>
#include <unistd.h>

// Whether a line of /proc/locks is another program's lock of this file by `flock`: the number of the process that has it.
static inline bool is_lock_of(const char *line, const struct stat *seen, int *process) {
    unsigned first, second;
    unsigned long inode;
    if (sscanf(line, "%*d: FLOCK ADVISORY %*s %d %x:%x:%lu", process, &first, &second, &inode) != 4) return false;
    if (*process <= 0 || *process == getpid()) return false;
    return first == major(seen->st_dev) && second == minor(seen->st_dev) && inode == seen->st_ino;
}

// Writes a line to standard error if Linux says which process has the file. It does not say so of every file system.
static inline void tell_holder(int file) {
    struct stat seen;
    char line[256];
    int process = 0;
    FILE *locks = fstat(file, &seen) == 0 ? fopen("/proc/locks", "re") : NULL;
    if (locks == NULL) return;
    bool is_found = false;
    while (!is_found && fgets(line, sizeof line, locks) != NULL) is_found = is_lock_of(line, &seen, &process);
    fclose(locks);
    if (is_found) fprintf(stderr, "zonedisk: the process %d has it\n", process);
}
