// Makes a number of what the file system says of a file.
#define _GNU_SOURCE
#include "number.h"
#include <fcntl.h>
#include <sys/stat.h>

// An odd number that has its bits all over: a product with it takes each bit of the other number to the higher ones.
static const uint64_t SPREAD = 0x9e3779b97f4a7c15;

// The time at which a file was made, in nanoseconds, or 0 where the file system does not tell it.
static uint64_t birth_of(const struct statx *told) {
    if ((told->stx_mask & STATX_BTIME) == 0) return 0;
    return (uint64_t)told->stx_btime.tv_sec * 1000000000 + told->stx_btime.tv_nsec;
}

// A file on another file system may have the same inode. So the time at which it was made counts, too. The number of
// the device does not, since a new start of Linux may change it.
uint32_t number_of_file(int file) {
    struct statx told = {0};
    struct stat seen = {0};
    uint64_t number = 0;
    if (statx(file, "", AT_EMPTY_PATH, STATX_INO | STATX_BTIME, &told) == 0) {
        number = told.stx_ino + birth_of(&told) * SPREAD;
    } else if (fstat(file, &seen) == 0) {
        number = seen.st_ino;
    }
    return (uint32_t)(number * SPREAD >> 32);
}
