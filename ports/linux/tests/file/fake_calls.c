#define _GNU_SOURCE
#include "fake_calls.h"
#include <errno.h>
#include <fcntl.h>
#include <stdarg.h>
#include <stdio.h>
#include <string.h>
#include <sys/file.h>
#include <sys/stat.h>
#include <unistd.h>

struct calls calls;

ssize_t __real_pread(int file, void *room, size_t length, off_t at);
ssize_t __real_pwrite(int file, const void *bytes, size_t length, off_t at);
int __real_fdatasync(int file);
int __real_fsync(int file);
int __real_flock(int file, int operation);
int __real_fstat(int file, struct stat *seen);
int __real_statx(int folder, const char *path, int how, unsigned wanted, struct statx *told);
int __real_ftruncate(int file, off_t length);
int __real_fallocate(int file, int mode, off_t at, off_t length);
int __real_posix_fadvise(int file, off_t at, off_t length, int advice);
FILE *__real_fopen(const char *path, const char *mode);
int __real_open(const char *path, int how, ...);

// Whether a call fails, by an error that is not 0.
static bool fails(int error) {
    if (error != 0) errno = error;
    return error != 0;
}

static bool is_interrupted(void) {
    if (calls.interruptions == 0) return false;
    calls.interruptions--;
    return fails(EINTR);
}

static size_t shorter(size_t length) {
    return calls.most_bytes != 0 && length > calls.most_bytes ? calls.most_bytes : length;
}

ssize_t __wrap_pread(int file, void *room, size_t length, off_t at) {
    calls.reads++;
    if (is_interrupted() || fails(calls.read_error)) return -1;
    ssize_t count = __real_pread(file, room, shorter(length), at);
    if (at == 0 && count > 0 && calls.changes > 0) *(unsigned char *)room = (unsigned char)(101 + calls.changes--);
    return count;
}

ssize_t __wrap_pwrite(int file, const void *bytes, size_t length, off_t at) {
    calls.writes++;
    if (is_interrupted()) return -1;
    if (calls.writes_left == 0 && fails(calls.write_error)) return -1;
    if (calls.writes_left > 0) calls.writes_left--;
    return __real_pwrite(file, bytes, shorter(length), at);
}

int __wrap_fdatasync(int file) {
    calls.data_syncs++;
    return fails(calls.data_error) ? -1 : __real_fdatasync(file);
}

int __wrap_fsync(int file) {
    struct stat seen;
    if (__real_fstat(file, &seen) != 0) return -1;
    if (S_ISDIR(seen.st_mode)) {
        calls.folder_syncs++;
        return fails(calls.folder_error) ? -1 : __real_fsync(file);
    }
    calls.file_syncs++;
    return fails(calls.file_error) ? -1 : __real_fsync(file);
}

int __wrap_flock(int file, int operation) {
    return fails(calls.lock_error) ? -1 : __real_flock(file, operation);
}

int __wrap_fstat(int file, struct stat *seen) {
    return fails(calls.look_error) ? -1 : __real_fstat(file, seen);
}

int __wrap_statx(int folder, const char *path, int how, unsigned wanted, struct statx *told) {
    if (calls.has_no_statx) return fails(ENOSYS) ? -1 : 0;
    int given = __real_statx(folder, path, how, wanted, told);
    if (calls.has_no_birth) told->stx_mask &= ~STATX_BTIME;
    return given;
}

int __wrap_ftruncate(int file, off_t length) {
    return fails(calls.length_error) ? -1 : __real_ftruncate(file, length);
}

int __wrap_fallocate(int file, int mode, off_t at, off_t length) {
    if (mode == (FALLOC_FL_PUNCH_HOLE | FALLOC_FL_KEEP_SIZE)) calls.holes++;
    return is_interrupted() || fails(calls.hole_error) ? -1 : __real_fallocate(file, mode, at, length);
}

int __wrap_posix_fadvise(int file, off_t at, off_t length, int advice) {
    if (at == 0 && length == 0 && advice == POSIX_FADV_DONTNEED) calls.advices++;
    return __real_posix_fadvise(file, at, length, advice);
}

FILE *__wrap_fopen(const char *path, const char *mode) {
    bool is_boot = strcmp(path, "/proc/sys/kernel/random/boot_id") == 0;
    if (is_boot) calls.boot_reads++;
    return __real_fopen(is_boot && calls.boot_path != NULL ? calls.boot_path : path, mode);
}

int __wrap_open(const char *path, int how, ...) {
    va_list words;
    va_start(words, how);
    mode_t mode = (how & O_CREAT) != 0 ? va_arg(words, mode_t) : 0;
    va_end(words);
    bool is_held = strncmp(path, "/proc/self/fd/", 14) == 0;
    if (is_held && calls.at_open != NULL) calls.at_open();
    return is_held && calls.has_no_proc && fails(ENOENT) ? -1 : __real_open(path, how, mode);
}
