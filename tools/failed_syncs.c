/* Loaded before the C library, stands between a program and one file, as a cache of pages that may lose what it could not
   write.

   SYNCS_FILE names the file: it holds what the cache shows. SYNCS_DISK names a file of the same length: what the disk
   holds. SYNCS_STATE names a file of one byte for each page, and one more in front: whether an error was told to nobody.
   A page is clean, dirty, or lost: its write failed, so that it is shown until Linux lets go of it, and never written.
   The syncs from the number SYNCS_FAIL to the number SYNCS_LAST fail. Then some of the dirty pages are written and the others are lost, as
   SYNCS_SEED says, and of those some are let go of at once. SYNCS_BOOT names a file that is read as the boot, and
   SYNCS_COUNT one into which the number of syncs is written. */
#define _GNU_SOURCE
#include <dlfcn.h>
#include <errno.h>
#include <fcntl.h>
#include <stdio.h>
#include <stdlib.h>
#include <string.h>
#include <sys/stat.h>
#include <unistd.h>

enum { PAGE = 4096, CLEAN = 0, DIRTY = 1, LOST = 2 };

static long syncs;
static int disk = -1, state = -1;
static int in_call;

static ssize_t real_pread(int file, void *room, size_t length, off_t at) {
    ssize_t (*call)(int, void *, size_t, off_t);
    *(void **)&call = dlsym(RTLD_NEXT, "pread");
    return call(file, room, length, at);
}

static ssize_t real_pwrite(int file, const void *bytes, size_t length, off_t at) {
    ssize_t (*call)(int, const void *, size_t, off_t);
    *(void **)&call = dlsym(RTLD_NEXT, "pwrite");
    return call(file, bytes, length, at);
}

/* Whether an open file is the one. */
static int is_watched(int file) {
    struct stat one, two;
    const char *path = getenv("SYNCS_FILE");
    if (path == NULL || in_call || fstat(file, &one) != 0 || stat(path, &two) != 0) return 0;
    if (one.st_ino != two.st_ino || one.st_dev != two.st_dev) return 0;
    if (disk < 0) disk = open(getenv("SYNCS_DISK"), O_RDWR | O_CLOEXEC);
    if (state < 0) state = open(getenv("SYNCS_STATE"), O_RDWR | O_CLOEXEC);
    if (disk < 0 || state < 0) abort();
    return 1;
}

static unsigned char page_state(off_t page) {
    unsigned char byte = CLEAN;
    if (real_pread(state, &byte, 1, 1 + page) < 0) abort();
    return byte;
}

static void set_state(off_t page, unsigned char byte) {
    if (real_pwrite(state, &byte, 1, 1 + page) != 1) abort();
}

static void copy_page(int from, int to, off_t page) {
    char bytes[PAGE];
    ssize_t count = real_pread(from, bytes, PAGE, page * PAGE);
    if (count < 0 || real_pwrite(to, bytes, (size_t)count, page * PAGE) != count) abort();
}

static off_t pages_of(int file) {
    struct stat seen;
    return fstat(file, &seen) == 0 ? (seen.st_size + PAGE - 1) / PAGE : 0;
}

static void mark(off_t at, size_t length) {
    if (length == 0) return;
    for (off_t page = at / PAGE; page <= (off_t)(at + (off_t)length - 1) / PAGE; page++) set_state(page, DIRTY);
}

ssize_t pwrite(int file, const void *bytes, size_t length, off_t at) {
    ssize_t done = real_pwrite(file, bytes, length, at);
    if (done > 0 && is_watched(file)) mark(at, (size_t)done);
    return done;
}

int fallocate(int file, int mode, off_t at, off_t length) {
    int (*call)(int, int, off_t, off_t);
    *(void **)&call = dlsym(RTLD_NEXT, "fallocate");
    int done = call(file, mode, at, length);
    if (done == 0 && is_watched(file)) mark(at, (size_t)length);
    return done;
}

/* Writes some of the dirty pages, and loses the others. */
static void lose(int file) {
    const char *seed = getenv("SYNCS_SEED");
    srand(seed == NULL ? 1 : (unsigned)strtoul(seed, NULL, 10) + (unsigned)syncs);
    for (off_t page = 0; page < pages_of(file); page++) {
        if (page_state(page) != DIRTY) continue;
        int fate = rand() % 3;
        if (fate == 0) copy_page(file, disk, page);
        set_state(page, fate == 0 ? CLEAN : LOST);
        if (fate == 2) {
            copy_page(disk, file, page);
            set_state(page, CLEAN);
        }
    }
}

static long number_of(const char *name) {
    const char *number = getenv(name);
    return number == NULL ? 0 : strtol(number, NULL, 10);
}

int fdatasync(int file) {
    int (*call)(int);
    *(void **)&call = dlsym(RTLD_NEXT, "fdatasync");
    if (!is_watched(file)) return call(file);
    unsigned char untold = 0, none = 0;
    syncs++;
    if (real_pread(state, &untold, 1, 0) < 0 || real_pwrite(state, &none, 1, 0) != 1) abort();
    if (untold || (syncs >= number_of("SYNCS_FAIL") && syncs <= number_of("SYNCS_LAST"))) {
        lose(file);
        errno = EIO;
        return -1;
    }
    for (off_t page = 0; page < pages_of(file); page++) {
        if (page_state(page) != DIRTY) continue;
        copy_page(file, disk, page);
        set_state(page, CLEAN);
    }
    return 0;
}

int posix_fadvise(int file, off_t at, off_t length, int advice) {
    (void)at, (void)length;
    if (advice != POSIX_FADV_DONTNEED || !is_watched(file)) return 0;
    for (off_t page = 0; page < pages_of(file); page++) {
        if (page_state(page) != LOST) continue;
        in_call = 1;
        int writable = open(getenv("SYNCS_FILE"), O_RDWR | O_CLOEXEC);
        in_call = 0;
        copy_page(disk, writable, page);
        close(writable);
        set_state(page, CLEAN);
    }
    return 0;
}

FILE *fopen(const char *path, const char *mode) {
    FILE *(*call)(const char *, const char *);
    *(void **)&call = dlsym(RTLD_NEXT, "fopen");
    const char *boot = getenv("SYNCS_BOOT");
    return call(boot != NULL && strcmp(path, "/proc/sys/kernel/random/boot_id") == 0 ? boot : path, mode);
}

__attribute__((destructor)) static void tell_count(void) {
    const char *path = getenv("SYNCS_COUNT");
    FILE *file = path == NULL ? NULL : fopen(path, "w");
    if (file == NULL) return;
    fprintf(file, "%ld", syncs);
    fclose(file);
}
