// Puts a small zoned drive of the port's tests (fake_drive.c) in the place of /dev/ng0n1, with the answers of Linux's
// driver. There is no block device. It is loaded before the program, by LD_PRELOAD.
//
// FAKE_SHAPE has the seven numbers of the drive, and FAKE_FOLDER its files: `image` with the blocks, and `zones`. The
// file `fault` lets commands fail, as QEMU's driver blkdebug does. It has the kind, a block or -1, whether it is once,
// and the bytes of a part or 0:
//
//   read   a Read of the block fails
//   write  an Append of the block fails. Its blocks are counted, and are zeros: with parts only from the block on
//   flush  an Append is done, and answered by a fault
//   lost   an Append of the block is answered, and not done
//   protected  the drive says that it is write protected, and does nothing that would change it
//   cache  at a Flush the volatile write cache is on again, as after a reset of the controller. The block is the number of
//          that Flush in the program, from 0 on
//   kept   the same, and it stays on
//
// That cache is on at the start of a program. It keeps nothing back: only what the drive says of it is tried.
#define _GNU_SOURCE
#include "../../ports/linux/tests/fake_drive.h"
#include <fcntl.h>
#include <inttypes.h>
#include <limits.h>
#include <linux/nvme_ioctl.h>
#include <stdarg.h>
#include <stdio.h>
#include <stdlib.h>
#include <string.h>
#include <sys/ioctl.h>
#include <sys/mman.h>
#include <sys/stat.h>
#include <sys/syscall.h>
#include <sys/sysmacros.h>
#include <unistd.h>

enum { FLUSH = 0x00, READ = 0x02, APPEND = 0x7d, PAGE = 4096, NUMBER = 1 };
enum { IDENTIFY = 0x06, SET_FEATURES = 0x09, GET_FEATURES = 0x0a, WRITE_CACHE = 0x06, VWC = 525 };
enum { READ_ERROR = 0x281, WRITE_FAULT = 0x280 };

// The file that is looked at as /dev/ng0n1, and the one that stands for the opened device.
static int looked_at = -1, device = -1;
static struct drive drive;
static bool cache_is_on = true, cache_stays_on;
static uint64_t flushes;

struct fault {
    char kind[16];
    int64_t block;
    int once;
    uint64_t part;
};

static void *map_file(const char *name, size_t length) {
    char path[PATH_MAX];
    snprintf(path, sizeof path, "%s/%s", getenv("FAKE_FOLDER"), name);
    int file = openat(AT_FDCWD, path, O_RDWR | O_CLOEXEC);
    void *bytes = file < 0 ? MAP_FAILED : mmap(NULL, length, PROT_READ | PROT_WRITE, MAP_SHARED, file, 0);
    if (bytes == MAP_FAILED) abort();
    return bytes;
}

static void take_drive(void) {
    struct shape *shape = &drive.shape;
    if (drive.bytes != NULL) return;
    int got = sscanf(getenv("FAKE_SHAPE"), "%u %u %u %u %u %u %u", &shape->block, &shape->zones, &shape->size,
                     &shape->capacity, &shape->transfer, &shape->active, &shape->most_open);
    if (got != 7) abort();
    drive.zones = map_file("zones", shape->zones * sizeof *drive.zones);
    drive.bytes = map_file("image", (size_t)shape->zones * shape->size * shape->block);
}

static int open_device(void) {
    char path[PATH_MAX];
    snprintf(path, sizeof path, "%s/image", getenv("FAKE_FOLDER"));
    take_drive();
    looked_at = -1;
    return device = openat(AT_FDCWD, path, O_RDWR | O_CLOEXEC);
}

int open(const char *path, int flags, ...) {
    char held[64];
    va_list words;
    va_start(words, flags);
    mode_t mode = (flags & O_CREAT) != 0 ? va_arg(words, mode_t) : 0;
    va_end(words);
    if (strcmp(path, "/dev/ng0n1") == 0) return looked_at = openat(AT_FDCWD, "/dev/null", O_PATH | O_CLOEXEC);
    snprintf(held, sizeof held, "/proc/self/fd/%d", looked_at);
    return strcmp(path, held) == 0 ? open_device() : openat(AT_FDCWD, path, flags, mode);
}

int fstat(int file, struct stat *seen) {
    int given = fstatat(file, "", seen, AT_EMPTY_PATH);
    if (file >= 0 && (file == looked_at || file == device)) {
        seen->st_mode = S_IFCHR | 0600;
        seen->st_rdev = makedev(245, 0);
    }
    return given;
}

ssize_t readlink(const char *path, char *target, size_t length) {
    const char *named = NULL;
    if (strcmp(path, "/sys/dev/char/245:0/subsystem") == 0) named = "../../../class/nvme-generic";
    if (strcmp(path, "/sys/dev/char/245:0") == 0) named = "../../devices/ng0n1";
    if (named == NULL) return readlinkat(AT_FDCWD, path, target, length);
    memcpy(target, named, strlen(named));
    return (ssize_t)strlen(named);
}

static void put(uint8_t *at, uint64_t value, int bytes) {
    for (int i = 0; i < bytes; i++) at[i] = (uint8_t)(value >> 8 * i);
}

// The greatest power of two of pages in a transfer.
static uint8_t most_pages(void) {
    uint8_t power = 0;
    while (((uint64_t)PAGE << (power + 1)) <= (uint64_t)drive.shape.transfer * drive.shape.block) power++;
    return power;
}

static bool read_fault(struct fault *fault, const char *path) {
    FILE *file = fopen(path, "re");
    if (file == NULL) return false;
    int got = fscanf(file, "%15s %" SCNd64 " %d %" SCNu64, fault->kind, &fault->block, &fault->once, &fault->part);
    fclose(file);
    return got == 4;
}

// Whether a command on these blocks fails. A fault that is once is gone then.
static bool meets(const char *kind, uint64_t first, uint64_t blocks, struct fault *fault) {
    char path[PATH_MAX];
    snprintf(path, sizeof path, "%s/fault", getenv("FAKE_FOLDER"));
    if (!read_fault(fault, path) || strcmp(fault->kind, kind) != 0) return false;
    if (fault->block >= 0 && ((uint64_t)fault->block < first || (uint64_t)fault->block >= first + blocks)) return false;
    if (fault->once) unlink(path);
    return true;
}

static bool is_protected(void) {
    struct fault fault;
    return meets("protected", 0, 1, &fault);
}

// A page of Identify: of the controller or the namespace, each also by the Zoned Namespace Command Set.
static int identify(uint32_t structure, uint8_t *page) {
    const struct shape *shape = &drive.shape;
    memset(page, 0, PAGE);
    switch (structure) {
    case 0:
        put(page, (uint64_t)shape->zones * shape->size, 8);
        page[33] = 1;
        page[99] = is_protected();
        page[130] = shape->block == 512 ? 9 : 12;
        return 0;
    case 1:
        page[77] = most_pages();
        page[VWC] = 1;
        return 0;
    case 5:
        put(page + 4, shape->active - 1, 4);
        put(page + 8, shape->most_open - 1, 4);
        put(page + 2816, shape->size, 8);
        return 0;
    default:
        return structure == 6 ? 0 : INVALID_FIELD;
    }
}

// Sets or gets whether the volatile write cache is on.
static int do_feature(struct nvme_passthru_cmd64 *passed) {
    if ((passed->cdw10 & 0xff) != WRITE_CACHE) return INVALID_FIELD;
    if (passed->opcode == GET_FEATURES) {
        passed->result = cache_is_on;
        return DONE;
    }
    if (is_protected()) return WRITE_PROTECTED;
    cache_is_on = cache_stays_on || (passed->cdw11 & 1) != 0;
    return DONE;
}

// Switches the cache on at a Flush, if it is to be on again.
static void wake_cache(uint64_t flush) {
    struct fault fault;
    cache_stays_on = cache_stays_on || meets("kept", flush, 1, &fault);
    cache_is_on = cache_is_on || cache_stays_on || meets("cache", flush, 1, &fault);
}

// Takes away what a write that fails does not bring to the drive. Its blocks stay counted.
static void lose_blocks(uint64_t first, uint64_t blocks, const struct fault *fault) {
    uint64_t done = fault->part != 0 ? (uint64_t)fault->block - first : 0;
    memset(drive.bytes + (first + done) * drive.shape.block, 0, (blocks - done) * drive.shape.block);
}

// The address at which the zone of an address is written next.
static uint64_t next_of(uint64_t address) {
    uint64_t zone = address / drive.shape.size;
    return zone < drive.shape.zones ? zone * drive.shape.size + drive.zones[zone].written : address;
}

static int submit(struct nvme_passthru_cmd64 *passed) {
    struct fault fault;
    uint64_t address = passed->cdw10 | (uint64_t)passed->cdw11 << 32, blocks = (passed->cdw12 & 0xffff) + 1, result;
    const struct command command = {passed->opcode, address, passed->cdw12, passed->cdw13,
                                    (uint8_t *)(uintptr_t)passed->addr, passed->data_len};
    if (command.opcode == FLUSH) wake_cache(flushes++);
    if (command.opcode == READ && meets("read", address, blocks, &fault)) return READ_ERROR;
    uint64_t next = next_of(address);
    if (command.opcode == APPEND && meets("lost", next, blocks, &fault)) {
        passed->result = next;
        return DONE;
    }
    drive.write_protected = is_protected();
    enum status status = do_command(&drive, &command, &result);
    passed->result = result;
    if (status != DONE || command.opcode != APPEND) return (int)status;
    if (meets("flush", result, blocks, &fault)) return WRITE_FAULT;
    if (!meets("write", result, blocks, &fault)) return DONE;
    lose_blocks(result, blocks, &fault);
    return WRITE_FAULT;
}

int ioctl(int file, unsigned long request, ...) {
    va_list words;
    va_start(words, request);
    struct nvme_passthru_cmd64 *passed = va_arg(words, struct nvme_passthru_cmd64 *);
    va_end(words);
    if (file < 0 || file != device) return (int)syscall(SYS_ioctl, file, request, passed);
    if (request == NVME_IOCTL_ID) return NUMBER;
    if (request == NVME_IOCTL_IO64_CMD) return submit(passed);
    if (passed->opcode == SET_FEATURES || passed->opcode == GET_FEATURES) return do_feature(passed);
    if (passed->opcode != IDENTIFY) return INVALID_FIELD;
    return identify(passed->cdw10 & 0xff, (uint8_t *)(uintptr_t)passed->addr);
}
