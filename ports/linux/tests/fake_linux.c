#define _GNU_SOURCE
#include "fake_linux.h"
#include <assert.h>
#include <errno.h>
#include <fcntl.h>
#include <linux/nvme_ioctl.h>
#include <stdarg.h>
#include <stdio.h>
#include <string.h>
#include <sys/file.h>
#include <sys/ioctl.h>
#include <sys/stat.h>
#include <sys/sysmacros.h>

enum { CHARACTER = 1000, BLOCK = 1001, LOOKED_AT = 1002, PIECES = 127, LARGE_PAGE = 2 << 20, DO_NOT_RETRY = 0x4000 };

struct world world;

void begin_world(const struct shape *shape) {
    world = (struct world){
        .drive = new_drive(shape),
        .mode = S_IFCHR | 0600,
        .identifier = NAMESPACE,
        .link = "../../devices/pci0000:00/0000:00:03.0/nvme/nvme0/ng0n1",
        .subsystem = "../../../../../../class/nvme-generic",
        .most_bytes = (size_t)shape->transfer * shape->block,
        .large_pages = true,
    };
}

void end_world(void) {
    free_drive(&world.drive);
}

// Fails with an error, or gives a value.
static int answer(int error, int value) {
    errno = error;
    return error == 0 ? value : -1;
}

int __wrap_stat(const char *path, struct stat *found) {
    memset(found, 0, sizeof *found);
    assert(strcmp(path, "/sys/class/block/nvme0n1/dev") == 0);
    return answer(world.block_stat_error, 0);
}

int __wrap_fstat(int file, struct stat *found) {
    assert(file == CHARACTER || file == LOOKED_AT);
    memset(found, 0, sizeof *found);
    found->st_mode = world.mode;
    found->st_rdev = makedev(245, 0);
    return 0;
}

// Opens a file, unless there is an error.
static int open_file(int error, int file) {
    if (error == 0) world.open_files++;
    return answer(error, file);
}

// The path is only looked at. Then the file that was looked at is opened.
int __wrap_open(const char *path, int flags) {
    assert((flags & O_CLOEXEC) != 0);
    if (strcmp(path, "/dev/ng0n1") == 0) {
        assert((flags & O_PATH) != 0);
        return open_file(world.look_error, LOOKED_AT);
    }
    if (strcmp(path, "/dev/nvme0n1") == 0) {
        assert((flags & O_ACCMODE) == O_RDONLY && (flags & O_EXCL) != 0);
        return open_file(world.block_open_error, BLOCK);
    }
    assert(strcmp(path, "/proc/self/fd/1002") == 0 && (flags & O_ACCMODE) == O_RDWR);
    world.opened++;
    return open_file(world.open_error, CHARACTER);
}

int __wrap_close(int file) {
    assert(file == CHARACTER || file == BLOCK || file == LOOKED_AT);
    world.open_files--;
    return 0;
}

int __wrap_flock(int file, int operation) {
    assert(file == CHARACTER && operation == (LOCK_EX | LOCK_NB));
    return answer(world.lock_error, 0);
}

// Gives what a link names.
static ssize_t name_link(const char *named, char *target, size_t length, int error) {
    assert(strlen(named) <= length);
    memcpy(target, named, strlen(named));
    return answer(error, (int)strlen(named));
}

ssize_t __wrap_readlink(const char *path, char *target, size_t length) {
    if (strcmp(path, "/sys/dev/char/245:0/subsystem") == 0) return name_link(world.subsystem, target, length, 0);
    assert(strcmp(path, "/sys/dev/char/245:0") == 0);
    return name_link(world.link, target, length, world.link_error);
}

// How many pieces of memory Linux would make of a buffer.
static size_t pieces(const struct nvme_passthru_cmd64 *command) {
    if (world.large_pages && command->addr % LARGE_PAGE == 0) return 1;
    return (command->addr % 4096 + command->data_len + 4095) / 4096;
}

static int pass_command(struct nvme_passthru_cmd64 *passed) {
    assert(passed->nsid == NAMESPACE && passed->flags == 0 && passed->metadata_len == 0 && passed->timeout_ms != 0);
    assert((passed->data_len == 0) == (passed->addr == 0));
    if (world.command_error != 0) return answer(world.command_error, 0);
    if (world.command_status != 0) return world.command_status;
    if (passed->data_len > world.most_bytes || pieces(passed) > PIECES) return answer(EINVAL, 0);
    const struct command command = {
        .opcode = passed->opcode,
        .address = passed->cdw10 | (uint64_t)passed->cdw11 << 32,
        .dword12 = passed->cdw12,
        .dword13 = passed->cdw13,
        .data = (uint8_t *)(uintptr_t)passed->addr,
        .length = passed->data_len,
    };
    uint64_t result;
    enum status status = do_command(&world.drive, &command, &result);
    passed->result = result;
    world.commands++;
    return status == DONE ? 0 : (int)status | DO_NOT_RETRY;
}

// Fills a page of Identify with a pattern. Only NSATTR says something.
static void fill_page(uint8_t *bytes, size_t length, bool is_namespace) {
    memset(bytes, 0x5a, length);
    if (is_namespace && length > NSATTR) bytes[NSATTR] = world.drive.write_protected;
}

static int pass_admin(struct nvme_passthru_cmd64 *passed) {
    bool is_namespace = passed->nsid == NAMESPACE && passed->cdw10 == 0;
    if (world.command_error != 0) return answer(world.command_error, 0);
    world.admin.opcode = passed->opcode;
    world.admin.namespace_number = passed->nsid;
    world.admin.dword10 = passed->cdw10;
    world.admin.dword11 = passed->cdw11;
    world.admin.length = passed->data_len;
    if (passed->data_len != 0) fill_page((uint8_t *)(uintptr_t)passed->addr, passed->data_len, is_namespace);
    passed->result = 0x100000003;
    return passed->cdw10 == 0xff ? INVALID_FIELD | DO_NOT_RETRY : 0;
}

int __wrap_ioctl(int file, unsigned long request, ...) {
    va_list words;
    assert(file == CHARACTER);
    if (request == NVME_IOCTL_ID) return answer(world.identify_error, world.identifier);
    va_start(words, request);
    struct nvme_passthru_cmd64 *command = va_arg(words, struct nvme_passthru_cmd64 *);
    va_end(words);
    if (request == NVME_IOCTL_ADMIN64_CMD) return pass_admin(command);
    assert(request == NVME_IOCTL_IO64_CMD);
    return pass_command(command);
}
