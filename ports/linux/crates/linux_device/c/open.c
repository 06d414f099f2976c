// Opens a namespace's character device, and keeps others away from it.
#define _GNU_SOURCE
#include "../../linux_file/c/holder.h"
#include "parts.h"
#include <errno.h>
#include <fcntl.h>
#include <limits.h>
#include <linux/nvme_ioctl.h>
#include <stdio.h>
#include <string.h>
#include <sys/file.h>
#include <sys/ioctl.h>
#include <sys/stat.h>
#include <sys/sysmacros.h>
#include <unistd.h>

// A refusal, with the number of the error that the system has just given.
static enum refusal refuse(enum refusal refusal, uint64_t *number) {
    *number = (uint64_t)errno;
    return refusal;
}

// Whether the system says of a character device, by its number, that it is the generic one of an NVMe namespace.
static bool is_generic(dev_t device) {
    char link[64], target[PATH_MAX];
    snprintf(link, sizeof link, "/sys/dev/char/%u:%u/subsystem", major(device), minor(device));
    ssize_t length = readlink(link, target, sizeof target - 1);
    if (length < 0) return false;
    target[length] = 0;
    const char *last = strrchr(target, '/');
    return last != NULL && strcmp(last, "/nvme-generic") == 0;
}

// Opens the character device that was looked at, if it answers as a namespace.
static enum refusal open_looked_at(int looked_at, struct namespace_devices *devices, uint64_t *number) {
    char path[64];
    struct stat seen;
    if (fstat(looked_at, &seen) != 0) return refuse(NOT_FOUND, number);
    if (!S_ISCHR(seen.st_mode)) return NO_CHARACTER_DEVICE;
    if (!is_generic(seen.st_rdev)) return NO_NAMESPACE;
    snprintf(path, sizeof path, "/proc/self/fd/%d", looked_at);
    devices->character = open(path, O_RDWR | O_CLOEXEC | O_NOCTTY);
    if (devices->character < 0) return refuse(NOT_OPENED, number);
    int identifier = ioctl(devices->character, NVME_IOCTL_ID);
    if (identifier < 0) return refuse(NO_NAMESPACE, number);
    if (identifier == 0) return NO_NAMESPACE;
    devices->number = (uint32_t)identifier;
    return OPENED;
}

// Opens the character device at a path. Opening a device of another kind may do something, as /dev/watchdog begins to
// count. So what is there is held first without opening the device (O_PATH), and looked at. Then just that is opened,
// whatever stands at the path by then.
static enum refusal open_character(const char *path, struct namespace_devices *devices, uint64_t *number) {
    int looked_at = open(path, O_PATH | O_CLOEXEC);
    if (looked_at < 0) return refuse(NOT_FOUND, number);
    enum refusal refusal = open_looked_at(looked_at, devices, number);
    close(looked_at);
    return refusal;
}

// Takes the lock that other programs of this kind ask for too. It is given back when the process ends.
static enum refusal lock_character(int character, uint64_t *number) {
    if (flock(character, LOCK_EX | LOCK_NB) == 0) return OPENED;
    enum refusal refusal = refuse(errno == EWOULDBLOCK ? LOCKED : NOT_LOCKED, number);
    if (refusal == LOCKED) tell_holder(character);
    return refusal;
}

// The name of a namespace's block device, as nvme0n1 for ng0n1. The system names the character device by its number,
// so that a link or another name for it leads to the same block device.
static bool find_name(int character, char name[NAME_MAX]) {
    struct stat seen;
    char link[64], target[PATH_MAX];
    if (fstat(character, &seen) != 0) return false;
    snprintf(link, sizeof link, "/sys/dev/char/%u:%u", major(seen.st_rdev), minor(seen.st_rdev));
    ssize_t length = readlink(link, target, sizeof target - 1);
    if (length < 0) return false;
    target[length] = 0;
    const char *last = strrchr(target, '/');
    if (last == NULL || strncmp(last, "/ng", 3) != 0) {
        errno = ENODEV;
        return false;
    }
    return snprintf(name, NAME_MAX, "nvme%s", last + 3) < NAME_MAX;
}

// Holds a block device as a mount does: it is refused where it is mounted or held, and cannot be mounted from then on.
static enum refusal hold_block_device(const char *name, int *block, uint64_t *number) {
    char path[PATH_MAX];
    snprintf(path, sizeof path, "/dev/%s", name);
    *block = open(path, O_RDONLY | O_EXCL | O_CLOEXEC);
    if (*block >= 0) return OPENED;
    return refuse(errno == EBUSY ? BLOCK_DEVICE_IN_USE : BLOCK_DEVICE_NOT_OPENED, number);
}

// Holds the block device, if there is one. Where the zone size is no power of two, Linux makes a disk without a number,
// which nobody can open.
static enum refusal hold_if_there(struct namespace_devices *devices, uint64_t *number) {
    char name[NAME_MAX], path[PATH_MAX];
    struct stat seen;
    if (!find_name(devices->character, name)) return refuse(BLOCK_DEVICE_UNKNOWN, number);
    snprintf(path, sizeof path, "/sys/class/block/%s/dev", name);
    if (stat(path, &seen) == 0) return hold_block_device(name, &devices->block, number);
    return errno == ENOENT ? OPENED : refuse(BLOCK_DEVICE_UNKNOWN, number);
}

enum refusal open_namespace(const char *path, struct namespace_devices *devices, uint64_t *number) {
    *devices = (struct namespace_devices){.character = -1, .block = -1};
    *number = 0;
    enum refusal refusal = open_character(path, devices, number);
    if (refusal == OPENED) refusal = lock_character(devices->character, number);
    // Nothing is opened after the block device. So that is never to be closed.
    if (refusal == OPENED) refusal = hold_if_there(devices, number);
    if (refusal == OPENED) return OPENED;
    if (devices->character >= 0) close(devices->character);
    return refusal;
}
