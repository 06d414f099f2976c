// Lets a zone of a drive wear out, or its Flushes fail, which QEMU's drives cannot. It is loaded before the program
// that talks to the drive, by LD_PRELOAD.
//
// While the file /tmp/unflushed is there, a Flush is not done, and ends by the status Write Fault.
//
// WORN has the address of the zone, its size, the state that it gets, as a descriptor has it (13: Read Only, 15:
// Offline), and a number: it gets the state at the Append with this number of those to the zone, or at once if that is
// 0. That Append is refused. From then on the file /tmp/worn is there, and the zone stays as it is while that is there.
#define _GNU_SOURCE
#include <dlfcn.h>
#include <inttypes.h>
#include <linux/nvme_ioctl.h>
#include <stdarg.h>
#include <stdbool.h>
#include <stdint.h>
#include <stdio.h>
#include <stdlib.h>
#include <string.h>
#include <sys/ioctl.h>
#include <unistd.h>

enum { FLUSH = 0x00, WRITE = 0x01, READ = 0x02, SEND = 0x79, RECEIVE = 0x7a, APPEND = 0x7d };
enum { READ_ONLY = 13, OFFLINE = 15, HEAD = 64, DESCRIPTOR = 64 };
enum { ZONE_IS_READ_ONLY = 0x1ba, ZONE_IS_OFFLINE = 0x1bb, INVALID_TRANSITION = 0x1bf, WRITE_FAULT = 0x280 };

static uint64_t zone, size;
static unsigned state;
static long awaited;

static bool is_worn(void) {
    return access("/tmp/worn", F_OK) == 0;
}

static void wear_out(void) {
    FILE *file = fopen("/tmp/worn", "w");
    if (file != NULL) fclose(file);
}

// The status by which a command is refused, or 0.
static int refusal(const struct nvme_passthru_cmd64 *command) {
    if (command->opcode == FLUSH) return access("/tmp/unflushed", F_OK) == 0 ? WRITE_FAULT : 0;
    uint64_t address = command->cdw10 | (uint64_t)command->cdw11 << 32;
    if (address < zone || address >= zone + size) return 0;
    if (command->opcode == APPEND && awaited > 0 && --awaited == 0) wear_out();
    if (size == 0 || !is_worn()) return 0;
    switch (command->opcode) {
    case WRITE:
    case APPEND:
        return state == OFFLINE ? ZONE_IS_OFFLINE : ZONE_IS_READ_ONLY;
    case READ:
        return state == OFFLINE ? ZONE_IS_OFFLINE : 0;
    case SEND:
        // An action on all zones leaves this one as it is.
        return (command->cdw13 & 0x100) != 0 ? 0 : INVALID_TRANSITION;
    default:
        return 0;
    }
}

// Shows the state in a report. The zone has no write pointer any more.
static void change_report(uint8_t *report, uint32_t length) {
    for (uint32_t at = HEAD; at + DESCRIPTOR <= length; at += DESCRIPTOR) {
        uint64_t start;
        memcpy(&start, report + at + 16, sizeof start);
        if (report[at] == 0 || start != zone) continue;
        report[at + 1] = (uint8_t)(state << 4);
        memset(report + at + 24, 0xff, 8);
    }
}

int ioctl(int file, unsigned long request, ...) {
    static int (*real)(int, unsigned long, ...);
    if (real == NULL) {
        *(void **)&real = dlsym(RTLD_NEXT, "ioctl");
        const char *worn = getenv("WORN");
        if (worn != NULL) sscanf(worn, "%" SCNu64 " %" SCNu64 " %u %ld", &zone, &size, &state, &awaited);
        if (worn != NULL && awaited == 0) wear_out();
    }
    va_list arguments;
    va_start(arguments, request);
    void *data = va_arg(arguments, void *);
    va_end(arguments);
    if (request != NVME_IOCTL_IO64_CMD) return real(file, request, data);
    struct nvme_passthru_cmd64 *command = data;
    int refused = refusal(command);
    if (refused != 0) return refused;
    int given = real(file, request, data);
    if (given == 0 && command->opcode == RECEIVE && is_worn()) {
        change_report((uint8_t *)(uintptr_t)command->addr, command->data_len);
    }
    return given;
}
