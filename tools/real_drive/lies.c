// Lets a drive lie once. It is loaded before the program that talks to the drive, by LD_PRELOAD.
//
// LIE has the kind of the lie and a number: it is told at the command with this number of those that the kind is for.
//
//   address N   an Append that was done gives the next address
//   status N    an Append, a Reset or a Finish is not done, and ends by the status Internal Error
//   lost N      such a command is not done, and the system has an error
//   done N      such a command is done, and the system has an error
//   pointer N   a report has another write pointer of its first zone that is partly written
//   state N     a report says of that zone that it is Full
//   cache N     the volatile write cache is said to be on
//   flush N     a Flush ends by the status Internal Error
//
// The file /tmp/lied is there once the lie was told.
#define _GNU_SOURCE
#include <dlfcn.h>
#include <errno.h>
#include <linux/nvme_ioctl.h>
#include <stdarg.h>
#include <stdbool.h>
#include <stdint.h>
#include <stdio.h>
#include <stdlib.h>
#include <string.h>
#include <sys/ioctl.h>

enum { FLUSH = 0x00, SEND = 0x79, RECEIVE = 0x7a, APPEND = 0x7d, GET_FEATURES = 0x0a, INTERNAL_ERROR = 0x06 };

static char kind[16];
static long awaited;

static bool is(const char *name) {
    return strcmp(kind, name) == 0;
}

// Whether the lie's kind is for a command.
static bool concerns(bool is_admin, uint8_t opcode) {
    if (is("cache")) return is_admin && opcode == GET_FEATURES;
    if (is_admin) return false;
    if (is("flush")) return opcode == FLUSH;
    if (is("pointer") || is("state")) return opcode == RECEIVE;
    if (is("address")) return opcode == APPEND;
    return opcode == APPEND || opcode == SEND;
}

static void remember(void) {
    FILE *file = fopen("/tmp/lied", "w");
    if (file != NULL) fclose(file);
}

// Changes the first descriptor of a zone that is partly written; whether there is one.
static bool change_report(uint8_t *report, uint32_t length) {
    for (uint32_t at = 64; at + 64 <= length; at += 64) {
        uint8_t state = report[at + 1] >> 4;
        if (state < 2 || state > 4) continue;
        if (is("pointer")) report[at + 24] ^= 1;
        else report[at + 1] = 0xe << 4;
        return true;
    }
    return false;
}

// Lies about a command that was done; what the system gives for it.
static int lie_after(struct nvme_passthru_cmd64 *command, int given) {
    if (is("address")) command->result++;
    if (is("cache")) command->result |= 1;
    if (is("pointer") || is("state")) {
        if (!change_report((uint8_t *)(uintptr_t)command->addr, command->data_len)) return given;
    }
    remember();
    if (!is("done")) return given;
    errno = EIO;
    return -1;
}

int ioctl(int file, unsigned long request, ...) {
    static int (*real)(int, unsigned long, ...);
    if (real == NULL) {
        *(void **)&real = dlsym(RTLD_NEXT, "ioctl");
        const char *lie = getenv("LIE");
        if (lie != NULL) sscanf(lie, "%15s %ld", kind, &awaited);
    }
    va_list arguments;
    va_start(arguments, request);
    void *data = va_arg(arguments, void *);
    va_end(arguments);
    struct nvme_passthru_cmd64 *command = data;
    bool is_command = request == NVME_IOCTL_IO64_CMD || request == NVME_IOCTL_ADMIN64_CMD;
    bool lies = is_command && concerns(request == NVME_IOCTL_ADMIN64_CMD, command->opcode) && --awaited == 0;
    if (lies && (is("status") || is("flush") || is("lost"))) {
        remember();
        errno = EIO;
        return is("lost") ? -1 : INTERNAL_ERROR;
    }
    int given = real(file, request, data);
    return lies ? lie_after(command, given) : given;
}
