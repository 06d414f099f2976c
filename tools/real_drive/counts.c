// Counts the commands that a program passes to a drive. It is loaded before the program, by LD_PRELOAD.
//
// If there were any, the file that COUNTS names has a line for each opcode at the end of the program: the opcode as two
// hex digits, how many commands there were, and how many bytes they moved.
#define _GNU_SOURCE
#include <dlfcn.h>
#include <inttypes.h>
#include <linux/nvme_ioctl.h>
#include <stdarg.h>
#include <stdint.h>
#include <stdio.h>
#include <stdlib.h>
#include <sys/ioctl.h>

static uint64_t counts[256], bytes[256], commands;

int ioctl(int file, unsigned long request, ...) {
    static int (*real)(int, unsigned long, ...);
    if (real == NULL) *(void **)&real = dlsym(RTLD_NEXT, "ioctl");
    va_list arguments;
    va_start(arguments, request);
    void *data = va_arg(arguments, void *);
    va_end(arguments);
    if (request == NVME_IOCTL_IO64_CMD) {
        const struct nvme_passthru_cmd64 *command = data;
        commands++;
        counts[command->opcode]++;
        bytes[command->opcode] += command->data_len;
    }
    return real(file, request, data);
}

__attribute__((destructor)) static void tell(void) {
    const char *name = getenv("COUNTS");
    FILE *told = name == NULL || commands == 0 ? NULL : fopen(name, "w");
    if (told == NULL) return;
    for (int opcode = 0; opcode < 256; opcode++) {
        if (counts[opcode] != 0) fprintf(told, "%02x %" PRIu64 " %" PRIu64 "\n", opcode, counts[opcode], bytes[opcode]);
    }
    fclose(told);
}
