// Tells what was asked of drives so far when SIGUSR1 comes. An image is in memory: then it tells what Linux counts of the
// process.
//
// The handler writes the line itself, so that a session that waits for its client tells at once. A call of the system
// that it interrupts goes on (SA_RESTART).
#define _GNU_SOURCE
#include "telling.h"
#include "../../linux_device/c/counts.h"
#include "../../linux_file/c/counts.h"
#include <errno.h>
#include <fcntl.h>
#include <signal.h>
#include <stdbool.h>
#include <stddef.h>
#include <string.h>
#include <unistd.h>

// A line that is being made. A handler may not call `snprintf`. The longest line has some 200 characters.
struct line {
    char text[320];
    size_t length;
};

static void add(struct line *line, const char *text) {
    size_t length = strlen(text);
    memcpy(line->text + line->length, text, length);
    line->length += length;
}

// Adds a number and what it counts, with an ending if it is not 1.
static void add_count(struct line *line, const char *before, uint64_t number, const char *counted, const char *ending) {
    char digits[21] = "";
    size_t first = sizeof digits - 1;
    uint64_t left = number;
    do digits[--first] = (char)('0' + left % 10);
    while ((left /= 10) != 0);
    add(line, before);
    add(line, digits + first);
    add(line, counted);
    if (number != 1) add(line, ending);
}

static void tell(struct line *line) {
    add(line, "\n");
    ssize_t count = write(STDERR_FILENO, line->text, line->length);
    (void)count;
}

static void tell_of_device(void) {
    struct line line = {.length = 0};
    add_count(&line, "zonedisk: so far ", zonedisk_device_count(DEVICE_READS), " read", "s");
    add_count(&line, " of ", zonedisk_device_count(DEVICE_BLOCKS_READ), " block", "s");
    add_count(&line, ", ", zonedisk_device_count(DEVICE_WRITES), " write", "s");
    add_count(&line, " of ", zonedisk_device_count(DEVICE_BLOCKS_WRITTEN), " block", "s");
    add_count(&line, ", ", zonedisk_device_count(DEVICE_FLUSHES), " flush", "es");
    add_count(&line, ", ", zonedisk_device_count(DEVICE_ACTIONS), " action", "s");
    add_count(&line, " on zones, ", zonedisk_device_count(DEVICE_REPORTS), " report", "s");
    tell(&line);
}

static void tell_of_file(void) {
    struct line line = {.length = 0};
    add_count(&line, "zonedisk: so far ", zonedisk_file_count(FILE_READS), " read", "s");
    add_count(&line, " of ", zonedisk_file_count(FILE_BYTES_READ), " byte", "s");
    add_count(&line, ", ", zonedisk_file_count(FILE_WRITES), " write", "s");
    add_count(&line, " of ", zonedisk_file_count(FILE_BYTES_WRITTEN), " byte", "s");
    add_count(&line, ", ", zonedisk_file_count(FILE_SYNCS), " sync", "s");
    tell(&line);
}

// The number after a name in a text, or 0.
static uint64_t number_after(const char *text, const char *name) {
    const char *found = strstr(text, name);
    uint64_t number = 0;
    if (found == NULL) return 0;
    for (found += strlen(name); *found >= '0' && *found <= '9'; found++) number = 10 * number + (uint64_t)(*found - '0');
    return number;
}

// Reads what Linux counts of this process. Whether it tells it.
static bool read_process_counts(char *text, size_t room) {
    int file = open("/proc/self/io", O_RDONLY | O_CLOEXEC);
    ssize_t length = file < 0 ? 0 : read(file, text, room - 1);
    if (file >= 0) close(file);
    text[length > 0 ? length : 0] = 0;
    return length > 0;
}

static void tell_of_process(void) {
    struct line line = {.length = 0};
    char text[512];
    add(&line, "zonedisk: so far no drive was asked: an image is held in memory");
    if (read_process_counts(text, sizeof text)) {
        add_count(&line, ". In all this program did ", number_after(text, "syscr: "), " read", "s");
        add_count(&line, " of ", number_after(text, "rchar: "), " byte", "s");
        add_count(&line, " and ", number_after(text, "syscw: "), " write", "s");
        add_count(&line, " of ", number_after(text, "wchar: "), " byte", "s");
        add(&line, ", also to and from its client");
    }
    tell(&line);
}

// Calls only what a handler may call.
static void tell_counts(int number) {
    int kept = errno;
    (void)number;
    // A session begins with a report, and that of a file with a read.
    bool has_device = zonedisk_device_count(DEVICE_READS) + zonedisk_device_count(DEVICE_REPORTS) != 0;
    bool has_file = zonedisk_file_count(FILE_READS) + zonedisk_file_count(FILE_WRITES) != 0;
    if (has_device) tell_of_device();
    if (has_file) tell_of_file();
    if (!has_device && !has_file) tell_of_process();
    errno = kept;
}

void zonedisk_tell_on_signal(void) {
    struct sigaction old;
    if (sigaction(SIGUSR1, NULL, &old) != 0 || old.sa_handler == SIG_IGN) return;
    struct sigaction new = {.sa_handler = tell_counts, .sa_flags = SA_RESTART};
    sigemptyset(&new.sa_mask);
    sigaction(SIGUSR1, &new, NULL);
}
