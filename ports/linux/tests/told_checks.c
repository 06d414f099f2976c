// Looks at what people are told of a drive: commands that it does not do, and zones that it shows otherwise.
#define _GNU_SOURCE
#include "check.h"
#include "entries.h"
#include "fake_linux.h"
#include "../crates/linux_device/c/parts.h"
#include <errno.h>
#include <string.h>

enum { BLOCK = 512, SIZE = 2048, PAGE = 4096 };
enum { FLUSH = 0x00, READ = 0x02, SEND = 0x79, RECEIVE = 0x7a, APPEND = 0x7d };

static const struct shape shape = {BLOCK, 6, SIZE, 2000, 256, 3, 2};
static uint8_t room[PAGE];
static char text[4096];
static FILE *kept;

static void begin_telling(void) {
    kept = stderr;
    memset(text, 0, sizeof text);
    stderr = fmemopen(text, sizeof text, "w");
}

static void end_telling(const char *wanted, const char *what) {
    fclose(stderr);
    stderr = kept;
    if (!expect(strcmp(text, wanted) == 0, what)) printf("wanted: %sgot: %s", wanted, text);
}

// What standard error has of a command that the drive did not do.
static void told(const uint8_t *entry, uint16_t status, const char *wanted, const char *what) {
    begin_telling();
    tell_refused(entry, SIZE, status);
    end_telling(wanted, what);
}

static void try_refused(void) {
    uint8_t entry[64];
    put_entry(entry, READ, (UINT64_C(5) << 32) + 7, 0, 0);
    told(entry, 0x281, "zonedisk: the drive answered a Read of 1 block at block 7 of zone 10485760 by status 281h, "
                       "Unrecovered Read Error\n", "a Read is told");
    told(entry, 0x281, "", "a Read that is sent once more");
    put_entry(entry, APPEND, SIZE, 6, 0);
    told(entry, 0x280, "zonedisk: the drive answered an Append of 7 blocks to zone 1 by status 280h, Write Fault\n",
         "an Append is told");
    told(entry, 0x020, "zonedisk: the drive answered an Append of 7 blocks to zone 1 by status 020h, "
                       "Namespace is Write Protected\n", "a drive that is write protected");
    put_entry(entry, SEND, SIZE, 0, 4);
    told(entry, NOT_ANSWERED, "zonedisk: the drive did not answer the action Reset on zone 1\n",
         "a command without an answer");
    put_entry(entry, RECEIVE, SIZE, PAGE / 4 - 1, 0x10000);
    told(entry, 0x1be, "zonedisk: the drive answered a report from zone 1 on by status 1BEh, Too Many Open Zones\n",
         "a report");
    put_entry(entry, FLUSH, 0, 0, 0);
    for (int i = 5; i < 19; i++) told(entry, 0x007, "zonedisk: the drive answered a Flush by status 007h\n", "a Flush");
    told(entry, 0x007, "zonedisk: the drive answered a Flush by status 007h\n"
                       "zonedisk: no more such answers are told\n", "the last one");
    told(entry, 0x007, "", "one more");
}

static uint64_t session, moment;

static void begin_drive(void) {
    static uint8_t report[64 + 64 * 6];
    uint64_t number;
    begin_world(&shape);
    expect(zonedisk_open((const uint8_t *)"/dev/ng0n1", 10, &session, &number) == OPENED, "it is not opened");
    expect(zonedisk_begin(session, &shape, report, sizeof report, &moment) == BEGUN, "it has not begun");
}

static void append(uint64_t zone, uint32_t blocks) {
    uint8_t entry[64];
    uint64_t value;
    put_entry(entry, APPEND, zone * SIZE, blocks - 1, 0);
    expect(zonedisk_submit(session, &moment, entry, room, blocks * BLOCK, 0, NULL, 0, &value) == 0, "an Append");
}

static void act(uint64_t zone, uint32_t action) {
    uint8_t entry[64];
    uint64_t value;
    put_entry(entry, SEND, zone * SIZE, 0, action);
    expect(zonedisk_submit(session, &moment, entry, NULL, 0, 0, NULL, 0, &value) == 0, "an action");
}

// Reports all zones: what is told then.
static void shows(const char *wanted, const char *what) {
    uint8_t entry[64];
    uint64_t value;
    put_entry(entry, RECEIVE, 0, PAGE / 4 - 1, 0x10000);
    begin_telling();
    expect(zonedisk_submit(session, &moment, entry, NULL, 0, 0, room, PAGE, &value) == 0, "a report");
    end_telling(wanted, what);
}

#define WHY ": another program changed it, or the drive lost what it had answered\n"

static void try_zones(void) {
    begin_drive();
    shows("", "zones that stay as they are");
    append(1, 5);
    append(1, 3);
    act(1, 1);
    append(2, 1);
    act(2, 2);
    append(3, 4);
    act(3, 4);
    shows("", "zones that are written, closed, finished and reset");
    world.drive.zones[1] = (struct zone){EMPTY, 0};
    shows("zonedisk: the drive shows zone 1 with 0 written blocks, and not with 8 written blocks as it should" WHY,
          "another program's Reset");
    shows("", "it is told once");
    world.drive.zones[2] = (struct zone){EMPTY, 0};
    world.drive.zones[3] = (struct zone){CLOSED, 1};
    shows("zonedisk: the drive shows zone 2 with 0 written blocks, and not as Full as it should" WHY
          "zonedisk: the drive shows zone 3 with 1 written block, and not with 0 written blocks as it should" WHY,
          "a Reset of a Full zone, and another program's write");
    append(1, 2);
    world.drive.zones[1].written = 0;
    begin_telling();
    append(1, 2);
    end_telling("zonedisk: the drive put an Append to zone 1 at the address 2048, and not at 2050 as it should\n",
                "an Append after one that was lost");
    world.drive.zones[1] = (struct zone){READ_ONLY, 2};
    shows("zonedisk: the drive shows zone 1 as Read Only, and not with 2 written blocks as it should\n", "a worn zone");
    end_world();
}

// After a command that failed nothing is known of its zone, until a report shows it.
static void try_failed(void) {
    uint8_t entry[64];
    uint64_t value;
    begin_drive();
    put_entry(entry, APPEND, SIZE, 0, 0);
    world.command_error = EIO;
    zonedisk_submit(session, &moment, entry, room, BLOCK, 0, NULL, 0, &value);
    world.command_error = 0;
    world.drive.zones[1] = (struct zone){CLOSED, 1};
    shows("", "a zone after a write without an answer");
    world.drive.zones[1].written = 2;
    shows("zonedisk: the drive shows zone 1 with 2 written blocks, and not with 1 written block as it should" WHY,
          "what was shown before is known");
    end_world();
}

int main(void) {
    try_refused();
    try_zones();
    try_failed();
    return end_checks("told checks");
}
