// Looks at each refusal of the port, at wrong lengths, at wrong moments, and at errors of the system.
#define _GNU_SOURCE
#include "check.h"
#include "entries.h"
#include "fake_linux.h"
#include "../crates/linux_device/c/counts.h"
#include "../crates/linux_device/c/parts.h"
#include <errno.h>
#include <signal.h>
#include <stdlib.h>
#include <sys/resource.h>
#include <sys/stat.h>
#include <sys/wait.h>
#include <unistd.h>

enum { BLOCK = 512, MANY = 1100 };

static const struct shape shape = {BLOCK, 6, 2048, 2000, 256, 3, 2};
static uint8_t page[4096], room[MANY * BLOCK];

// Begins with room for a report of just the zones.
static uint32_t begin(uint64_t session, const struct shape *begun, uint64_t *moment) {
    static uint8_t report[64 + 64 * 100];
    return zonedisk_begin(session, begun, report, 64 + 64 * (size_t)begun->zones, moment);
}

// What opening the namespace gives, in a world that the caller has changed.
static uint32_t open_it(uint64_t *session, uint64_t *number) {
    return zonedisk_open((const uint8_t *)"/dev/ng0n1", 10, session, number);
}

// Tries a refusal: its reason, its error, and that all is closed again.
static void refused(enum refusal wanted, uint64_t error, const char *what) {
    uint64_t session, number;
    expect(open_it(&session, &number) == wanted && number == error && session == UINT64_MAX, what);
    expect(world.open_files == 0, "a file is left open");
    end_world();
    begin_world(&shape);
}

static void try_refusals(void) {
    begin_world(&shape);
    world.look_error = ENOENT;
    refused(NOT_FOUND, ENOENT, "nothing is there");
    world.mode = S_IFREG;
    refused(NO_CHARACTER_DEVICE, 0, "a file");
    world.mode = S_IFBLK;
    refused(NO_CHARACTER_DEVICE, 0, "a block device");
    world.open_error = EACCES;
    refused(NOT_OPENED, EACCES, "no permission");
    world.identify_error = ENOTTY;
    refused(NO_NAMESPACE, ENOTTY, "a device of another kind");
    world.identifier = 0;
    refused(NO_NAMESPACE, 0, "no number of a namespace");
    world.lock_error = EWOULDBLOCK;
    refused(LOCKED, EWOULDBLOCK, "locked");
    world.lock_error = ENOLCK;
    refused(NOT_LOCKED, ENOLCK, "no lock");
    world.link_error = ENOENT;
    refused(BLOCK_DEVICE_UNKNOWN, ENOENT, "the system does not name the device");
    world.link = "../../devices/virtual/misc/other";
    refused(BLOCK_DEVICE_UNKNOWN, ENODEV, "the system names another device");
    world.block_stat_error = EACCES;
    refused(BLOCK_DEVICE_UNKNOWN, EACCES, "the system does not tell whether there is a block device");
    world.block_open_error = EBUSY;
    refused(BLOCK_DEVICE_IN_USE, EBUSY, "a mounted block device");
    world.block_open_error = ENOENT;
    refused(BLOCK_DEVICE_NOT_OPENED, ENOENT, "a block device without a name");
    end_world();
}

// Opening a device of another kind may do something, as /dev/watchdog begins to count. It is never opened.
static void try_other_kinds(void) {
    static const char *const subsystems[] = {
        "../../../class/watchdog", "../../../class/nvme", "nvme-generic", "../../../class/not-nvme-generic", ""};
    uint64_t session, number;
    begin_world(&shape);
    for (size_t i = 0; i < sizeof subsystems / sizeof *subsystems; i++) {
        world.subsystem = subsystems[i];
        expect(open_it(&session, &number) == NO_NAMESPACE && number == 0, subsystems[i]);
        expect(world.opened == 0 && world.open_files == 0, "a device of another kind is opened");
    }
    end_world();
}

static void try_paths(void) {
    static uint8_t path[5000];
    uint64_t session, number;
    memset(path, 'x', sizeof path);
    expect(zonedisk_open(path, 0, &session, &number) == BAD_PATH, "an empty path");
    expect(zonedisk_open(path, sizeof path, &session, &number) == BAD_PATH, "a long path");
    path[3] = 0;
    expect(zonedisk_open(path, 10, &session, &number) == BAD_PATH, "a path with a byte 0");
}

// A session in a new world.
static uint64_t new_session(void) {
    uint64_t session = 0, number;
    begin_world(&shape);
    expect(open_it(&session, &number) == OPENED && number == 0 && world.open_files == 2, "it is not opened");
    return session;
}

static void try_without_block_device(void) {
    uint64_t session, number;
    begin_world(&shape);
    world.block_stat_error = ENOENT;
    expect(open_it(&session, &number) == OPENED && world.open_files == 1, "a namespace without a block device");
    end_world();
}

static void try_admin(uint64_t session) {
    uint32_t result = 9;
    memset(page, 0, sizeof page);
    expect(zonedisk_admin(session, 0x06, 1, 5, 2u << 24, page, sizeof page, &result) == DONE, "Identify");
    expect(result == 3, "the result of Identify");
    expect(world.admin.opcode == 0x06 && world.admin.namespace_number == NAMESPACE && world.admin.dword10 == 5 &&
               world.admin.dword11 == 2u << 24 && world.admin.length == sizeof page && page[4095] == 0x5a,
           "what Identify passes");
    expect(zonedisk_admin(session, 0x06, 0, 1, 0, page, sizeof page, &result) == DONE, "Identify Controller");
    expect(world.admin.namespace_number == 0, "Identify Controller names no namespace");
    expect(zonedisk_admin(session, 0x06, 0, 0xff, 0, page, sizeof page, &result) == INVALID_FIELD && result == 0,
           "a refused Identify");
    expect(zonedisk_admin(session, 0x09, 0, 6 | 1u << 31, 0, NULL, 0, &result) == DONE, "Set Features with Save");
    expect(world.admin.dword10 == (6 | 1u << 31), "what Set Features with Save passes");
    expect(zonedisk_admin(session, 0x0a, 0, 6 | 3 << 8, 0, NULL, 0, &result) == DONE, "Get Features of capabilities");
    expect(world.admin.dword10 == (6 | 3 << 8), "what Get Features of capabilities passes");
    expect(zonedisk_admin(session, 0x09, 0, 6, 0, NULL, 0, &result) == DONE, "Set Features");
    expect(world.admin.opcode == 0x09 && world.admin.length == 0, "what Set Features passes");
    expect(zonedisk_admin(session, 0x0a, 0, 6, 0, NULL, 0, &result) == DONE && result == 3, "Get Features");
    world.admin.opcode = 0;
    expect(zonedisk_admin(session, 0x06, 1, 0, 0, page, 4095, &result) == NOT_ANSWERED, "a short page");
    expect(zonedisk_admin(session, 0x0a, 0, 6, 0, page, sizeof page, &result) == NOT_ANSWERED, "features with a page");
    expect(zonedisk_admin(session, 0x0a, 0, 0x0e, 0, NULL, 0, &result) == NOT_ANSWERED, "a feature with data");
    expect(zonedisk_admin(session, 0x80, 1, 0, 0, NULL, 0, &result) == NOT_ANSWERED, "Format");
    expect(zonedisk_admin(session, 0x106, 1, 0, 0, page, sizeof page, &result) == NOT_ANSWERED, "no opcode");
    expect(world.admin.opcode == 0, "one of them was sent");
    world.command_error = ENODEV;
    expect(zonedisk_admin(session, 0x06, 1, 0, 0, page, sizeof page, &result) == NOT_ANSWERED, "a removed drive");
    world.command_error = EACCES;
    expect(zonedisk_admin(session, 0x06, 1, 0, 0, page, sizeof page, &result) == NOT_PERMITTED, "no permission");
    world.command_error = EPERM;
    expect(zonedisk_admin(session, 0x09, 0, 6, 0, NULL, 0, &result) == NOT_PERMITTED, "no permission to set a feature");
    world.command_error = 0;
}

// Sends raw commands whose buffers do not fit. None may reach the drive.
static void try_lengths(uint64_t session) {
    static const struct {
        uint8_t opcode;
        uint32_t dword12, dword13;
        size_t length, room_length;
        const char *what;
    } rows[] = {
        {0x00, 0, 0, BLOCK, 0, "a Flush with bytes"},
        {0x00, 0, 0, 0, BLOCK, "a Flush with room"},
        {0x01, 0, 0, 0, 0, "a Write without bytes"},
        {0x01, 0, 0, BLOCK + 4, 0, "a Write with more bytes"},
        {0x01, 0, 0, BLOCK, BLOCK, "a Write with room"},
        {0x7d, 1, 0, BLOCK, 0, "an Append with fewer bytes"},
        {0x7d, 0x10000, 0, 2 * BLOCK, 0, "an Append whose bytes are not those of its blocks"},
        {0x02, 1, 0, 0, BLOCK, "a Read with less room"},
        {0x02, 0, 0, 0, 0, "a Read without room"},
        {0x02, 0, 0, BLOCK, BLOCK, "a Read with bytes"},
        {0x02, 0xffff, 0, 0, BLOCK, "a Read of many blocks"},
        {0x79, 0, 4, BLOCK, 0, "a Send with bytes"},
        {0x79, 0, 16, 0, 0, "a Send that moves data"},
        {0x7a, 1023, 0, 0, BLOCK, "a Receive with less room"},
        {0x7a, UINT32_MAX, 0, 0, 0, "a Receive of 16 GiB"},
        {0x05, 0, 0, 0, 0, "a Compare"},
        {0x0e, 0, 0, 0, 0, "an opcode that is not known"},
    };
    uint64_t value = 1;
    uint8_t entry[64];
    world.commands = 0;
    for (size_t i = 0; i < sizeof rows / sizeof *rows; i++) {
        put_entry(entry, rows[i].opcode, 0, rows[i].dword12, rows[i].dword13);
        uint16_t status =
            zonedisk_raw(session, entry, room, rows[i].length, room, rows[i].room_length, &value);
        expect(status == NOT_ANSWERED && value == 0, rows[i].what);
    }
    expect(world.commands == 0, "a command with wrong lengths reached the drive");
}

// Looks whether all bytes of the fields reach the drive: what it refuses says so.
static void try_fields(uint64_t session) {
    uint64_t value;
    uint8_t entry[64];
    put_entry(entry, 0x02, (uint64_t)1 << 32, 0, 0);
    expect(zonedisk_raw(session, entry, NULL, 0, room, BLOCK, &value) == OUT_OF_RANGE, "a Read of a high address");
    world.most_bytes = sizeof room;
    put_entry(entry, 0x02, 0, 299, 0);
    expect(zonedisk_raw(session, entry, NULL, 0, room, 300 * BLOCK, &value) == INVALID_FIELD, "a Read of 300 blocks");
    put_entry(entry, 0x02, 0, 0, 0);
    expect(zonedisk_raw(session, entry, NULL, 0, room, BLOCK, &value) == DONE, "a Read");
}

// Before a session has begun its block size is not known: blocks are not moved then.
static void try_before_begin(uint64_t session) {
    uint64_t value;
    uint8_t entry[64];
    put_entry(entry, 0x02, 0, 0, 0);
    expect(zonedisk_raw(session, entry, NULL, 0, room, BLOCK, &value) == NOT_ANSWERED, "a Read before the beginning");
    put_entry(entry, 0x01, 0, 0, 0);
    expect(zonedisk_raw(session, entry, room, 0, NULL, 0, &value) == NOT_ANSWERED, "a Write before the beginning");
    put_entry(entry, 0x7a, 0, 1023, 0);
    expect(zonedisk_raw(session, entry, NULL, 0, page, sizeof page, &value) == DONE && page[0] == shape.zones,
           "a report before the beginning");
}

static void try_begin(uint64_t session) {
    struct shape other = shape;
    uint64_t moment = 5;
    other.block = 0;
    expect(begin(session, &other, &moment) == NOT_BEGUN, "blocks of no bytes");
    other = shape;
    other.transfer = 0;
    expect(begin(session, &other, &moment) == NO_TRANSFER, "no blocks in a transfer");
    other.transfer = 300;
    expect(begin(session, &other, &moment) == NO_TRANSFER, "more than the system takes");
    other = (struct shape){.block = 1, .transfer = 0x10001};
    expect(begin(session, &other, &moment) == NO_TRANSFER && moment == UINT64_MAX, "more blocks than a command has");
    expect(zonedisk_begin(session, &shape, room, 64, &moment) == NOT_BEGUN, "a report without room");
    expect(zonedisk_begin(session, &shape, room, sizeof room, &moment) == NOT_BEGUN, "a report with more room");
    expect(zonedisk_begin(session, &shape, room, 64 + 64 * 6, &moment) == BEGUN && moment == 0, "the beginning");
    static const uint8_t states[6] = {EMPTY, EMPTY, EMPTY, EMPTY, READ_ONLY, OFFLINE};
    for (size_t i = 0; i < 6; i++) {
        const uint8_t *at = room + 64 + 64 * i;
        expect(at[1] >> 4 == states[i] && (size_t)(at[16] | at[17] << 8) == i * shape.size, "a zone of the report");
    }
    expect(begin(session, &shape, &moment) == NOT_BEGUN && moment == UINT64_MAX, "a second beginning");
}

// Many zones take several reports.
static void try_many_zones(void) {
    const struct shape many = {BLOCK, 100, 8, 8, 8, 3, 2};
    static uint8_t report[64 + 64 * 100];
    uint64_t session, number, moment;
    begin_world(&many);
    expect(open_it(&session, &number) == OPENED, "it is not opened");
    expect(zonedisk_begin(session, &many, report, sizeof report, &moment) == BEGUN, "many zones");
    for (size_t i = 0; i < 100; i++) {
        const uint8_t *at = report + 64 + 64 * i;
        expect(at[0] == 2 && (size_t)(at[16] | at[17] << 8) == i * many.size, "one of many zones");
    }
    end_world();
}

// A drive that does not report its zones does not begin.
static void try_no_report(void) {
    const struct shape small = {BLOCK, 6, 2048, 2000, 4, 3, 2};
    uint64_t session, number, moment;
    begin_world(&small);
    expect(open_it(&session, &number) == OPENED, "it is not opened");
    expect(begin(session, &small, &moment) == NO_REPORT && moment == UINT64_MAX, "zones that are not reported");
    end_world();
}

// Sends a raw command, and looks whether just these two numbers of what was sent have grown: commands, and blocks.
static void try_count(uint64_t session, const uint8_t *entry, size_t length, size_t room_length,
                      const uint64_t wanted[DEVICE_COUNTS]) {
    uint64_t before[DEVICE_COUNTS], value;
    for (int i = 0; i < DEVICE_COUNTS; i++) before[i] = zonedisk_device_count(i);
    zonedisk_raw(session, entry, room, length, room, room_length, &value);
    for (int i = 0; i < DEVICE_COUNTS; i++) {
        expect(zonedisk_device_count(i) == before[i] + wanted[i], "a number of what was sent");
    }
}

static void try_counts(uint64_t session) {
    static const struct {
        uint8_t opcode;
        uint32_t dword12, dword13;
        size_t length, room_length;
        uint64_t wanted[DEVICE_COUNTS];
    } commands[] = {
        {0x00, 0, 0, 0, 0, {[DEVICE_FLUSHES] = 1}},
        {0x02, 2, 0, 0, 3 * BLOCK, {[DEVICE_READS] = 1, [DEVICE_BLOCKS_READ] = 3}},
        {0x7d, 1, 0, 2 * BLOCK, 0, {[DEVICE_WRITES] = 1, [DEVICE_BLOCKS_WRITTEN] = 2}},
        {0x01, 255, 0, 256 * BLOCK, 0, {[DEVICE_WRITES] = 1, [DEVICE_BLOCKS_WRITTEN] = 256}},
        {0x79, 0, 4, 0, 0, {[DEVICE_ACTIONS] = 1}},
        {0x7a, 1023, 0, 0, 4096, {[DEVICE_REPORTS] = 1}},
        {0x02, 2, 0, 0, 2 * BLOCK, {0}},
        {0x05, 0, 0, 0, 0, {0}},
    };
    for (size_t i = 0; i < sizeof commands / sizeof *commands; i++) {
        uint8_t entry[64];
        put_entry(entry, commands[i].opcode, 0, commands[i].dword12, commands[i].dword13);
        try_count(session, entry, commands[i].length, commands[i].room_length, commands[i].wanted);
    }
}

// A drive that is write protected says so by Identify Namespace. It can be read, and does not do what would change it.
static void try_write_protected(void) {
    uint64_t session = new_session(), moment, value;
    uint8_t entry[64];
    uint32_t result;
    expect(zonedisk_admin(session, 0x06, 1, 0, 0, page, sizeof page, &result) == DONE && (page[NSATTR] & 1) == 0,
           "a drive that is not write protected");
    world.drive.write_protected = true;
    expect(zonedisk_admin(session, 0x06, 1, 0, 0, page, sizeof page, &result) == DONE && (page[NSATTR] & 1) == 1,
           "a drive that is write protected");
    expect(begin(session, &shape, &moment) == BEGUN, "the beginning of one that is write protected");
    put_entry(entry, 0x02, 0, 0, 0);
    expect(zonedisk_submit(session, &moment, entry, NULL, 0, 0, room, BLOCK, &value) == DONE, "a Read of it");
    put_entry(entry, 0x7d, 0, 0, 0);
    expect(zonedisk_submit(session, &moment, entry, room, BLOCK, 0, NULL, 0, &value) == WRITE_PROTECTED, "an Append to it");
    put_entry(entry, 0x79, 0, 0, 4);
    expect(zonedisk_submit(session, &moment, entry, NULL, 0, 0, NULL, 0, &value) == WRITE_PROTECTED, "a Reset on it");
    end_world();
}

static void try_large(void) {
    const struct shape large = {4096, 4, 512, 500, 256, 3, 2};
    struct shape smaller = large;
    uint64_t session, number, moment;
    begin_world(&large);
    world.large_pages = false;
    expect(open_it(&session, &number) == OPENED, "it is not opened");
    expect(begin(session, &large, &moment) == NO_TRANSFER, "a transfer that needs a large page");
    smaller.transfer = 126;
    expect(begin(session, &smaller, &moment) == BEGUN, "a transfer that needs none");
    end_world();
}

// A status of the drive is given without More and Do Not Retry. One of the path is no answer of the drive.
static void try_statuses(uint64_t session, uint64_t *moment) {
    static const struct {
        int given;
        uint16_t status;
    } rows[] = {{0x280, 0x280},        {0x6280, 0x280},       {0x4002, 0x002},
                {0x370, NOT_ANSWERED}, {0x371, NOT_ANSWERED}, {0x4371, NOT_ANSWERED}};
    uint64_t value = 1;
    uint8_t entry[64];
    put_entry(entry, 0x7d, 0, 0, 0);
    for (size_t i = 0; i < sizeof rows / sizeof *rows; i++) {
        world.command_status = rows[i].given;
        uint16_t status = zonedisk_submit(session, moment, entry, room, BLOCK, 0, NULL, 0, &value);
        expect(status == rows[i].status && value == 0, "a status");
    }
    world.command_status = 0;
    expect(zonedisk_submit(session, moment, entry, room, BLOCK, 0, NULL, 0, &value) == DONE, "after a status");
}

static void try_errors(uint64_t session, uint64_t moment) {
    static const int errors[] = {EINTR, EINVAL, EIO, ENODEV, ENOMEM, ETIMEDOUT, EFAULT, EACCES};
    uint64_t value = 1;
    uint8_t entry[64];
    put_entry(entry, 0x7d, 0, 0, 0);
    for (size_t i = 0; i < sizeof errors / sizeof *errors; i++) {
        world.command_error = errors[i];
        expect(zonedisk_submit(session, &moment, entry, room, BLOCK, 0, NULL, 0, &value) == NOT_ANSWERED,
               "an error of the system");
        expect(value == 0 && moment == i + 1, "what is left after an error of the system");
    }
    world.command_error = 0;
    expect(zonedisk_submit(session, &moment, entry, room, BLOCK, 0, NULL, 0, &value) == DONE, "after an error");
    try_statuses(session, &moment);
}

// Whether something ends the process by SIGABRT.
static bool aborts(void (*does)(uint64_t), uint64_t session) {
    int status;
    fflush(stdout);
    pid_t child = fork();
    if (child == 0) {
        const struct rlimit none = {0, 0};
        setrlimit(RLIMIT_CORE, &none);
        if (freopen("/dev/null", "w", stderr) != NULL) does(session);
        _exit(0);
    }
    return waitpid(child, &status, 0) == child && WIFSIGNALED(status) && WTERMSIG(status) == SIGABRT;
}

static void submit_at(uint64_t session, uint64_t moment) {
    static const uint8_t flush[64];
    uint64_t value;
    zonedisk_submit(session, &moment, flush, NULL, 0, 0, NULL, 0, &value);
}

static void submit_in_past(uint64_t session) { submit_at(session, 0); }
static void submit_in_future(uint64_t session) { submit_at(session, 100); }
static void submit_at_none(uint64_t session) { submit_at(session, UINT64_MAX); }
static void raw_no_session(uint64_t session) {
    static const uint8_t flush[64];
    uint64_t value;
    zonedisk_raw(session + 100, flush, NULL, 0, NULL, 0, &value);
}

static void submit_after_raw(uint64_t session) {
    static const uint8_t flush[64];
    uint64_t value;
    zonedisk_raw(session, flush, NULL, 0, NULL, 0, &value);
    submit_at(session, 16);
}

static void submit_now(uint64_t session) { submit_at(session, 16); }

static void try_moments(uint64_t session) {
    expect(aborts(submit_in_past, session), "a submit in the past");
    expect(aborts(submit_in_future, session), "a submit in the future");
    expect(aborts(submit_at_none, session), "a submit at no moment");
    expect(aborts(raw_no_session, session), "a session that is not there");
    expect(aborts(submit_after_raw, session), "a submit after a raw command");
    expect(!aborts(submit_now, session), "a submit at the present moment");
}

static void try_many_sessions(void) {
    uint64_t session, number;
    begin_world(&shape);
    uint32_t last = OPENED;
    for (int i = 0; i < 20 && last == OPENED; i++) last = open_it(&session, &number);
    expect(last == TOO_MANY_SESSIONS && session == UINT64_MAX, "too many sessions");
    end_world();
}

int main(void) {
    try_paths();
    try_refusals();
    try_other_kinds();
    try_without_block_device();
    uint64_t session = new_session();
    expect(aborts(submit_at_none, session), "a submit before the beginning");
    try_admin(session);
    try_before_begin(session);
    try_begin(session);
    try_errors(session, 0);
    try_moments(session);
    try_lengths(session);
    try_fields(session);
    try_counts(session);
    end_world();
    try_write_protected();
    try_large();
    try_many_zones();
    try_no_report();
    try_many_sessions();
    return end_checks("port checks");
}
