// Sends raw lines through the port, and writes the replies: both as `zonedisk nvme` has them (docs/formats.md).
//
// usage: nvme_lines DEVICE [BLOCK TRANSFER] < lines > replies
//
// Without BLOCK, which is the number of bytes in a block, it takes that of the namespace. TRANSFER is the greatest
// number of blocks of a command, and else 2. A command that is not answered gives the status 7ffh.
#define _GNU_SOURCE
#include "../crates/linux_device/c/device.h"
#include <stdio.h>
#include <stdlib.h>
#include <string.h>

enum { ENTRY = 64, MOST_BYTES = 4 << 20, UNANSWERED = 0x7ff };

static uint8_t bytes[MOST_BYTES], room[MOST_BYTES];

static uint32_t dword(const uint8_t *at) {
    return at[0] | (uint32_t)at[1] << 8 | (uint32_t)at[2] << 16 | (uint32_t)at[3] << 24;
}

static int digit(char letter) {
    if (letter >= '0' && letter <= '9') return letter - '0';
    return letter >= 'a' && letter <= 'f' ? letter - 'a' + 10 : -1;
}

// Reads pairs of hexadecimal digits.
static bool read_hex(const char *text, size_t count, uint8_t *into) {
    for (size_t i = 0; i < count; i++) {
        int high = digit(text[2 * i]), low = high < 0 ? -1 : digit(text[2 * i + 1]);
        if (low < 0) return false;
        into[i] = (uint8_t)(high << 4 | low);
    }
    return true;
}

static void write_hex(const uint8_t *from, size_t count) {
    for (size_t i = 0; i < count; i++) printf("%02x", from[i]);
}

// The bytes that a command returns where it succeeds.
static size_t room_of(const uint8_t *entry, uint32_t block) {
    if (entry[0] == 0x02) return ((size_t)(dword(entry + 48) & 0xffff) + 1) * block;
    return entry[0] == 0x7a ? ((size_t)dword(entry + 48) + 1) * 4 : 0;
}

static void write_reply(const uint8_t *entry, uint16_t status, uint64_t value, size_t returned) {
    uint8_t completion[16] = {0};
    for (int i = 0; i < 8; i++) completion[i] = (uint8_t)(value >> 8 * i);
    memcpy(completion + 12, entry + 2, 2);
    completion[14] = (uint8_t)(status << 1);
    completion[15] = (uint8_t)(status >> 7);
    write_hex(completion, sizeof completion);
    if (returned != 0 && status == 0) putchar(' ');
    if (status == 0) write_hex(room, returned);
    putchar('\n');
}

// Sends the command of a line. False where the line has another form.
static bool send_line(uint64_t session, uint32_t block, const char *line) {
    uint8_t entry[ENTRY];
    uint64_t value;
    size_t length = strlen(line), given = length > 2 * ENTRY ? (length - 2 * ENTRY - 1) / 2 : 0;
    if (length < 2 * ENTRY || !read_hex(line, ENTRY, entry) || given > sizeof bytes) return false;
    if (given != 0 && !read_hex(line + 2 * ENTRY + 1, given, bytes)) return false;
    size_t returned = room_of(entry, block);
    if (returned > sizeof room) returned = sizeof room;
    uint16_t status = zonedisk_raw(session, entry, bytes, given, room, returned, &value);
    write_reply(entry, status == NOT_ANSWERED ? UNANSWERED : status, value, returned);
    return true;
}

// The block size of a namespace, by its page of Identify: that of its present format.
static uint32_t block_of(uint64_t session) {
    static uint8_t page[4096];
    uint32_t result;
    if (zonedisk_admin(session, 0x06, 1, 0, 0, page, sizeof page, &result) != 0) return 0;
    return 1u << page[128 + 4 * (page[26] & 15) + 2];
}

static int fail(const char *why, const char *what) {
    fprintf(stderr, "nvme_lines: %s%s\n", why, what);
    return 1;
}

static int send_lines(uint64_t session, uint32_t block) {
    char *line = NULL;
    size_t held = 0;
    ssize_t length;
    while ((length = getline(&line, &held, stdin)) > 0) {
        if (line[length - 1] == '\n') line[length - 1] = 0;
        if (line[0] == 0 || line[0] == '#') continue;
        if (!send_line(session, block, line)) return fail("no such line: ", line);
    }
    free(line);
    return 0;
}

int main(int count, char **words) {
    uint64_t session, number, moment;
    if (count < 2) return fail("there is no device", "");
    uint32_t refusal = zonedisk_open((const uint8_t *)words[1], strlen(words[1]), &session, &number);
    if (refusal != OPENED) {
        fprintf(stderr, "nvme_lines: refusal %u, error %lu\n", refusal, (unsigned long)number);
        return 3;
    }
    struct shape shape = {.block = count > 2 ? (uint32_t)atoi(words[2]) : block_of(session), .transfer = 2};
    if (count > 3) shape.transfer = (uint32_t)atoi(words[3]);
    uint8_t head[64];
    if (zonedisk_begin(session, &shape, head, sizeof head, &moment) != BEGUN) return fail("it does not begin", "");
    return send_lines(session, shape.block);
}
