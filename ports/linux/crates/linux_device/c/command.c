// Passes single commands to Linux's NVMe driver.
#define _GNU_SOURCE
#include "parts.h"
#include "counts.h"
#include <errno.h>
#include <linux/nvme_ioctl.h>
#include <stdlib.h>
#include <string.h>
#include <sys/ioctl.h>
#include <sys/mman.h>

// The opcodes of the commands that are passed.
enum { FLUSH = 0x00, WRITE = 0x01, READ = 0x02, SEND = 0x79, RECEIVE = 0x7a, APPEND = 0x7d };
enum { SET_FEATURES = 0x09, IDENTIFY = 0x06, GET_FEATURES = 0x0a, WRITE_CACHE = 0x06, PAGE = 4096 };

// Bytes of a report's head and of a descriptor, and how many descriptors a report of one page has.
enum { HEAD = 64, DESCRIPTOR = 64, ZONES_OF_PAGE = (PAGE - HEAD) / DESCRIPTOR };

// The greatest action of a Send that moves no data. What Set Zone Descriptor Extension moves only Identify tells.
enum { GREATEST_ACTION = 5 };

// A command of at most this many bytes goes straight from and into the caller's memory. The driver takes 127 pieces of
// memory for a command (Linux 6.1; 128 in 6.12). Each page of 4,096 bytes may be a piece of its own, and a buffer that
// does not begin with a page touches one page more.
#define MOST_IN_PAGES (126 * (size_t)PAGE)

// All others go through memory that is one piece: a large page of the processor. This is its size and its alignment.
#define LARGE ((size_t)2 << 20)

// The type of the statuses of a path.
enum { PATH_STATUS = 3 };

// How long the driver waits before it cancels a command: a minute.
#define TIME_LIMIT 60000

static uint32_t dword(const uint8_t *entry, int index) {
    const uint8_t *at = entry + 4 * index;
    return at[0] | (uint32_t)at[1] << 8 | (uint32_t)at[2] << 16 | (uint32_t)at[3] << 24;
}

static _Atomic uint64_t counts[DEVICE_COUNTS];

uint64_t zonedisk_device_count(enum device_count which) {
    return counts[which];
}

static void count_blocks(enum device_count commands, enum device_count blocks, const uint8_t *entry) {
    counts[commands]++;
    counts[blocks] += (dword(entry, 12) & 0xffff) + 1;
}

// Counts a command that is sent.
static void count_command(const uint8_t *entry) {
    switch (entry[0]) {
    case FLUSH: counts[DEVICE_FLUSHES]++; break;
    case SEND: counts[DEVICE_ACTIONS]++; break;
    case RECEIVE: counts[DEVICE_REPORTS]++; break;
    case READ: count_blocks(DEVICE_READS, DEVICE_BLOCKS_READ, entry); break;
    default: count_blocks(DEVICE_WRITES, DEVICE_BLOCKS_WRITTEN, entry); break;
    }
}

static bool have_lengths(const struct request *request, uint64_t length, uint64_t room_length) {
    return request->length == length && request->room_length == room_length;
}

// Whether an entry's command has exactly the buffers that it moves. The driver does not look: the drive would read and
// write memory beyond a buffer that is too short. A command that moves an unknown number of bytes has none.
static bool buffers_fit(uint32_t block, const struct request *request) {
    uint64_t blocks_length = ((uint64_t)(dword(request->entry, 12) & 0xffff) + 1) * block;
    uint64_t room_length = ((uint64_t)dword(request->entry, 12) + 1) * 4;
    switch (request->entry[0]) {
    case FLUSH:
        return have_lengths(request, 0, 0);
    case SEND:
        return (dword(request->entry, 13) & 0xff) <= GREATEST_ACTION && have_lengths(request, 0, 0);
    case WRITE:
    case APPEND:
        return block != 0 && have_lengths(request, blocks_length, 0);
    case READ:
        return block != 0 && have_lengths(request, 0, blocks_length);
    case RECEIVE:
        return have_lengths(request, 0, room_length);
    default:
        return false;
    }
}

// The status of what the driver gave for a command.
//
// A negative number says that the system has an error and no status of the drive, whatever the error is. EINTR is no
// exception. The driver waits for a command without heeding signals, and gives EINTR for a command that it cancelled:
// after its time, in a reset of the controller, or when the drive was removed. The drive may have done such a command,
// or may still do it. So it is not answered, and never sent again: an Append would be written twice.
//
// A status of the type 3h is of the path to the drive. Linux gives one by itself for a command that it gives up behind a
// network, or cannot send (370h and 371h). So that is no answer of the drive, either.
//
// More and Do Not Retry, above bit 10, are left out.
static uint16_t status_of(int given) {
    if (given < 0 || (given >> 8 & 7) == PATH_STATUS) return NOT_ANSWERED;
    return (uint16_t)(given & 0x7ff);
}

// Memory for a command with many pages. It is asked for as one large page. The system may refuse that, and then takes
// smaller commands only.
static uint8_t *large_buffer(void) {
    static uint8_t *buffer;
    if (buffer == NULL) {
        buffer = aligned_alloc(LARGE, LARGE);
        if (buffer != NULL) madvise(buffer, LARGE, MADV_HUGEPAGE);
    }
    return buffer;
}

// Passes a command with its data at a place.
static uint16_t pass_at(const struct namespace_devices *devices, const uint8_t *entry, const void *data, size_t length,
                        uint64_t *value) {
    struct nvme_passthru_cmd64 command = {
        .opcode = entry[0],
        .nsid = devices->number,
        .addr = length == 0 ? 0 : (uintptr_t)data,
        .data_len = (uint32_t)length,
        .cdw10 = dword(entry, 10),
        .cdw11 = dword(entry, 11),
        .cdw12 = dword(entry, 12),
        .cdw13 = dword(entry, 13),
        .cdw14 = dword(entry, 14),
        .cdw15 = dword(entry, 15),
        .timeout_ms = TIME_LIMIT,
    };
    count_command(entry);
    uint16_t status = status_of(ioctl(devices->character, NVME_IOCTL_IO64_CMD, &command));
    *value = status == 0 ? command.result : 0;
    return status;
}

// Passes a command whose data go through the large buffer.
static uint16_t pass_copied(const struct namespace_devices *devices, const struct request *request, uint64_t *value) {
    uint8_t *buffer = large_buffer();
    if (buffer == NULL || request->length > LARGE || request->room_length > LARGE) return NOT_ANSWERED;
    if (request->length != 0) memcpy(buffer, request->bytes, request->length);
    uint16_t status = pass_at(devices, request->entry, buffer, request->length + request->room_length, value);
    if (status == 0 && request->room_length != 0) memcpy(request->room, buffer, request->room_length);
    return status;
}

uint16_t pass_command(const struct namespace_devices *devices, uint32_t block, const struct request *request,
                      uint64_t *value) {
    *value = 0;
    if (!buffers_fit(block, request)) return NOT_ANSWERED;
    if (request->length > MOST_IN_PAGES || request->room_length > MOST_IN_PAGES) {
        return pass_copied(devices, request, value);
    }
    if (request->room_length != 0) return pass_at(devices, request->entry, request->room, request->room_length, value);
    return pass_at(devices, request->entry, request->bytes, request->length, value);
}

bool takes_transfer(const struct namespace_devices *devices, uint32_t block, uint32_t blocks) {
    const uint64_t length = (uint64_t)blocks * block;
    const uint8_t *buffer = large_buffer();
    if (blocks == 0 || blocks > 0x10000 || length > LARGE || buffer == NULL) return false;
    const uint8_t entry[64] = {[0] = READ, [48] = (blocks - 1) & 0xff, [49] = (uint8_t)((blocks - 1) >> 8)};
    uint64_t value;
    return pass_at(devices, entry, buffer, length, &value) != NOT_ANSWERED;
}

// Asks for a report of the zones from an address on, into a page.
static bool report_page(const struct namespace_devices *devices, uint64_t address, uint8_t *page) {
    uint8_t entry[64] = {[0] = RECEIVE, [48] = (PAGE / 4 - 1) & 0xff, [49] = (PAGE / 4 - 1) >> 8, [54] = 1};
    uint64_t value;
    for (int i = 0; i < 8; i++) entry[40 + i] = (uint8_t)(address >> 8 * i);
    return pass_at(devices, entry, page, PAGE, &value) == 0;
}

size_t report_length(uint32_t zones) {
    return HEAD + DESCRIPTOR * (size_t)zones;
}

bool read_zones(const struct namespace_devices *devices, uint32_t size, uint32_t zones, uint8_t *report) {
    static uint8_t page[PAGE];
    memset(report, 0, HEAD);
    for (uint32_t first = 0; first < zones; first += ZONES_OF_PAGE) {
        uint32_t count = zones - first < ZONES_OF_PAGE ? zones - first : ZONES_OF_PAGE;
        if (!report_page(devices, (uint64_t)first * size, page)) return false;
        memcpy(report + report_length(first), page + HEAD, (size_t)DESCRIPTOR * count);
    }
    return true;
}

// Whether an admin command is one of those that are passed, with the page that it moves.
static bool admin_fits(uint8_t opcode, uint32_t dword10, size_t length) {
    if (opcode == IDENTIFY) return length == PAGE;
    return (opcode == GET_FEATURES || opcode == SET_FEATURES) && (dword10 & 0xff) == WRITE_CACHE && length == 0;
}

uint16_t pass_admin(const struct namespace_devices *devices, uint8_t opcode, bool names_namespace,
                    const uint32_t dwords[2], uint8_t *page, size_t length, uint32_t *result) {
    *result = 0;
    if (!admin_fits(opcode, dwords[0], length)) return NOT_ANSWERED;
    struct nvme_passthru_cmd64 command = {
        .opcode = opcode,
        .nsid = names_namespace ? devices->number : 0,
        .addr = length == 0 ? 0 : (uintptr_t)page,
        .data_len = (uint32_t)length,
        .cdw10 = dwords[0],
        .cdw11 = dwords[1],
        .timeout_ms = TIME_LIMIT,
    };
    int given = ioctl(devices->character, NVME_IOCTL_ADMIN64_CMD, &command);
    if (given < 0 && (errno == EACCES || errno == EPERM)) return NOT_PERMITTED;
    uint16_t status = status_of(given);
    if (status == 0) *result = (uint32_t)command.result;
    return status;
}
