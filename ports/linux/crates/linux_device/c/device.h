// What the crate's kernel.rt declares: a zoned NVMe namespace behind Linux's own driver.
//
// There are no rules of zones here, and no page of Identify is read. C opens and locks, checks the lengths of buffers,
// and passes single commands. A session is one opened namespace. It lasts until the process ends.
//
// A status is what the drive answers: its code in bits 7:0 and its type in bits 10:8, 0 for success.
#pragma once
#include <stdbool.h>
#include <stddef.h>
#include <stdint.h>

// The status where the drive has not answered. The command may have been done, or not, or it was never sent.
#define NOT_ANSWERED 0xffff

// The status of an admin command that the system does not let this program send. It was not sent.
#define NOT_PERMITTED 0xfffe

// Why a namespace was not opened. Beside it stands the number of the error that the system gave. It is 0 where the
// system gave none: for OPENED, NO_CHARACTER_DEVICE, and a namespace without a number.
enum refusal {
    OPENED = 0,
    BAD_PATH = 1,             // no bytes, too many, or a byte 0
    NOT_FOUND = 2,            // nothing is there, or the path to it is closed to this program
    NO_CHARACTER_DEVICE = 3,  // a file, a folder, a block device
    NOT_OPENED = 4,           // it is there, and it cannot be opened
    NO_NAMESPACE = 5,         // a character device that is no NVMe namespace
    LOCKED = 6,               // another program holds the lock
    NOT_LOCKED = 7,           // the lock cannot be taken for another reason
    BLOCK_DEVICE_UNKNOWN = 8, // the system does not say whether there is a block device
    BLOCK_DEVICE_IN_USE = 9,  // it is mounted, or another program holds it
    BLOCK_DEVICE_NOT_OPENED = 10,
    TOO_MANY_SESSIONS = 11,
};

// The seven numbers of a geometry.
struct shape {
    uint32_t block, zones, size, capacity, transfer, active, most_open;
};

// Opens the namespace behind a character device such as /dev/ng0n1, and locks it. Its block device, where it has one,
// is held too, so that it is not mounted and cannot be mounted meanwhile. The result is an enum refusal.
uint32_t zonedisk_open(const uint8_t *path, size_t length, uint64_t *session, uint64_t *number);

// One admin command and its status: Identify with a page of 4,096 bytes, or Get Features or Set Features 06h without a
// page. No other is sent.
uint16_t zonedisk_admin(uint64_t session, uint32_t opcode, uint32_t namespace_of_its_own, uint32_t dword10,
                        uint32_t dword11, uint8_t *page, size_t length, uint32_t *result);

// How a session begins.
enum beginning {
    BEGUN = 0,
    NOT_BEGUN = 1,   // it has begun before, or the shape is none, or the report has no room for just its zones
    NO_TRANSFER = 2, // the system does not take so many blocks at once: a smaller `transfer` can be tried then
    NO_REPORT = 3,   // the drive does not report its zones
};

// The session's drive has this shape from here on, and this is its first moment. The report is filled with a head of
// zeros and a descriptor of each zone, as the drive gives it. The result is an enum beginning.
uint32_t zonedisk_begin(uint64_t session, const struct shape *shape, uint8_t *report, size_t length, uint64_t *moment);

// One command at the present moment and its status. The next moment follows. `end` is for the contract alone. It ends
// the process where the moment is not the present one: no handle of the past can be used.
uint16_t zonedisk_submit(uint64_t session, uint64_t *moment, const uint8_t entry[64], const uint8_t *bytes,
                         size_t length, uint64_t end, uint8_t *room, size_t room_length, uint64_t *value);

// One command with no contract, and its status. The session has no present moment from then on.
// Blocks are read and written only after the session has begun, since their size is not known before.
uint16_t zonedisk_raw(uint64_t session, const uint8_t entry[64], const uint8_t *bytes, size_t length, uint8_t *room,
                      size_t room_length, uint64_t *value);

// Writes a line with this text to standard error.
void zonedisk_tell(const uint8_t *text, size_t length);
