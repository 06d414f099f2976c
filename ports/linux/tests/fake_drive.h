// A small zoned drive in memory, by the rules of docs/zones.md and in the ways of a real one.
#pragma once
#include "../crates/linux_device/c/device.h"

enum state {
    EMPTY = 1,
    IMPLICITLY_OPENED = 2,
    EXPLICITLY_OPENED = 3,
    CLOSED = 4,
    READ_ONLY = 13,
    FULL = 14,
    OFFLINE = 15,
};

// The statuses that it answers: the code in bits 7:0, the type in bits 10:8.
enum status {
    DONE = 0,
    INVALID_OPCODE = 0x001,
    INVALID_FIELD = 0x002,
    WRITE_PROTECTED = 0x020,
    OUT_OF_RANGE = 0x080,
    BOUNDARY_ERROR = 0x1b8,
    ZONE_FULL = 0x1b9,
    ZONE_READ_ONLY = 0x1ba,
    ZONE_OFFLINE = 0x1bb,
    INVALID_WRITE = 0x1bc,
    TOO_MANY_ACTIVE = 0x1bd,
    TOO_MANY_OPEN = 0x1be,
    INVALID_TRANSITION = 0x1bf,
};

struct zone {
    enum state state;
    uint32_t written;
};

struct drive {
    struct shape shape;
    struct zone *zones;
    uint8_t *bytes;
    bool write_protected; // it does no command that would change it
};

struct command {
    uint8_t opcode;
    uint64_t address;
    uint32_t dword12, dword13;
    uint8_t *data;
    size_t length;
};

// A new drive. Its last zone but one is Read Only, with one block, and its last one is Offline.
struct drive new_drive(const struct shape *shape);
void free_drive(struct drive *drive);

// Does a command. A refused Append gives the zone's write pointer as its result, as QEMU's drive does.
enum status do_command(struct drive *drive, const struct command *command, uint64_t *result);
