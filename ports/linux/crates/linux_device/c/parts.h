// What the C files of this crate share.
#pragma once
#include "device.h"

// The number in some bytes of an entry or of a report.
static inline uint64_t number_at(const uint8_t *bytes, int first, int length) {
    uint64_t number = 0;
    for (int i = length - 1; i >= 0; i--) number = number << 8 | bytes[first + i];
    return number;
}

// The devices that are held for one namespace.
struct namespace_devices {
    int character; // takes the commands, and is locked
    int block;     // keeps file systems away, or -1 where there is none
    uint32_t number;
};

// Opens, checks and locks. What was opened is closed again where the namespace is refused.
enum refusal open_namespace(const char *path, struct namespace_devices *devices, uint64_t *number);

// An entry's command and its buffers. The side that the command does not use has no bytes.
struct request {
    const uint8_t *entry;
    const uint8_t *bytes;
    size_t length;
    uint8_t *room;
    size_t room_length;
};

// Passes one command of a namespace with blocks of this size, or of no known size, which is 0.
uint16_t pass_command(const struct namespace_devices *devices, uint32_t block, const struct request *request,
                      uint64_t *value);

// Whether the system takes commands of so many blocks. It is tried by a Read, whose status may be any.
bool takes_transfer(const struct namespace_devices *devices, uint32_t block, uint32_t blocks);

// How many bytes a report of so many zones has, with its head.
size_t report_length(uint32_t zones);

// Fills a report with the descriptors of all zones, by reports of a page each. Its head is zeros.
bool read_zones(const struct namespace_devices *devices, uint32_t size, uint32_t zones, uint8_t *report);

// Passes one admin command.
uint16_t pass_admin(const struct namespace_devices *devices, uint8_t opcode, bool names_namespace,
                    const uint32_t dwords[2], uint8_t *page, size_t length, uint32_t *result);

// The written blocks of each zone, as commands left them. It is kept only to tell people what a drive shows otherwise.
struct known_zones {
    uint64_t *written;
    uint32_t count; // 0 where nothing is known
    uint32_t size, capacity;
};

// Takes the zones from a report of all of them.
void know_zones(struct known_zones *known, const struct shape *shape, const uint8_t *report);

// Follows a command that was sent, with its status and its result. It tells of each zone that a report shows otherwise,
// and of an Append at another address.
void follow_command(struct known_zones *known, const struct request *request, uint16_t status, uint64_t value);

// Tells people of a command that the drive answered by another status than success, or not at all. A zone of it has so
// many blocks.
void tell_refused(const uint8_t *entry, uint32_t size, uint16_t status);
