// Follows what commands do to the zones of a drive, and tells people what a report shows otherwise.
//
// Nothing else depends on it: what the drive shows is judged by the crate `passthrough`, which stops it then.
#include "parts.h"
#include <stdio.h>
#include <stdlib.h>

enum { WRITE = 0x01, SEND = 0x79, RECEIVE = 0x7a, APPEND = 0x7d, FINISH = 2, OPEN = 3, RESET = 4 };
enum { HEAD = 64, DESCRIPTOR = 64, READ_ONLY_STATE = 13, FULL_STATE = 14, OFFLINE_STATE = 15, LAST_ACTIVE_STATE = 4 };

// At most so many differences are told in a process.
enum { MOST_TOLD = 20 };

// What stands for the number of written blocks of other zones than those that are Empty, open or Closed.
#define FULL UINT64_MAX
#define READ_ONLY (UINT64_MAX - 1)
#define OFFLINE (UINT64_MAX - 2)
#define NOT_KNOWN (UINT64_MAX - 3)

// The written blocks of a zone that a descriptor shows, or what stands for them.
static uint64_t shown_by(const uint8_t *descriptor) {
    uint8_t state = descriptor[1] >> 4;
    if (state == READ_ONLY_STATE) return READ_ONLY;
    if (state == OFFLINE_STATE) return OFFLINE;
    if (state == FULL_STATE) return FULL;
    if (state == 0 || state > LAST_ACTIVE_STATE) return NOT_KNOWN;
    return number_at(descriptor, 24, 8) - number_at(descriptor, 16, 8);
}

// A zone as people are told of it.
static void describe(uint64_t written, char *text, size_t room) {
    if (written == FULL) snprintf(text, room, "as Full");
    else if (written == READ_ONLY) snprintf(text, room, "as Read Only");
    else if (written == OFFLINE) snprintf(text, room, "as Offline");
    else snprintf(text, room, "with %llu written block%s", (unsigned long long)written, written == 1 ? "" : "s");
}

static void tell_difference(uint64_t zone, uint64_t known, uint64_t shown) {
    static int told;
    char before[64], now[64];
    if (told == MOST_TOLD) return;
    told++;
    describe(known, before, sizeof before);
    describe(shown, now, sizeof now);
    bool is_dead = shown == READ_ONLY || shown == OFFLINE;
    fprintf(stderr, "zonedisk: the drive shows zone %llu %s, and not %s as it should%s\n", (unsigned long long)zone, now,
            before, is_dead ? "" : ": another program changed it, or the drive lost what it had answered");
}

// Sees a zone in a report, and tells if it is not as it is known.
static void see_zone(struct known_zones *known, const uint8_t *descriptor) {
    uint64_t zone = number_at(descriptor, 16, 8) / known->size, shown = shown_by(descriptor);
    if (zone >= known->count || shown == NOT_KNOWN) return;
    uint64_t before = known->written[zone];
    known->written[zone] = shown;
    if (before != NOT_KNOWN && before != shown) tell_difference(zone, before, shown);
}

static void see_report(struct known_zones *known, const uint8_t *report, size_t length) {
    size_t room = length < HEAD ? 0 : (length - HEAD) / DESCRIPTOR;
    uint64_t zones = length < HEAD ? 0 : number_at(report, 0, 8);
    for (size_t i = 0; i < room && i < zones; i++) see_zone(known, report + HEAD + DESCRIPTOR * i);
}

void know_zones(struct known_zones *known, const struct shape *shape, const uint8_t *report) {
    *known = (struct known_zones){.size = shape->size, .capacity = shape->capacity};
    known->written = malloc(shape->zones * sizeof *known->written);
    if (known->written == NULL || shape->size == 0) return;
    known->count = shape->zones;
    for (uint32_t i = 0; i < shape->zones; i++) known->written[i] = shown_by(report + HEAD + DESCRIPTOR * (size_t)i);
}

// What a write that was done leaves, by the address of its first block.
static uint64_t written_by(const struct known_zones *known, uint64_t first, const uint8_t *entry) {
    uint64_t written = first % known->size + number_at(entry, 48, 2) + 1;
    return written < known->capacity ? written : FULL;
}

// What an action leaves that was done.
static uint64_t left_by(uint64_t written, uint8_t action) {
    if (action == RESET) return 0;
    if (action == FINISH) return FULL;
    return action <= OPEN ? written : NOT_KNOWN;
}

// Tells if an Append went to another block than the next one of its zone.
static void see_address(const struct known_zones *known, uint64_t zone, uint64_t value) {
    uint64_t wanted = zone * known->size + known->written[zone];
    if (known->written[zone] >= NOT_KNOWN || value == wanted) return;
    fprintf(stderr, "zonedisk: the drive put an Append to zone %llu at the address %llu, and not at %llu as it should\n",
            (unsigned long long)zone, (unsigned long long)value, (unsigned long long)wanted);
}

// Follows a command that names a zone.
static void follow_zone(struct known_zones *known, const uint8_t *entry, uint16_t status, uint64_t value) {
    uint64_t address = number_at(entry, 40, 8), zone = address / known->size;
    if (zone >= known->count) return;
    uint64_t *written = &known->written[zone];
    if (status == 0 && entry[0] == APPEND) see_address(known, zone, value);
    if (status != 0) *written = NOT_KNOWN;
    else if (entry[0] == SEND) *written = left_by(*written, entry[52]);
    else *written = written_by(known, entry[0] == APPEND ? value : address, entry);
}

void follow_command(struct known_zones *known, const struct request *request, uint16_t status, uint64_t value) {
    const uint8_t *entry = request->entry;
    bool names_all = entry[0] == SEND && (entry[53] & 1) != 0;
    if (known->count == 0) return;
    if (entry[0] == RECEIVE && status == 0) see_report(known, request->room, request->room_length);
    for (uint32_t i = 0; names_all && i < known->count; i++) known->written[i] = NOT_KNOWN;
    if ((entry[0] == WRITE || entry[0] == APPEND || entry[0] == SEND) && !names_all) {
        follow_zone(known, entry, status, value);
    }
}
