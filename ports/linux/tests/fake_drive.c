#include "fake_drive.h"
#include <assert.h>
#include <stdlib.h>
#include <string.h>

enum action { CLOSE = 1, FINISH = 2, OPEN = 3, RESET = 4, TAKE_OFFLINE = 5 };

struct drive new_drive(const struct shape *shape) {
    struct drive drive = {.shape = *shape};
    drive.zones = calloc(shape->zones, sizeof *drive.zones);
    drive.bytes = calloc((size_t)shape->zones * shape->size, shape->block);
    assert(drive.zones != NULL && drive.bytes != NULL && shape->zones >= 3);
    for (uint32_t i = 0; i < shape->zones; i++) drive.zones[i].state = EMPTY;
    drive.zones[shape->zones - 2] = (struct zone){READ_ONLY, 1};
    drive.zones[shape->zones - 1] = (struct zone){OFFLINE, 0};
    return drive;
}

void free_drive(struct drive *drive) {
    free(drive->zones);
    free(drive->bytes);
}

static bool is_open(const struct zone *zone) {
    return zone->state == IMPLICITLY_OPENED || zone->state == EXPLICITLY_OPENED;
}

static bool is_active(const struct zone *zone) {
    return is_open(zone) || zone->state == CLOSED;
}

static uint32_t count(const struct drive *drive, bool (*holds)(const struct zone *)) {
    uint32_t found = 0;
    for (uint32_t i = 0; i < drive->shape.zones; i++) found += holds(&drive->zones[i]);
    return found;
}

static uint8_t *block_at(const struct drive *drive, uint64_t address) {
    return drive->bytes + address * drive->shape.block;
}

static uint64_t end_of(const struct drive *drive) {
    return (uint64_t)drive->shape.zones * drive->shape.size;
}

// Closes the first implicitly opened zone, if there is one.
static bool close_one(struct drive *drive) {
    for (uint32_t i = 0; i < drive->shape.zones; i++) {
        if (drive->zones[i].state != IMPLICITLY_OPENED) continue;
        drive->zones[i].state = CLOSED;
        return true;
    }
    return false;
}

// Whether a zone can be opened. An implicitly opened zone is closed for it where no open resource is free.
static enum status make_room(struct drive *drive, const struct zone *zone) {
    if (is_open(zone)) return DONE;
    if (zone->state == EMPTY && count(drive, is_active) >= drive->shape.active) return TOO_MANY_ACTIVE;
    if (count(drive, is_open) >= drive->shape.most_open && !close_one(drive)) return TOO_MANY_OPEN;
    return DONE;
}

// Whether a zone takes so many blocks at its write pointer.
static enum status accepts(const struct drive *drive, const struct zone *zone, uint32_t blocks) {
    if (zone->state == FULL) return ZONE_FULL;
    if (zone->state == READ_ONLY) return ZONE_READ_ONLY;
    if (zone->state == OFFLINE) return ZONE_OFFLINE;
    return zone->written + blocks > drive->shape.capacity ? BOUNDARY_ERROR : DONE;
}

static enum status write_blocks(struct drive *drive, const struct command *command, bool appends, uint64_t *result) {
    const struct shape *shape = &drive->shape;
    uint32_t blocks = (command->dword12 & 0xffff) + 1;
    assert(command->length == (size_t)blocks * shape->block);
    if (blocks > shape->transfer || (appends && command->address % shape->size != 0)) return INVALID_FIELD;
    if (command->address >= end_of(drive)) return OUT_OF_RANGE;
    if (!appends && blocks > end_of(drive) - command->address) return OUT_OF_RANGE;
    struct zone *zone = &drive->zones[command->address / shape->size];
    uint64_t start = command->address / shape->size * shape->size;
    if (appends) *result = start + zone->written;
    enum status status = accepts(drive, zone, blocks);
    if (status == DONE && !appends && command->address != start + zone->written) status = INVALID_WRITE;
    if (status == DONE) status = make_room(drive, zone);
    if (status != DONE) return status;
    memcpy(block_at(drive, start + zone->written), command->data, command->length);
    zone->written += blocks;
    if (zone->state != EXPLICITLY_OPENED) zone->state = IMPLICITLY_OPENED;
    if (zone->written == shape->capacity) zone->state = FULL;
    return DONE;
}

// Reads blocks. What is not written reads as zeros.
static enum status read_blocks(const struct drive *drive, const struct command *command) {
    const struct shape *shape = &drive->shape;
    uint32_t blocks = (command->dword12 & 0xffff) + 1;
    assert(command->length == (size_t)blocks * shape->block);
    if (blocks > shape->transfer) return INVALID_FIELD;
    if (command->address >= end_of(drive) || blocks > end_of(drive) - command->address) return OUT_OF_RANGE;
    if (command->address % shape->size + blocks > shape->size) return BOUNDARY_ERROR;
    const struct zone *zone = &drive->zones[command->address / shape->size];
    if (zone->state == OFFLINE) return ZONE_OFFLINE;
    uint32_t first = (uint32_t)(command->address % shape->size);
    uint32_t held = zone->written <= first ? 0 : zone->written - first < blocks ? zone->written - first : blocks;
    size_t length = (size_t)held * shape->block;
    memcpy(command->data, block_at(drive, command->address), length);
    memset(command->data + length, 0, command->length - length);
    return DONE;
}

static enum status open_zone(struct drive *drive, struct zone *zone) {
    if (zone->state >= READ_ONLY) return INVALID_TRANSITION;
    enum status status = make_room(drive, zone);
    if (status == DONE) zone->state = EXPLICITLY_OPENED;
    return status;
}

static enum status reset_zone(struct drive *drive, struct zone *zone) {
    if (zone->state == READ_ONLY || zone->state == OFFLINE) return INVALID_TRANSITION;
    memset(block_at(drive, (uint64_t)(zone - drive->zones) * drive->shape.size), 0,
           (size_t)drive->shape.size * drive->shape.block);
    *zone = (struct zone){EMPTY, 0};
    return DONE;
}

static enum status act(struct drive *drive, struct zone *zone, uint8_t action) {
    bool is_dead = zone->state == READ_ONLY || zone->state == OFFLINE;
    switch (action) {
    case CLOSE:
        if (!is_active(zone)) return INVALID_TRANSITION;
        zone->state = CLOSED;
        return DONE;
    case FINISH:
        if (is_dead) return INVALID_TRANSITION;
        zone->state = FULL;
        return DONE;
    case OPEN:
        return open_zone(drive, zone);
    case RESET:
        return reset_zone(drive, zone);
    case TAKE_OFFLINE:
        if (!is_dead) return INVALID_TRANSITION;
        zone->state = OFFLINE;
        return DONE;
    default:
        return INVALID_FIELD;
    }
}

// Whether an action with Select All applies to a zone.
static bool is_selected(const struct zone *zone, uint8_t action) {
    switch (action) {
    case CLOSE:
        return is_open(zone);
    case FINISH:
        return is_active(zone);
    case RESET:
        return is_active(zone) || zone->state == FULL;
    default:
        return action == TAKE_OFFLINE && zone->state == READ_ONLY;
    }
}

static enum status send(struct drive *drive, const struct command *command) {
    uint8_t action = command->dword13 & 0xff;
    assert(command->length == 0);
    if ((command->dword13 >> 8 & 1) == 0) {
        if (command->address % drive->shape.size != 0) return INVALID_FIELD;
        if (command->address >= end_of(drive)) return OUT_OF_RANGE;
        return act(drive, &drive->zones[command->address / drive->shape.size], action);
    }
    if (action == OPEN || action == 0 || action > TAKE_OFFLINE) return INVALID_FIELD;
    for (uint32_t i = 0; i < drive->shape.zones; i++) {
        if (is_selected(&drive->zones[i], action)) act(drive, &drive->zones[i], action);
    }
    return DONE;
}

static void store(uint8_t *at, uint64_t value) {
    for (int i = 0; i < 8; i++) at[i] = (uint8_t)(value >> 8 * i);
}

static void describe(const struct drive *drive, uint32_t index, uint8_t at[64]) {
    const struct zone *zone = &drive->zones[index];
    uint64_t start = (uint64_t)index * drive->shape.size;
    memset(at, 0, 64);
    at[0] = 2;
    at[1] = (uint8_t)(zone->state << 4);
    store(at + 8, drive->shape.capacity);
    store(at + 16, start);
    store(at + 24, zone->state >= READ_ONLY ? UINT64_MAX : start + zone->written);
}

static enum status report(const struct drive *drive, const struct command *command) {
    static const uint8_t states[8] = {0, EMPTY, IMPLICITLY_OPENED, EXPLICITLY_OPENED, CLOSED, FULL, READ_ONLY, OFFLINE};
    uint8_t option = command->dword13 >> 8 & 0xff;
    uint64_t named = 0, shown = 0;
    assert(command->length == ((size_t)command->dword12 + 1) * 4);
    if ((command->dword13 & 0xff) != 0 || option > 7 || command->length < 64) return INVALID_FIELD;
    if (command->address >= end_of(drive)) return OUT_OF_RANGE;
    memset(command->data, 0, command->length);
    for (uint32_t i = (uint32_t)(command->address / drive->shape.size); i < drive->shape.zones; i++) {
        if (option != 0 && drive->zones[i].state != states[option]) continue;
        named++;
        if (64 + 64 * (shown + 1) > command->length) continue;
        describe(drive, i, command->data + 64 + 64 * shown++);
    }
    store(command->data, (command->dword13 >> 16 & 1) != 0 ? shown : named);
    return DONE;
}

// Whether a command would change a drive. A Flush changes nothing.
static bool changes(const struct command *command) {
    return command->opcode != 0x00 && command->opcode != 0x02 && command->opcode != 0x7a;
}

enum status do_command(struct drive *drive, const struct command *command, uint64_t *result) {
    *result = 0;
    if (drive->write_protected && changes(command)) return WRITE_PROTECTED;
    switch (command->opcode) {
    case 0x00:
        return DONE;
    case 0x01:
        return write_blocks(drive, command, false, result);
    case 0x02:
        return read_blocks(drive, command);
    case 0x79:
        return send(drive, command);
    case 0x7a:
        return report(drive, command);
    case 0x7d:
        return write_blocks(drive, command, true, result);
    default:
        return INVALID_OPCODE;
    }
}
