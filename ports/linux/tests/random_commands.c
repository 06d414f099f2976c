// Sends random commands both through the port to a drive behind a fake of Linux, and straight to a drive that is alike.
// The answers and the drives have to be the same after each.
#define _GNU_SOURCE
#include "check.h"
#include "entries.h"
#include "fake_linux.h"
#include <stdlib.h>

enum { COMMANDS = 200000, MOST_BYTES = 1 << 20 };

static uint8_t bytes[MOST_BYTES], first_room[MOST_BYTES + 8], second_room[MOST_BYTES];
static unsigned long by_status[0x10000];

static uint64_t below(uint64_t end) {
    return (uint64_t)random() % end;
}

// An address: mostly the start of a zone, and at times beyond the drive.
static uint64_t some_address(const struct shape *shape) {
    if (below(4) != 0) return below(shape->zones + 1) * shape->size;
    return below((uint64_t)shape->zones * shape->size + 3);
}

// A number of blocks: mostly few, and at times as many as the drive takes.
static uint32_t some_blocks(const struct shape *shape) {
    uint32_t most = below(8) == 0 ? shape->transfer : shape->transfer < 8 ? shape->transfer : 8;
    return (uint32_t)below(most) + 1;
}

static struct command some_command(const struct shape *shape) {
    static const uint8_t opcodes[] = {0x00, 0x01, 0x01, 0x02, 0x02, 0x79, 0x79, 0x7a, 0x7d, 0x7d, 0x7d, 0x7d};
    struct command command = {.opcode = opcodes[below(sizeof opcodes)], .address = some_address(shape)};
    if (command.opcode == 0x79) {
        uint32_t action = below(200) == 0 ? 5 : (uint32_t)below(4) + 1;
        command.dword13 = action | (uint32_t)(below(60) == 0 && action != 3) << 8;
    } else if (command.opcode == 0x7a) {
        command.dword12 = (uint32_t)below(300) + 15;
        command.dword13 = (uint32_t)(below(8) << 8 | below(2) << 16);
        command.length = ((size_t)command.dword12 + 1) * 4;
    } else if (command.opcode != 0x00) {
        command.dword12 = some_blocks(shape) - 1;
        command.length = ((size_t)command.dword12 + 1) * shape->block;
    }
    return command;
}

// Sends a command through the port. Rooms begin at any address that is a multiple of four.
static uint16_t send_through(uint64_t session, uint64_t *moment, const struct command *command, size_t shift,
                             uint64_t *value) {
    uint8_t entry[64];
    bool gives = (command->opcode & 1) != 0 && command->length != 0;
    put_entry(entry, command->opcode, command->address, command->dword12, command->dword13);
    memset(first_room + shift, 0xee, gives ? 0 : command->length);
    return zonedisk_submit(session, moment, entry, bytes, gives ? command->length : 0, 0, first_room + shift,
                           gives ? 0 : command->length, value);
}

// Sends a command straight to the drive. A refused command has no result.
static uint16_t send_straight(struct drive *drive, struct command *command, uint64_t *value) {
    command->data = (command->opcode & 1) != 0 ? bytes : second_room;
    if (command->data == second_room) memset(second_room, 0xee, command->length);
    enum status status = do_command(drive, command, value);
    if (status != DONE) *value = 0;
    return (uint16_t)status;
}

static bool drives_agree(const struct drive *one, const struct drive *other, bool with_bytes) {
    const struct shape *shape = &one->shape;
    size_t length = (size_t)shape->zones * shape->size * shape->block;
    return memcmp(one->zones, other->zones, shape->zones * sizeof *one->zones) == 0 &&
           (!with_bytes || memcmp(one->bytes, other->bytes, length) == 0);
}

static bool compare_once(uint64_t session, uint64_t *moment, struct drive *straight) {
    struct command command = some_command(&straight->shape);
    uint64_t first_value, second_value;
    size_t shift = 4 * below(2);
    for (int i = 0; i < 32; i++) bytes[below(sizeof bytes)] = (uint8_t)random();
    uint16_t first = send_through(session, moment, &command, shift, &first_value);
    uint16_t second = send_straight(straight, &command, &second_value);
    by_status[first]++;
    bool returns = first == DONE && (command.opcode & 1) == 0;
    return expect(first == second, "the statuses differ") && expect(first_value == second_value, "the values differ") &&
           expect(!returns || memcmp(first_room + shift, second_room, command.length) == 0, "the bytes differ") &&
           expect(drives_agree(&world.drive, straight, false), "the zones differ");
}

static void compare(const struct shape *shape, int commands) {
    uint64_t session, moment, number;
    begin_world(shape);
    struct drive straight = new_drive(shape);
    expect(zonedisk_open((const uint8_t *)"/dev/ng0n1", 10, &session, &number) == OPENED, "it is not opened");
    expect(zonedisk_begin(session, shape, first_room, 64 + 64 * (size_t)shape->zones, &moment) == BEGUN,
           "it does not begin");
    for (int i = 0; i < commands; i++) {
        if (compare_once(session, &moment, &straight)) continue;
        printf("at command %d\n", i);
        break;
    }
    expect(drives_agree(&world.drive, &straight, true), "the blocks differ");
    free_drive(&straight);
    end_world();
}

int main(void) {
    static char told[1 << 16];
    FILE *kept = stderr;
    stderr = fmemopen(told, sizeof told, "w");
    srandom(1);
    compare(&(struct shape){4096, 12, 300, 280, 256, 5, 3}, COMMANDS / 4);
    compare(&(struct shape){512, 40, 64, 60, 32, 14, 14}, COMMANDS / 2);
    compare(&(struct shape){512, 9, 2048, 2000, 256, 3, 2}, COMMANDS / 4);
    fclose(stderr);
    stderr = kept;
    expect(strstr(told, "as it should") == NULL, "zones are said to be other than they should be");
    for (unsigned i = 0; i < 0x10000; i++) {
        if (by_status[i] != 0) printf("status %03x: %lu commands\n", i, by_status[i]);
    }
    return end_checks("random commands");
}
