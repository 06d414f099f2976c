// Sessions and their moments.
#define _GNU_SOURCE
#include "parts.h"
#include <errno.h>
#include <limits.h>
#include <stdio.h>
#include <stdlib.h>
#include <string.h>

#define MOST_SESSIONS 16

// No moment: a session that has not begun, or that took a command without a contract.
#define NO_MOMENT UINT64_MAX

struct session {
    struct namespace_devices devices;
    uint32_t block; // 0 before it has begun
    uint64_t moment;
    struct known_zones known;
};

static struct session sessions[MOST_SESSIONS];
static uint64_t opened;

// Ends the process: what is proved of a drive holds only of the present moment of a session that there is.
static _Noreturn void end_process(const char *why) {
    fprintf(stderr, "zonedisk: %s\n", why);
    abort();
}

static struct session *session_of(uint64_t number) {
    if (number >= opened) end_process("there is no such session of a drive");
    return &sessions[number];
}

uint32_t zonedisk_open(const uint8_t *path, size_t length, uint64_t *session, uint64_t *number) {
    char name[PATH_MAX];
    *session = NO_MOMENT;
    *number = EMFILE;
    if (opened == MOST_SESSIONS) return TOO_MANY_SESSIONS;
    *number = EINVAL;
    if (length == 0 || length >= sizeof name || memchr(path, 0, length) != NULL) return BAD_PATH;
    memcpy(name, path, length);
    name[length] = 0;
    struct session *new = &sessions[opened];
    enum refusal refusal = open_namespace(name, &new->devices, number);
    if (refusal != OPENED) return refusal;
    new->block = 0;
    new->moment = NO_MOMENT;
    *session = opened++;
    return OPENED;
}

uint16_t zonedisk_admin(uint64_t session, uint32_t opcode, uint32_t namespace_of_its_own, uint32_t dword10,
                        uint32_t dword11, uint8_t *page, size_t length, uint32_t *result) {
    const uint32_t dwords[2] = {dword10, dword11};
    *result = 0;
    if (opcode > UINT8_MAX) return NOT_ANSWERED;
    return pass_admin(&session_of(session)->devices, (uint8_t)opcode, namespace_of_its_own != 0, dwords, page, length,
                      result);
}

uint32_t zonedisk_begin(uint64_t session, const struct shape *shape, uint8_t *report, size_t length, uint64_t *moment) {
    struct session *begun = session_of(session);
    *moment = NO_MOMENT;
    if (begun->block != 0 || shape->block == 0 || length != report_length(shape->zones)) return NOT_BEGUN;
    if (!takes_transfer(&begun->devices, shape->block, shape->transfer)) return NO_TRANSFER;
    if (!read_zones(&begun->devices, shape->size, shape->zones, report)) return NO_REPORT;
    begun->block = shape->block;
    know_zones(&begun->known, shape, report);
    begun->moment = 0;
    *moment = 0;
    return BEGUN;
}

uint16_t zonedisk_submit(uint64_t session, uint64_t *moment, const uint8_t entry[64], const uint8_t *bytes,
                         size_t length, uint64_t end, uint8_t *room, size_t room_length, uint64_t *value) {
    (void)end;
    struct session *used = session_of(session);
    if (*moment == NO_MOMENT || *moment != used->moment) end_process("a command to a drive at a moment that is past");
    const struct request request = {entry, bytes, length, room, room_length};
    uint16_t status = pass_command(&used->devices, used->block, &request, value);
    if (status != 0) tell_refused(entry, used->known.size, status);
    follow_command(&used->known, &request, status, *value);
    *moment = ++used->moment;
    return status;
}

uint16_t zonedisk_raw(uint64_t session, const uint8_t entry[64], const uint8_t *bytes, size_t length, uint8_t *room,
                      size_t room_length, uint64_t *value) {
    struct session *used = session_of(session);
    const struct request request = {entry, bytes, length, room, room_length};
    used->moment = NO_MOMENT;
    return pass_command(&used->devices, used->block, &request, value);
}

void zonedisk_tell(const uint8_t *text, size_t length) {
    fprintf(stderr, "zonedisk: %.*s\n", (int)length, (const char *)text);
}
