// Tells people of commands that a drive does not do.
#include "parts.h"
#include <stdio.h>

// At most so many are told in a process.
enum { MOST_TOLD = 20 };

enum { FLUSH = 0x00, READ = 0x02, SEND = 0x79, RECEIVE = 0x7a, APPEND = 0x7d };

// What the standards call the statuses of the medium and of data.
static const char *name_of_medium(uint16_t status) {
    switch (status) {
    case 0x280: return ", Write Fault";
    case 0x281: return ", Unrecovered Read Error";
    case 0x282: return ", End-to-end Guard Check Error";
    case 0x283: return ", End-to-end Application Tag Check Error";
    case 0x284: return ", End-to-end Reference Tag Check Error";
    case 0x285: return ", Compare Failure";
    case 0x286: return ", Access Denied";
    case 0x287: return ", Deallocated or Unwritten Logical Block";
    case 0x288: return ", End-to-End Storage Tag Check Error";
    default: return "";
    }
}

// What they call those of zones, and of a drive that fails or is write protected.
static const char *name_of(uint16_t status) {
    switch (status) {
    case 0x006: return ", Internal Error";
    case 0x020: return ", Namespace is Write Protected";
    case 0x182: return ", Attempted Write to Read Only Range";
    case 0x1b8: return ", Zoned Boundary Error";
    case 0x1b9: return ", Zone Is Full";
    case 0x1ba: return ", Zone Is Read Only";
    case 0x1bb: return ", Zone Is Offline";
    case 0x1bc: return ", Zone Invalid Write";
    case 0x1bd: return ", Too Many Active Zones";
    case 0x1be: return ", Too Many Open Zones";
    case 0x1bf: return ", Invalid Zone State Transition";
    default: return name_of_medium(status);
    }
}

static const char *name_of_action(uint8_t action) {
    static const char *const names[] = {"0", "Close", "Finish", "Open", "Reset", "Offline"};
    return action < sizeof names / sizeof *names ? names[action] : "of another kind";
}

// Writes what a command asked for, of a drive whose zones have so many blocks.
static void describe(const uint8_t *entry, uint32_t size, char *text, size_t room) {
    unsigned long long address = number_at(entry, 40, 8), blocks = number_at(entry, 48, 2) + 1;
    unsigned long long zone = address / size, offset = address % size;
    const char *plural = blocks == 1 ? "" : "s";
    switch (entry[0]) {
    case FLUSH: snprintf(text, room, "a Flush"); break;
    case READ:
        snprintf(text, room, "a Read of %llu block%s at block %llu of zone %llu", blocks, plural, offset, zone);
        break;
    case APPEND: snprintf(text, room, "an Append of %llu block%s to zone %llu", blocks, plural, zone); break;
    case SEND: snprintf(text, room, "the action %s on zone %llu", name_of_action(entry[52]), zone); break;
    case RECEIVE: snprintf(text, room, "a report from zone %llu on", zone); break;
    default: snprintf(text, room, "a command with the opcode %02xh", entry[0]); break;
    }
}

void tell_refused(const uint8_t *entry, uint32_t size, uint16_t status) {
    static uint64_t last = UINT64_MAX;
    static int told;
    char text[96];
    // A Read that is sent once more is told once.
    uint64_t address = entry[0] == READ ? number_at(entry, 40, 8) : UINT64_MAX;
    if (told == MOST_TOLD || (address == last && address != UINT64_MAX)) return;
    last = address;
    describe(entry, size, text, sizeof text);
    if (status == NOT_ANSWERED) fprintf(stderr, "zonedisk: the drive did not answer %s\n", text);
    else fprintf(stderr, "zonedisk: the drive answered %s by status %03Xh%s\n", text, status, name_of(status));
    if (++told == MOST_TOLD) fprintf(stderr, "zonedisk: no more such answers are told\n");
}
