// Tells people what no reply can.
#include "tell.h"
#include <inttypes.h>
#include <stdbool.h>
#include <stdio.h>

void zonedisk_tell_unsynced(void) {
    fputs("zonedisk: the system could not write what an earlier program wrote: what was not flushed may be lost\n", stderr);
}

void zonedisk_tell_set_back(void) {
    fputs("zonedisk: the file does not show what was written since the last flush: its zones are those of that flush\n", stderr);
}

void zonedisk_tell_unknown_boot(void) {
    static bool is_told;
    if (is_told) return;
    is_told = true;
    fputs("zonedisk: the boot of the system is not known: if the program is killed, what was not flushed is lost\n", stderr);
}

void zonedisk_tell_copied(void) {
    fputs("zonedisk: the file is a copy of a drive that was in use: its blocks may be of different moments\n", stderr);
}

void zonedisk_tell_beside(void) {
    fputs("zonedisk: another program has the drive: it is shown as of one moment, its open zones as Closed\n", stderr);
}

void zonedisk_tell_length(uint64_t bytes) {
    fprintf(stderr, "zonedisk: the file of this drive has to have %" PRIu64 " bytes: truncate -s %" PRIu64
            " gives that length to a copy, and added bytes are zeros\n", bytes, bytes);
}

void zonedisk_tell_changed(void) {
    fputs("zonedisk: another program has changed the drive meanwhile, so it cannot be shown: try again\n", stderr);
}
