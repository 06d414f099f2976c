// What this process sent to real drives so far, by all sessions. A handler of a signal may ask for it.
#pragma once
#include <stdint.h>

// Commands, and the blocks that they name. An Append is a write. Actions are those on zones, as a Reset.
enum device_count {
    DEVICE_READS,
    DEVICE_BLOCKS_READ,
    DEVICE_WRITES,
    DEVICE_BLOCKS_WRITTEN,
    DEVICE_FLUSHES,
    DEVICE_ACTIONS,
    DEVICE_REPORTS,
    DEVICE_COUNTS,
};

uint64_t zonedisk_device_count(enum device_count which);
