// What this process asked of Linux so far, by all sessions of files. A handler of a signal may ask for it.
#pragma once
#include <stdint.h>

// Calls of the crate, the bytes that were moved by them, and syncs of files.
enum file_count { FILE_READS, FILE_BYTES_READ, FILE_WRITES, FILE_BYTES_WRITTEN, FILE_SYNCS, FILE_COUNTS };

uint64_t zonedisk_file_count(enum file_count which);
