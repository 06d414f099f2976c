// The calls of the system that the port makes. They are the system's own, but for what a test asks for here. The linker
// puts them in place of the system's (--wrap).
#pragma once
#include <stdbool.h>
#include <stddef.h>

// An error is the number of one, or 0 where the call is the system's.
struct calls {
    size_t most_bytes;      // the most that one call reads or writes, or 0 for all
    unsigned interruptions; // so many of the next reads, writes and holes are interrupted first
    unsigned changes;       // so many of the next reads of the first byte of a file find it changed
    unsigned writes_left;   // so many writes are done before one fails by `write_error`
    int read_error, write_error, data_error, lock_error, look_error, length_error, file_error, folder_error,
        hole_error;
    void (*at_open)(void); // what other programs do before a file is opened that was looked at
    bool has_no_proc;      // such a file cannot be opened by /proc
    bool has_no_birth;     // the system does not tell when a file was made
    bool has_no_statx;     // it has no such call at all
    const char *boot_path; // what is read for the identifier of the boot, or NULL for the system's
    unsigned reads, writes, data_syncs, file_syncs, folder_syncs, advices, holes; // how many were made
    unsigned boot_reads; // how often that was opened
};

extern struct calls calls;
