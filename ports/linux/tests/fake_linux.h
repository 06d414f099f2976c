// The calls of the system that the port makes, answered by a world of the test's own. The linker puts them in place of
// the system's (--wrap).
#pragma once
#include "fake_drive.h"
#include <sys/types.h>

// The number of the one namespace. The entries of a program always name 1.
#define NAMESPACE 7

// The byte of Identify Namespace that says whether the namespace is write protected.
#define NSATTR 99

// An error is the number of one, or 0 where the call succeeds.
struct world {
    struct drive drive;
    int look_error, open_error, identify_error, lock_error, link_error, block_stat_error, block_open_error;
    mode_t mode;            // what is at the path
    int identifier;         // what the character device answers
    const char *link;       // what the system calls the character device
    const char *subsystem;  // what the system says that it belongs to
    int command_error;      // of each command
    int command_status;     // what Linux gives for each command by itself, if it is not 0
    unsigned opened;        // how often the character device was opened
    int open_files;         // how many files are open
    unsigned commands;      // how many commands the drive has got
    size_t most_bytes;      // Linux refuses greater commands
    bool large_pages;       // whether memory that is aligned at 2 MiB is one piece
    struct {
        uint32_t opcode, namespace_number, dword10, dword11;
        size_t length;
    } admin;                // the last admin command
};

extern struct world world;

// A world in which a drive of this shape can be opened.
void begin_world(const struct shape *shape);
void end_world(void);
