// Whether a file that is open still has the name by which it was opened.
#pragma once
#include <limits.h>
#include <stdbool.h>
#include <sys/types.h>

// The name of a file, and the file that it led to.
struct named {
    char name[PATH_MAX];
    dev_t device;
    ino_t inode;
    bool is_known; // the file had a name when it was opened, so that it can lose it
};

enum whereabouts {
    AT_ITS_NAME,
    MOVED,   // its name leads to another file or to none, and it has another name
    REMOVED, // no name leads to it, so it ends when it is closed
};

// The name of a file that has just been opened by it.
void take_name(struct named *named, const char *name, int file);

// Where the file is now. What the system does not tell is taken for nothing new.
enum whereabouts find_file(const struct named *named, int file);

// Removes the file, if its name still leads to it: whether that was done.
bool remove_file(const struct named *named);
