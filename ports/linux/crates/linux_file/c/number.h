// The number by which a file is told from its copies.
#pragma once
#include <stdint.h>

// A number of a file that is open. It stays the same as long as the file is there, also when it is renamed, and after
// a new start of Linux. A copy has another one, but for a chance of 1 in 2^32. Where the file system changes the numbers
// of its inodes by itself, as some do that a program serves, it changes, too.
uint32_t number_of_file(int file);
