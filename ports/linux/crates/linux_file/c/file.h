// What the crate's kernel.rt declares: regular files of Linux, whose length stays the same.
//
// There is no format here. C opens and locks a file, and passes reads, writes and syncs. A session is one file, from
// its opening to its closing. Its number is never used again. A session begins at moment 0. Each change that is asked
// leads to the next moment: a write, a write of a word, a sync, a release. A call at another moment, or of a session
// that is not open, ends the process.
//
// A result is 0 where the call is done, or else the number of an error of the system. It is EINVAL for a range that is
// not within the file. After a sync that failed it is EIO for each later call of the session, but for the write of a
// word. For Linux may have let go of what was written, and a read could return older bytes.
//
// An error of the system is told on standard error, once in a session for reads, for writes and for syncs.
#pragma once
#include <stdbool.h>
#include <stddef.h>
#include <stdint.h>

// Why a file is not opened or made, beside the errors of the system. Those have smaller numbers.
enum refusal {
    NOT_REGULAR = 0x10000, // a folder, a device, a pipe
    LOCKED = 0x10001,      // another program has it, and one of the two wants to change it
    EXISTS = 0x10002,      // a new file was asked for, and something is there
    CHANGING = 0x10003,    // another program changes the first bytes all the time
};

// Opens and locks a file that is there, and tells its length in bytes. It is ESTALE if another file came to its place
// meanwhile. A file that is only read is locked against
// changes alone. One that may be changed is synced, so that what earlier programs wrote is on the disk. If that fails,
// the first sync of the session says so.
uint32_t zonedisk_file_open(const uint8_t *path, size_t length, bool is_writable, uint64_t *size, uint64_t *session);

// Opens a file that is there to look at it, beside a program that may change it, and tells its length. It can only be
// read, and is not locked.
uint32_t zonedisk_file_look(const uint8_t *path, size_t length, uint64_t *size, uint64_t *session);

// Holds so many first bytes of a file in memory, as they are at one moment. From then on the session shows the file as
// of that moment. Each read of later bytes looks at the first ones in the file again. Once they have changed, it gives
// ESTALE, a line on standard error says so, and each later call gives EIO. A read of both kinds of bytes gives EINVAL.
// It is CHANGING if none of many tries sees the first bytes twice in the same way.
uint32_t zonedisk_file_hold(uint64_t session, uint64_t *moment, uint64_t length);

// Makes and locks a file of so many zeros, and syncs it and its folder. Where that fails, it is removed again. So it is at
// the end of its session, if a write or a sync of it failed.
uint32_t zonedisk_file_create(const uint8_t *path, size_t length, uint64_t size, uint64_t *session);

// Fills the room. It is EIO where the file has become shorter and has no such bytes.
uint32_t zonedisk_file_read(uint64_t session, uint64_t moment, uint64_t at, uint8_t *room, size_t length);

// Writes a range. After an error any part of it may be written.
uint32_t zonedisk_file_write(uint64_t session, uint64_t *moment, uint64_t at, const uint8_t *bytes, size_t length);

// Writes 8 bytes at a multiple of 8, or none of them. Linux writes them as one. If it ever writes some and then fails,
// the process ends. After a sync that failed, programs that open the file later read these bytes.
uint32_t zonedisk_file_write_word(uint64_t session, uint64_t *moment, uint64_t at, const uint8_t word[8]);

// Brings all that was written to the disk. Where that fails, Linux may show older bytes from now on, in this boot too.
// It is ENOENT if the file had a name at the opening and no name leads to it any more, since it was removed or replaced:
// standard error says so. If the file has another name now, that is only told.
uint32_t zonedisk_file_sync(uint64_t session, uint64_t *moment);

// Gives the room of a range back to the file system. Then the range has zeros, or it is as it was where the file system
// cannot do that. It is not said which: what fails here costs room alone.
void zonedisk_file_release(uint64_t session, uint64_t *moment, uint64_t at, uint64_t length);

// The number of the file of a session, by which it is told from its copies (`number.h`).
uint32_t zonedisk_file_number(uint64_t session);

// Closes the file of a session, at any moment. Its lock is given back. It is told if no name leads to the file.
void zonedisk_file_close(uint64_t session);
