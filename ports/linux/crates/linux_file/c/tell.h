// What the crate's kernel.rt declares: lines on standard error.
#pragma once
#include <stdint.h>

// Tells that the sync of a file at its opening has failed.
void zonedisk_tell_unsynced(void);

// Tells that a file does not show what was written since its last flush.
void zonedisk_tell_set_back(void);

// Tells, once in a process, that the boot of the system is not known.
void zonedisk_tell_unknown_boot(void);

// Tells that a file that is read all the same is a copy of a drive that was in use.
void zonedisk_tell_copied(void);

// Tells that a drive is shown beside the program that has its file.
void zonedisk_tell_beside(void);

// Tells how many bytes the file of a drive has to have.
void zonedisk_tell_length(uint64_t bytes);

// Tells that another program changed the drive while this one looked at it.
void zonedisk_tell_changed(void);
