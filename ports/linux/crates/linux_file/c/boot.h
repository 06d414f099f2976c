// What the crate's kernel.rt declares: the boot that Linux is in.
#pragma once
#include <stdint.h>

// Tells the identifier that Linux gave this boot, the first 16 of its digits in the first word. Both words are 0 where
// that cannot be read, or is no identifier, or has a second word that is 0. Linux is asked at the first call alone.
// Each later call of the process gives the same words.
void zonedisk_boot(uint64_t *first, uint64_t *second);
