// What the crate's main.rt declares: a program that is asked how far it is.
#pragma once

// From now on SIGUSR1 tells on standard error what was asked of drives so far, and changes nothing else. If it was
// ignored before, it stays so.
void zonedisk_tell_on_signal(void);
