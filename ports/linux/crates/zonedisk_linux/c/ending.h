// What the crate's main.rt declares: a served disk that is asked to end.
#pragma once

// From now on SIGINT and SIGTERM end standard input: whoever reads it finds its end there. Standard error says so. If one
// of them comes again, more than a second later, the program ends at once with the status 1. A signal that was ignored
// before stays so.
void zonedisk_end_input_on_signals(void);
