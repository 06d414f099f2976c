// Puts an empty file in the place of standard input when a signal asks the program to end.
//
// A session then finds the end of its input, as if its client were gone: it saves what is to be saved, and the program
// ends. A read that waits is interrupted, since the handler is set without SA_RESTART, and its next try finds the end.
//
// A write to a client that does not read goes on waiting. So a second signal ends the program at once, as a kill would.
// One that comes within a second is taken for the same one: a shell and a program between may both pass it on.
#define _GNU_SOURCE
#include "ending.h"
#include <errno.h>
#include <fcntl.h>
#include <signal.h>
#include <stddef.h>
#include <time.h>
#include <unistd.h>

// A file without a byte.
static int nothing = -1;

static void tell(const char *text, size_t length) {
    ssize_t count = write(STDERR_FILENO, text, length);
    (void)count;
}

// Ends the program, if the signal comes more than a second after the first one.
static void end_again(const struct timespec *first) {
    static const char told[] =
        "zonedisk: a second signal came: the program ends at once, and its last requests may be unanswered\n";
    struct timespec now = *first;
    clock_gettime(CLOCK_MONOTONIC, &now);
    if (now.tv_sec - first->tv_sec < 1 + (now.tv_nsec < first->tv_nsec)) return;
    tell(told, sizeof told - 1);
    _exit(1);
}

// Calls only what a handler may call.
static void end_input(int number) {
    static const char told[] = "zonedisk: a signal came: the session ends, and the disk is saved\n";
    static volatile sig_atomic_t has_come;
    static struct timespec first;
    int kept = errno;
    (void)number;
    if (has_come) {
        end_again(&first);
    } else {
        has_come = 1;
        clock_gettime(CLOCK_MONOTONIC, &first);
        dup2(nothing, STDIN_FILENO);
        tell(told, sizeof told - 1);
    }
    errno = kept;
}

static void end_input_on(int number) {
    struct sigaction old;
    if (sigaction(number, NULL, &old) != 0 || old.sa_handler == SIG_IGN) return;
    struct sigaction new = {.sa_handler = end_input};
    sigemptyset(&new.sa_mask);
    sigaddset(&new.sa_mask, SIGINT);
    sigaddset(&new.sa_mask, SIGTERM);
    sigaction(number, &new, NULL);
}

void zonedisk_end_input_on_signals(void) {
    nothing = open("/dev/null", O_RDONLY | O_CLOEXEC);
    if (nothing < 0) return;
    end_input_on(SIGINT);
    end_input_on(SIGTERM);
}
