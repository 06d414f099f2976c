// Looks at wrong moments, at many sessions, and at the locks that other programs meet.
//
// usage: session_checks FOLDER   with an empty folder
#define _GNU_SOURCE
#include "session.h"
#include <fcntl.h>
#include <sys/sysmacros.h>

static uint8_t bytes[100], room[100];

// A second session beside the one that is tried.
static uint64_t other;

static void write_at(uint64_t session, uint64_t moment) { zonedisk_file_write(session, &moment, 0, bytes, 1); }
static void write_in_past(uint64_t session) { write_at(session, 0); }
static void write_in_future(uint64_t session) { write_at(session, 4); }
static void write_now(uint64_t session) { write_at(session, 3); }
static void write_nowhere(uint64_t session) { (void)session, write_at(0, 0); }
static void write_nothing_in_past(uint64_t session) {
    uint64_t moment = 2;
    zonedisk_file_write(session, &moment, 0, bytes, 0);
}
static void word_in_past(uint64_t session) {
    uint64_t moment = 2;
    zonedisk_file_write_word(session, &moment, 4, bytes);
}
static void sync_in_past(uint64_t session) {
    uint64_t moment = 2;
    zonedisk_file_sync(session, &moment);
}
static void release_in_past(uint64_t session) {
    uint64_t moment = 2;
    zonedisk_file_release(session, &moment, 0, 1);
}
static void read_in_past(uint64_t session) { zonedisk_file_read(session, 2, 0, room, 0); }
static void read_closed(uint64_t session) {
    zonedisk_file_close(session);
    zonedisk_file_read(session, 3, 0, room, 1);
}
static void read_reused(uint64_t session) {
    zonedisk_file_close(session);
    if (new_file("third", 100) != 0) zonedisk_file_read(session, 0, 0, room, 1);
}
static void close_twice(uint64_t session) {
    zonedisk_file_close(session);
    zonedisk_file_close(session);
}
static void tear_word(uint64_t session) {
    uint64_t moment = 3;
    calls = (struct calls){.write_error = EIO, .writes_left = 1, .most_bytes = 3};
    zonedisk_file_write_word(session, &moment, 0, bytes);
}
// The limit for the length of a file falls into a word, so that Linux writes half of it.
static void tear_by_limit(uint64_t session) {
    const struct rlimit limit = {20, 20};
    uint64_t moment = 3;
    signal(SIGXFSZ, SIG_IGN);
    if (setrlimit(RLIMIT_FSIZE, &limit) == 0) zonedisk_file_write_word(session, &moment, 16, bytes);
}
// So it is after a failed sync.
static void tear_after_sync(uint64_t session) {
    uint64_t moment = 3;
    calls = (struct calls){.data_error = EIO};
    zonedisk_file_sync(session, &moment);
    calls = (struct calls){.write_error = EIO, .writes_left = 1, .most_bytes = 3};
    zonedisk_file_write_word(session, &moment, 0, bytes);
}
static void use_both(uint64_t session) {
    write_now(session);
    write_at(other, 0);
}

static void try_moments(void) {
    other = new_file("other", 50);
    uint64_t session = new_file(PATH, 100), moment = 0;
    zonedisk_file_write(session, &moment, 0, bytes, 1);
    zonedisk_file_write_word(session, &moment, 0, bytes);
    zonedisk_file_sync(session, &moment);
    zonedisk_file_read(session, moment, 0, room, 1);
    expect(moment == 3, "each change is one moment");
    expect(aborts(write_in_past, session) && aborts(write_nothing_in_past, session), "a write in the past");
    expect(aborts(write_in_future, session), "a write in the future");
    expect(aborts(word_in_past, session), "a word in the past");
    expect(aborts(sync_in_past, session), "a sync in the past");
    expect(aborts(release_in_past, session), "a release in the past");
    expect(aborts(read_in_past, session), "a read in the past");
    expect(aborts(write_nowhere, session), "the session 0");
    expect(aborts(read_closed, session), "a session that is closed");
    expect(aborts(read_reused, session), "a session whose place another one has");
    expect(aborts(close_twice, session), "a session that is closed twice");
    expect(aborts(tear_word, session) && aborts(tear_by_limit, session), "a word that is written in part");
    expect(aborts(tear_after_sync, session), "a word that is written in part after a failed sync");
    expect(ends_well(write_now, session) && ends_well(use_both, session), "the present moments of two sessions");
    zonedisk_file_close(session);
    zonedisk_file_close(other);
}

static void try_many_sessions(void) {
    uint64_t sessions[16], session, size;
    unsigned before = open_files();
    zonedisk_file_close(new_file(PATH, 100));
    for (size_t i = 0; i < 16; i++) sessions[i] = old_file(PATH, false, 100);
    expect(open_at(PATH, false, &size, &session) == EMFILE && session == 0, "one session more");
    expect(create_at("more", 1, &session) == EMFILE && access("more", F_OK) != 0, "one new file more");
    zonedisk_file_close(sessions[3]);
    session = old_file(PATH, false, 100);
    expect(session > sessions[15], "a number is used again");
    sessions[3] = session;
    for (size_t i = 0; i < 16; i++) zonedisk_file_close(sessions[i]);
    for (uint64_t i = 1; i < 100; i++) {
        uint64_t later = old_file(PATH, true, 100);
        expect(later == session + i, "the number of a later session");
        zonedisk_file_close(later);
    }
    expect(open_files() == before, "a closed file is open");
}

// A file that is opened stays closed in the programs that this one starts. One that is there is held before, by the first
// number that is free, so it gets the next one.
static void try_kept_back(bool is_new) {
    int file = dup(0);
    close(file);
    if (!is_new) file++;
    uint64_t session = is_new ? new_file(PATH, 100) : old_file(PATH, true, 100);
    expect(fcntl(file, F_GETFD) == FD_CLOEXEC, "a file that other programs get");
    zonedisk_file_close(session);
}

// What another program gets that asks for PATH.
static void get_none(uint64_t session) {
    uint64_t size;
    bool both = open_at(PATH, false, &size, &session) == LOCKED && open_at(PATH, true, &size, &session) == LOCKED;
    _exit(both && session == 0 ? 0 : 1);
}
// Whether Linux shows the lock of PATH. It shows another device for files of some file systems.
static bool is_shown(void) {
    char place[100], line[200];
    bool is_found = false;
    struct stat seen;
    FILE *locks = fopen("/proc/locks", "r");
    if (locks == NULL || stat(PATH, &seen) != 0) return false;
    snprintf(place, sizeof place, " %02x:%02x:%ju ", major(seen.st_dev), minor(seen.st_dev), (uintmax_t)seen.st_ino);
    while (fgets(line, sizeof line, locks) != NULL) is_found = is_found || strstr(line, place) != NULL;
    fclose(locks);
    return is_found;
}
// The line that it gets then on standard error.
static void get_told(uint64_t session) {
    uint64_t size;
    char wanted[100], got[100] = "";
    FILE *told = freopen("told", "w+", stderr);
    bool is_locked = open_at(PATH, false, &size, &session) == LOCKED;
    snprintf(wanted, sizeof wanted, "zonedisk: the process %d has it\n", (int)getppid());
    rewind(stderr);
    bool is_told = told != NULL && fgets(got, sizeof got, told) != NULL && strcmp(got, wanted) == 0;
    _exit(is_locked && is_told && fgets(got, sizeof got, told) == NULL ? 0 : 1);
}
static void get_read_alone(uint64_t session) {
    uint64_t size;
    bool both = open_at(PATH, true, &size, &session) == LOCKED && open_at(PATH, false, &size, &session) == 0;
    _exit(both && size == 100 ? 0 : 1);
}
static void get_it(uint64_t session) {
    uint64_t size;
    _exit(open_at(PATH, true, &size, &session) == 0 ? 0 : 1);
}
static void be_killed(uint64_t session) {
    uint64_t moment = 0;
    session = old_file(PATH, true, 100);
    zonedisk_file_write(session, &moment, 10, bytes, 20);
    raise(SIGKILL);
}

static void try_locks(void) {
    uint64_t session = new_file(PATH, 100);
    expect(ends_well(get_none, 0), "a file that another program changes");
    expect(!is_shown() || ends_well(get_told, 0), "which program has the file");
    zonedisk_file_close(session);
    session = old_file(PATH, false, 100);
    expect(ends_well(get_read_alone, 0), "a file that another program reads");
    zonedisk_file_close(session);
    expect(ends_well(get_it, 0), "a file that another program had");
    memset(bytes, 8, 20);
    int status = end_of(be_killed, 0);
    expect(WIFSIGNALED(status) && WTERMSIG(status) == SIGKILL, "a program that is killed");
    session = old_file(PATH, true, 100);
    expect(zonedisk_file_read(session, 0, 10, room, 20) == 0 && memcmp(room, bytes, 20) == 0, "what it wrote");
    zonedisk_file_close(session);
}

int main(int count, char **words) {
    if (count < 2 || chdir(words[1]) != 0) return 2;
    try_moments();
    try_many_sessions();
    try_kept_back(true);
    try_kept_back(false);
    try_locks();
    return end_checks("session checks");
}
