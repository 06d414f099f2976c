// Looks at files beside the program that has them.
//
// usage: look_checks FOLDER   with an empty folder
#define _GNU_SOURCE
#include "session.h"
#include <fcntl.h>

enum { SIZE = 250000, FIRST = 200000, LOST = ESTALE };

static uint8_t bytes[SIZE], room[SIZE];

static uint32_t look_at(const char *path, uint64_t *size, uint64_t *session) {
    return zonedisk_file_look((const uint8_t *)path, strlen(path), size, session);
}

// A session that looks at PATH.
static uint64_t looking(void) {
    uint64_t session, size;
    expect(look_at(PATH, &size, &session) == 0 && session != 0 && size == SIZE, "a file that is looked at");
    return session;
}

// The same, which holds the first bytes.
static uint64_t holding(void) {
    uint64_t session = looking(), moment = 0;
    expect(zonedisk_file_hold(session, &moment, FIRST) == 0 && moment == 1, "first bytes that are held");
    return session;
}

// A new file in which each byte is a number, and the session that may change it.
static uint64_t served_file(uint8_t number) {
    uint64_t session = new_file(PATH, SIZE), moment = 0;
    memset(bytes, number, SIZE);
    expect(zonedisk_file_write(session, &moment, 0, bytes, SIZE) == 0, "a file that is served");
    return session;
}

// Changes a byte of such a file, at its next moment.
static void change(uint64_t session, uint64_t moment, uint64_t at) {
    const uint8_t other = 99;
    expect(zonedisk_file_write(session, &moment, at, &other, 1) == 0, "a change of the file");
}

static bool reads(uint64_t session, uint64_t moment, uint64_t at, size_t length) {
    memset(room, 7, SIZE);
    return zonedisk_file_read(session, moment, at, room, length) == 0 && memcmp(room, bytes, length) == 0;
}

static uint32_t answer(uint64_t session, uint64_t moment, uint64_t at, size_t length) {
    return zonedisk_file_read(session, moment, at, room, length);
}

// The same where a line on standard error is part of it.
static uint32_t quiet_answer(uint64_t session, uint64_t moment, uint64_t at, size_t length) {
    int kept = dup(2), nothing = open("/dev/null", O_WRONLY);
    dup2(nothing, 2);
    uint32_t number = answer(session, moment, at, length);
    dup2(kept, 2);
    close(kept);
    close(nothing);
    return number;
}

static void try_look(void) {
    uint64_t served = served_file(5), session, size;
    unsigned before = open_files();
    uint64_t seen = looking();
    expect(reads(seen, 0, 0, SIZE) && reads(seen, 0, SIZE - 1, 1), "the bytes of a file that another session has");
    expect(answer(seen, 0, SIZE, 1) == EINVAL, "a byte past the end");
    zonedisk_file_close(seen);
    expect(open_files() == before, "a file that was looked at is open");
    zonedisk_file_close(served);
    expect(look_at(".", &size, &session) == NOT_REGULAR && session == 0, "a look at a folder");
    expect(look_at("absent", &size, &session) == ENOENT && session == 0, "a look at nothing");
    expect(look_at("", &size, &session) == EINVAL && session == 0, "a look without a path");
    calls = (struct calls){.look_error = EIO};
    expect(look_at(PATH, &size, &session) == EIO && session == 0, "a file of which no length is told");
    calls = (struct calls){0};
    expect(open_files() == before - 1, "a file that could not be looked at is open");
}

// Nothing of a look is written, and nobody is kept away by it.
static void try_unlocked(void) {
    zonedisk_file_close(served_file(5));
    uint64_t seen = holding(), moment = 1;
    calls = (struct calls){0};
    expect(zonedisk_file_write(seen, &moment, 0, room, 1) == EBADF, "a write of a file that is looked at");
    expect(zonedisk_file_write_word(seen, &moment, 0, room) == EBADF, "a word of such a file");
    zonedisk_file_release(seen, &moment, 0, SIZE);
    uint64_t other = old_file(PATH, true, SIZE);
    expect(reads(other, 0, 0, SIZE), "what a look leaves");
    zonedisk_file_close(other);
    zonedisk_file_close(seen);
}

static void try_held(void) {
    uint64_t served = served_file(5), seen = holding(), moment = 1;
    expect(zonedisk_file_hold(seen, &moment, FIRST) == EINVAL && moment == 2, "bytes that are held twice");
    expect(reads(seen, 2, FIRST, SIZE - FIRST), "later bytes of a file that stays");
    change(served, 1, SIZE - 1);
    expect(reads(seen, 2, FIRST, 10), "later bytes while the first ones stay");
    change(served, 2, 3);
    expect(reads(seen, 2, 0, FIRST) && reads(seen, 2, 3, 1), "first bytes that are held");
    expect(answer(seen, 2, FIRST - 1, 2) == EINVAL, "a read of both kinds of bytes");
    expect(answer(seen, 2, SIZE, 1) == EINVAL && reads(seen, 2, 0, 1), "a byte past the end does no harm");
    expect(quiet_answer(seen, 2, FIRST, 1) == LOST, "later bytes once the first ones have changed");
    expect(answer(seen, 2, 0, 1) == EIO && answer(seen, 2, FIRST, 1) == EIO, "each call after that");
    zonedisk_file_close(seen);
    seen = holding();
    expect(answer(seen, 1, 3, 1) == 0 && room[0] == 99 && answer(seen, 1, FIRST, 1) == 0, "a second look");
    zonedisk_file_close(seen);
    zonedisk_file_close(served);
}

// A change that is under way when the first bytes are read.
static void try_changing(void) {
    uint64_t served = served_file(5), seen = looking(), moment = 0;
    calls = (struct calls){.changes = 3};
    expect(zonedisk_file_hold(seen, &moment, FIRST) == 0 && reads(seen, 1, 0, FIRST), "a file that comes to rest");
    expect(calls.reads == 5 && calls.changes == 0, "it is read until it is twice the same");
    zonedisk_file_close(seen);
    seen = looking(), moment = 0;
    calls = (struct calls){.changes = -1};
    expect(zonedisk_file_hold(seen, &moment, FIRST) == CHANGING && moment == 1, "a file that never rests");
    calls = (struct calls){0};
    expect(zonedisk_file_hold(seen, &moment, FIRST) == 0 && reads(seen, 2, 0, FIRST), "the next try");
    zonedisk_file_close(seen);
    zonedisk_file_close(served);
}

static void try_calls(void) {
    uint64_t served = served_file(6), seen = looking(), moment = 0;
    calls = (struct calls){.interruptions = 9, .most_bytes = 777};
    expect(zonedisk_file_hold(seen, &moment, FIRST) == 0 && reads(seen, 1, FIRST, 100), "calls that do less");
    zonedisk_file_close(seen);
    seen = looking(), moment = 0;
    calls = (struct calls){.read_error = EIO};
    expect(zonedisk_file_hold(seen, &moment, FIRST) == EIO, "first bytes that cannot be read");
    calls = (struct calls){0};
    expect(zonedisk_file_hold(seen, &moment, 0) == EINVAL, "no bytes to hold");
    expect(zonedisk_file_hold(seen, &moment, SIZE + 1) == EINVAL, "more bytes than there are");
    expect(zonedisk_file_hold(seen, &moment, SIZE) == 0 && reads(seen, moment, 0, SIZE), "all bytes");
    zonedisk_file_close(seen);
    seen = holding();
    calls = (struct calls){.read_error = EIO};
    expect(answer(seen, 1, FIRST, 1) == EIO && answer(seen, 1, 0, 1) == 0, "later bytes that cannot be read");
    calls = (struct calls){0};
    expect(reads(seen, 1, FIRST, 1), "and then they can");
    zonedisk_file_close(seen);
    zonedisk_file_close(served);
}

// Writes one number after the other to two words of a file, the first word first.
static void write_on(uint64_t served) {
    uint64_t moment = 1;
    for (uint64_t number = 1;; number++) {
        zonedisk_file_write_word(served, &moment, 0, (const uint8_t *)&number);
        zonedisk_file_write_word(served, &moment, FIRST - 8, (const uint8_t *)&number);
    }
}

// Whether the two words are of one moment in a look beside that, or there was no moment to look.
static bool is_of_one_moment(void) {
    uint64_t seen = looking(), moment = 0, first = 0, second = 0;
    uint32_t number = zonedisk_file_hold(seen, &moment, FIRST);
    if (number != 0) {
        zonedisk_file_close(seen);
        return number == CHANGING;
    }
    zonedisk_file_read(seen, 1, 0, (uint8_t *)&first, 8);
    zonedisk_file_read(seen, 1, FIRST - 8, (uint8_t *)&second, 8);
    zonedisk_file_close(seen);
    return first == second || first == second + 1;
}

// A program that changes the first bytes as fast as it can.
static void try_race(void) {
    uint64_t served = served_file(0);
    pid_t child = fork();
    if (child == 0) write_on(served);
    for (unsigned i = 0; i < 500; i++) expect(is_of_one_moment(), "a moment beside a program that writes");
    kill(child, SIGKILL);
    waitpid(child, NULL, 0);
    zonedisk_file_close(served);
}

static void hold_in_past(uint64_t session) {
    uint64_t moment = 0;
    zonedisk_file_hold(session, &moment, FIRST);
}
static void hold_nowhere(uint64_t session) {
    (void)session, hold_in_past(0);
}

static void try_moments(void) {
    uint64_t served = served_file(5), seen = holding();
    expect(aborts(hold_in_past, seen) && aborts(hold_nowhere, seen), "a hold at another moment, or of no session");
    zonedisk_file_close(seen);
    zonedisk_file_close(served);
}

// Another program that looks, while this one changes the file, and what it is told: one line.
static void be_told(uint64_t served) {
    char got[200] = "", more[200];
    uint64_t seen = holding();
    change(served, 1, 0);
    FILE *told = freopen("told", "w+", stderr);
    bool is_lost = answer(seen, 1, FIRST, 1) == LOST && answer(seen, 1, FIRST, 1) == EIO;
    rewind(stderr);
    bool is_told = told != NULL && fgets(got, sizeof got, told) != NULL && strstr(got, "try again\n") != NULL;
    _exit(is_lost && is_told && fgets(more, sizeof more, told) == NULL ? 0 : 1);
}

int main(int count, char **words) {
    if (count < 2 || chdir(words[1]) != 0) return 2;
    try_look();
    try_unlocked();
    try_held();
    try_changing();
    try_calls();
    try_race();
    try_moments();
    uint64_t served = served_file(5);
    expect(ends_well(be_told, served), "what people are told of a change");
    zonedisk_file_close(served);
    return end_checks("look checks");
}
