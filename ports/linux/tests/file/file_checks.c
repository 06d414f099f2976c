// Looks at each refusal, at reads and writes in parts, at errors of the system, and at a full disk.
//
// usage: file_checks FOLDER [SMALL]   with an empty folder, and one on a file system of 64 KiB
#define _GNU_SOURCE
#include "../../crates/linux_file/c/counts.h"
#include "session.h"
#include <limits.h>

static uint8_t bytes[65536], room[65536];

static void try_paths(void) {
    static char path[5000];
    uint64_t session = 1, size = 1;
    memset(path, 'x', sizeof path - 1);
    expect(open_at("", true, &size, &session) == EINVAL && session == 0 && size == 0, "an empty path");
    expect(open_at(path, true, &size, &session) == EINVAL, "a long path");
    path[PATH_MAX] = 0;
    expect(open_at(path, true, &size, &session) == EINVAL, "a path that is longer by one");
    path[PATH_MAX - 1] = 0;
    expect(open_at(path, true, &size, &session) == ENAMETOOLONG, "a path that only the system refuses");
    path[PATH_MAX - 1] = 'x';
    expect(create_at(path, 1, &session) == EINVAL && session == 0, "a new file with a long path");
    expect(zonedisk_file_open((const uint8_t *)"a\0b", 3, true, &size, &session) == EINVAL, "a path with a byte 0");
}

static void try_refusals(void) {
    uint64_t session, size;
    unsigned before = open_files();
    expect(mkdir("folder", 0700) == 0 && mkfifo("pipe", 0600) == 0, "a folder and a pipe");
    expect(open_at("absent", true, &size, &session) == ENOENT && session == 0, "nothing is there");
    expect(open_at("folder", false, &size, &session) == NOT_REGULAR && session == 0, "a folder");
    expect(open_at("pipe", false, &size, &session) == NOT_REGULAR, "a pipe");
    expect(open_at("/dev/null", true, &size, &session) == NOT_REGULAR, "a device");
    expect(create_at("absent/drive", 1, &session) == ENOENT && session == 0, "a folder that is not there");
    expect(create_at("folder", 1, &session) == EXISTS, "a new file where a folder is");
    expect(symlink("absent", "link") == 0 && create_at("link", 1, &session) == EXISTS, "a new file where a link is");
    expect(create_at(PATH, UINT64_MAX, &session) == EFBIG && session == 0, "a length that no file has");
    expect(access(PATH, F_OK) != 0, "a refused file is left");
    expect(open_files() == before, "a refused file is left open");
}

static void try_new_file(void) {
    struct stat seen;
    const uint64_t size = (uint64_t)1 << 34;
    calls = (struct calls){0};
    umask(026);
    uint64_t session = new_file(PATH, size), number;
    expect(calls.file_syncs == 1 && calls.folder_syncs == 1, "what a new file syncs");
    expect(stat(PATH, &seen) == 0 && (uint64_t)seen.st_size == size && seen.st_blocks < 16, "a sparse file");
    expect((seen.st_mode & 0777) == 0640, "the mode of a new file");
    memset(room, 1, sizeof room);
    expect(zonedisk_file_read(session, 0, size - sizeof room, room, sizeof room) == 0, "the end of a new file");
    expect(memcmp(room, bytes, sizeof room) == 0, "a new file has zeros");
    expect(create_at(PATH, 5, &number) == EXISTS && stat(PATH, &seen) == 0 && (uint64_t)seen.st_size == size,
           "a new file where one is");
    zonedisk_file_close(session);
    session = new_file(PATH, 0);
    expect(zonedisk_file_read(session, 0, 0, room, 0) == 0 && zonedisk_file_read(session, 0, 0, room, 1) == EINVAL,
           "a file of no bytes");
    zonedisk_file_close(session);
}

// A new file that fails half way, and is removed again.
static void fails_new(int *error, const char *what) {
    uint64_t session;
    unsigned before = open_files();
    *error = EIO;
    unlink(PATH);
    expect(create_at(PATH, 4096, &session) == EIO && session == 0, what);
    expect(access(PATH, F_OK) != 0 && open_files() == before, "a new file that failed is left");
    *error = 0;
}

// Another program has locked a new file before this one could.
static void try_locked_new_file(void) {
    uint64_t session;
    calls.lock_error = EWOULDBLOCK;
    unlink(PATH);
    expect(create_at(PATH, 4096, &session) == LOCKED && access(PATH, F_OK) == 0, "a new file that another program has");
    calls.lock_error = 0;
}

static void try_failing_new_files(void) {
    fails_new(&calls.lock_error, "a new file that is not locked");
    fails_new(&calls.length_error, "a new file that does not get its length");
    fails_new(&calls.file_error, "a new file that is not synced");
    fails_new(&calls.folder_error, "a folder that is not synced");
    try_locked_new_file();
    calls.folder_error = EINVAL;
    zonedisk_file_close(new_file(PATH, 4096));
    calls.folder_error = 0;
    zonedisk_file_close(new_file("folder/drive", 4096));
    char path[PATH_MAX];
    expect(realpath("folder", path) != NULL && strlen(path) + 6 < sizeof path, "the folder's whole path");
    zonedisk_file_close(new_file(strcat(path, "/whole"), 4096));
}

// A file that is not opened, for an error of the system.
static void fails_old(int *error, uint32_t wanted, const char *what) {
    uint64_t session, size;
    unsigned before = open_files();
    expect(open_at(PATH, true, &size, &session) == wanted && session == 0 && open_files() == before, what);
    *error = 0;
}

static void try_failing_old_files(void) {
    zonedisk_file_close(new_file(PATH, 4096));
    calls = (struct calls){.lock_error = EWOULDBLOCK};
    fails_old(&calls.lock_error, LOCKED, "a locked file");
    calls.lock_error = ENOLCK;
    fails_old(&calls.lock_error, ENOLCK, "a file without locks");
    calls.look_error = EIO;
    fails_old(&calls.look_error, EIO, "a file that cannot be looked at");
    calls = (struct calls){0};
    zonedisk_file_close(old_file(PATH, true, 4096));
    expect(calls.data_syncs == 1 && calls.advices == 1, "what is done before a file is changed");
    zonedisk_file_close(old_file(PATH, false, 4096));
    expect(calls.data_syncs == 1 && calls.advices == 1, "what is done before a file is read");
}

// Linux could not write what an earlier program wrote. It is told by the first sync, and nothing is let go of.
static void try_late_sync(void) {
    uint64_t moment = 0;
    zonedisk_file_close(new_file(PATH, 4096));
    calls = (struct calls){.data_error = EIO};
    uint64_t session = old_file(PATH, true, 4096);
    expect(calls.data_syncs == 1 && calls.advices == 0, "what is done where that fails");
    calls = (struct calls){0};
    expect(zonedisk_file_read(session, moment, 0, room, 80) == 0, "a read before the first sync");
    expect(zonedisk_file_sync(session, &moment) == EIO && calls.data_syncs == 0, "the first sync tells it");
    expect(zonedisk_file_read(session, moment, 0, room, 1) == EIO, "a read after it");
    memset(bytes, 3, 8);
    expect(zonedisk_file_write_word(session, &moment, 72, bytes) == 0 && calls.data_syncs == 1, "a word after it");
    zonedisk_file_close(session);
    calls = (struct calls){.data_error = EIO};
    session = old_file(PATH, false, 4096);
    expect(calls.data_syncs == 0 && zonedisk_file_read(session, 0, 72, room, 8) == 0 && memcmp(room, bytes, 8) == 0,
           "a later program reads that word");
    calls = (struct calls){0};
    zonedisk_file_close(session);
}

static void try_short_counts(void) {
    uint64_t session = new_file(PATH, 1000), moment = 0;
    calls = (struct calls){.most_bytes = 7, .interruptions = 5};
    for (size_t i = 0; i < 100; i++) bytes[i] = (uint8_t)(i + 1);
    expect(zonedisk_file_write(session, &moment, 900, bytes, 100) == 0 && moment == 1, "a write in many parts");
    expect(calls.writes == 5 + 15, "how often a write is asked");
    calls.interruptions = 5;
    expect(zonedisk_file_read(session, moment, 900, room, 100) == 0 && memcmp(room, bytes, 100) == 0,
           "a read in many parts");
    expect(calls.reads == 5 + 15, "how often a read is asked");
    calls.most_bytes = 3;
    calls.interruptions = 2;
    expect(zonedisk_file_write_word(session, &moment, 992, bytes) == 0 && moment == 2, "a word in parts");
    expect(zonedisk_file_read(session, moment, 992, room, 8) == 0 && memcmp(room, bytes, 8) == 0, "a word is written");
    calls = (struct calls){0};
    expect(zonedisk_file_write_word(session, &moment, 984, bytes) == 0 && calls.writes == 1, "a word is one write");
    zonedisk_file_close(session);
}

// What was asked of the system is counted: what is refused before is not.
static void try_counts(void) {
    uint64_t session = new_file(PATH, 100), moment = 0, before[FILE_COUNTS];
    static const uint64_t wanted[FILE_COUNTS] = {2, 41, 3, 50, 2};
    for (int i = 0; i < FILE_COUNTS; i++) before[i] = zonedisk_file_count(i);
    calls = (struct calls){.most_bytes = 7, .interruptions = 3};
    zonedisk_file_read(session, moment, 10, room, 40);
    zonedisk_file_read(session, moment, 99, room, 1);
    zonedisk_file_read(session, moment, 99, room, 2);
    zonedisk_file_write(session, &moment, 0, bytes, 32);
    zonedisk_file_write_word(session, &moment, 8, bytes);
    zonedisk_file_write_word(session, &moment, 9, bytes);
    zonedisk_file_sync(session, &moment);
    calls = (struct calls){.write_error = ENOSPC, .writes_left = 1, .most_bytes = 10};
    zonedisk_file_write(session, &moment, 0, bytes, 30);
    calls = (struct calls){.data_error = EIO};
    zonedisk_file_sync(session, &moment);
    zonedisk_file_sync(session, &moment);
    zonedisk_file_write(session, &moment, 0, bytes, 30);
    for (int i = 0; i < FILE_COUNTS; i++) expect(zonedisk_file_count(i) == before[i] + wanted[i], "what was counted");
    calls = (struct calls){0};
    zonedisk_file_close(session);
}

static void try_ranges(void) {
    uint64_t session = new_file(PATH, 100), moment = 0;
    calls = (struct calls){0};
    expect(zonedisk_file_read(session, moment, 99, room, 2) == EINVAL, "a read past the end");
    expect(zonedisk_file_read(session, moment, 101, room, 0) == EINVAL, "a read of nothing past the end");
    expect(zonedisk_file_read(session, moment, UINT64_MAX, room, 2) == EINVAL, "a read at the greatest offset");
    expect(zonedisk_file_read(session, moment, 1, room, SIZE_MAX) == EINVAL, "a read of the greatest length");
    expect(zonedisk_file_write(session, &moment, 93, bytes, 8) == EINVAL, "a write past the end");
    expect(zonedisk_file_write_word(session, &moment, 96, bytes) == EINVAL, "a word past the end");
    expect(zonedisk_file_write_word(session, &moment, 4, bytes) == EINVAL && moment == 3, "a word that is not aligned");
    expect(calls.reads == 0 && calls.writes == 0, "a wrong range is asked of the system");
    expect(zonedisk_file_read(session, moment, 100, room, 0) == 0, "a read of nothing at the end");
    zonedisk_file_close(session);
}

static void try_errors(void) {
    uint64_t session = new_file(PATH, 100), moment = 0;
    memset(bytes, 5, 100);
    calls = (struct calls){.read_error = EIO, .write_error = ENOSPC};
    expect(zonedisk_file_read(session, moment, 0, room, 1) == EIO, "a read with an error");
    expect(zonedisk_file_write(session, &moment, 0, bytes, 1) == ENOSPC && moment == 1, "a write with an error");
    expect(zonedisk_file_write_word(session, &moment, 8, bytes) == ENOSPC && moment == 2, "a word with an error");
    calls = (struct calls){.write_error = ENOSPC, .writes_left = 1, .most_bytes = 10};
    expect(zonedisk_file_write(session, &moment, 0, bytes, 30) == ENOSPC && moment == 3, "an error after a part");
    calls = (struct calls){0};
    expect(zonedisk_file_read(session, moment, 0, room, 30) == 0 && room[9] == 5 && room[10] == 0, "that part");
    expect(truncate(PATH, 50) == 0, "another program cuts the file");
    expect(zonedisk_file_read(session, moment, 40, room, 10) == 0, "the bytes that are left");
    expect(zonedisk_file_read(session, moment, 40, room, 11) == EIO, "a byte that is gone");
    zonedisk_file_close(session);
}

static void try_failed_sync(void) {
    zonedisk_file_close(new_file(PATH, 100));
    uint64_t session = old_file(PATH, true, 100), moment = 0;
    calls = (struct calls){0};
    expect(zonedisk_file_sync(session, &moment) == 0 && moment == 1 && calls.data_syncs == 1, "a sync");
    calls.data_error = ENOSPC;
    expect(zonedisk_file_sync(session, &moment) == ENOSPC && moment == 2, "a failed sync");
    calls = (struct calls){0};
    expect(zonedisk_file_sync(session, &moment) == EIO && moment == 3, "a sync after a failed one");
    expect(zonedisk_file_read(session, moment, 0, room, 1) == EIO, "a read after a failed sync");
    expect(zonedisk_file_write(session, &moment, 0, bytes, 1) == EIO, "a write after a failed sync");
    expect(calls.reads + calls.writes + calls.data_syncs == 0, "the system is asked after a failed sync");
    expect(zonedisk_file_write_word(session, &moment, 4, bytes) == EINVAL, "a word that is not aligned after it");
    expect(zonedisk_file_write_word(session, &moment, 96, bytes) == EINVAL && calls.writes == 0, "a word past the end");
    expect(zonedisk_file_write_word(session, &moment, 8, bytes) == 0 && moment == 7, "a word after a failed sync");
    expect(calls.writes == 1 && calls.data_syncs == 1, "that word is brought to the disk");
    calls = (struct calls){.data_error = EIO};
    expect(zonedisk_file_write_word(session, &moment, 8, bytes) == 0, "a word that the disk does not take");
    expect(calls.writes == 2 && calls.data_syncs == 1, "that word is written anew");
    calls = (struct calls){.data_error = EIO, .write_error = ENOSPC, .writes_left = 1};
    expect(zonedisk_file_write_word(session, &moment, 8, bytes) == ENOSPC, "a word that cannot be written anew");
    calls = (struct calls){.write_error = EIO};
    expect(zonedisk_file_write_word(session, &moment, 8, bytes) == EIO && calls.data_syncs == 0, "one not at all");
    calls = (struct calls){0};
    expect(zonedisk_file_sync(session, &moment) == EIO && calls.data_syncs == 0, "a sync after all that");
    zonedisk_file_close(session);
    zonedisk_file_close(old_file(PATH, true, 100));
}

// How much room a file takes on the disk, in bytes.
static uint64_t room_of(const char *path) {
    struct stat seen;
    return stat(path, &seen) == 0 ? (uint64_t)seen.st_blocks * 512 : UINT64_MAX;
}

static void try_release(void) {
    uint64_t session = new_file(PATH, 65536), moment = 0;
    memset(bytes, 9, 4096);
    for (uint64_t at = 0; at < 65536; at += 4096) zonedisk_file_write(session, &moment, at, bytes, 4096);
    zonedisk_file_sync(session, &moment);
    uint64_t before = room_of(PATH);
    calls = (struct calls){.interruptions = 2};
    zonedisk_file_release(session, &moment, 8190, 8196);
    expect(moment == 18 && calls.holes == 3, "a release is one change, and is asked again after an interruption");
    expect(room_of(PATH) + 8192 <= before, "the room of a release");
    struct stat seen;
    expect(stat(PATH, &seen) == 0 && seen.st_size == 65536, "the length after a release");
    expect(zonedisk_file_read(session, moment, 8188, room, 4) == 0 && room[1] == 9 && room[2] == 0, "its front");
    expect(zonedisk_file_read(session, moment, 16384, room, 4) == 0 && room[1] == 0 && room[2] == 9, "its end");
    calls = (struct calls){.hole_error = EOPNOTSUPP};
    zonedisk_file_release(session, &moment, 0, 4096);
    expect(moment == 19 && calls.holes == 1, "a release where there are no holes");
    expect(zonedisk_file_read(session, moment, 0, room, 1) == 0 && room[0] == 9, "what stays there");
    calls = (struct calls){0};
    zonedisk_file_release(session, &moment, 65536, 1);
    zonedisk_file_release(session, &moment, 1, UINT64_MAX);
    zonedisk_file_release(session, &moment, 0, 0);
    expect(moment == 22 && calls.holes == 0, "a wrong range is asked of the system");
    calls.data_error = EIO;
    zonedisk_file_sync(session, &moment);
    zonedisk_file_release(session, &moment, 0, 4096);
    expect(moment == 24 && calls.holes == 0, "a release after a failed sync");
    calls = (struct calls){0};
    zonedisk_file_close(session);
}

static void try_read_only(void) {
    zonedisk_file_close(new_file(PATH, 100));
    uint64_t session = old_file(PATH, false, 100), moment = 0;
    expect(zonedisk_file_write(session, &moment, 0, bytes, 1) == EBADF, "a write of a file that is only read");
    expect(zonedisk_file_write_word(session, &moment, 0, bytes) == EBADF, "a word of a file that is only read");
    expect(zonedisk_file_sync(session, &moment) == 0 && moment == 3, "a sync of a file that is only read");
    expect(zonedisk_file_read(session, moment, 0, room, 100) == 0 && room[0] == 0, "a read of such a file");
    zonedisk_file_close(session);
}

// Writes beyond the limit that the process has for the length of a file.
static void write_past_limit(uint64_t session) {
    const struct rlimit limit = {8192, 8192};
    uint64_t moment = 0;
    signal(SIGXFSZ, SIG_IGN);
    memset(bytes, 6, 200);
    bool is_right = setrlimit(RLIMIT_FSIZE, &limit) == 0;
    is_right = is_right && zonedisk_file_write(session, &moment, 8092, bytes, 200) == EFBIG;
    is_right = is_right && zonedisk_file_write_word(session, &moment, 8192, bytes) == EFBIG;
    is_right = is_right && zonedisk_file_write_word(session, &moment, 8184, bytes) == 0;
    is_right = is_right && zonedisk_file_read(session, moment, 8092, room, 200) == 0;
    _exit(is_right && room[99] == 6 && room[100] == 0 ? 0 : 1);
}

static void try_limit(void) {
    uint64_t session = new_file(PATH, 16384);
    expect(ends_well(write_past_limit, session), "writes beyond the limit of a file");
    zonedisk_file_close(session);
}

// A file system with less room than the file is long. What was written before it was full stays.
static void try_full_disk(const char *small) {
    char path[PATH_MAX];
    snprintf(path, sizeof path, "%s/drive", small);
    uint64_t session = new_file(path, 1 << 20), moment = 0;
    uint32_t number = 0;
    uint64_t at = 0;
    memset(bytes, 7, 4096);
    for (; at < 1 << 20 && number == 0; at += 4096) number = zonedisk_file_write(session, &moment, at, bytes, 4096);
    expect(number == ENOSPC && at > 4096, "a full disk");
    expect(zonedisk_file_write_word(session, &moment, (1 << 20) - 8, bytes) == ENOSPC, "a word on a full disk");
    expect(zonedisk_file_read(session, moment, (1 << 20) - 8, room, 8) == 0 && room[0] == 0, "that word");
    expect(zonedisk_file_read(session, moment, 0, room, 4096) == 0 && memcmp(room, bytes, 4096) == 0, "the rest");
    expect(zonedisk_file_write_word(session, &moment, 8, bytes) == 0, "a word where there is room");
    zonedisk_file_close(session);
}

// Sends random calls, in parts and with interruptions, and to a memory that says what the file has to hold.
static void try_random(void) {
    static uint8_t memory[5000];
    uint64_t session = new_file(PATH, sizeof memory), moment = 0;
    unsigned differences = 0;
    srand(1);
    for (int i = 0; i < 20000; i++) {
        size_t at = (size_t)rand() % sizeof memory;
        size_t length = (size_t)rand() % (sizeof memory - at);
        calls.most_bytes = (size_t)rand() % 3000;
        calls.interruptions = (unsigned)rand() % 3;
        for (size_t k = 0; k < length && i % 2 == 0; k++) bytes[k] = (uint8_t)rand();
        uint32_t number = i % 2 == 0 ? zonedisk_file_write(session, &moment, at, bytes, length)
                                     : zonedisk_file_read(session, moment, at, room, length);
        if (i % 2 == 0) memcpy(memory + at, bytes, length);
        else if (memcmp(memory + at, room, length) != 0) differences++;
        if (number != 0) differences++;
    }
    expect(differences == 0, "random reads and writes");
    zonedisk_file_close(session);
}

int main(int count, char **words) {
    if (count < 2 || chdir(words[1]) != 0) return 2;
    try_paths();
    try_refusals();
    try_new_file();
    try_failing_new_files();
    try_failing_old_files();
    try_late_sync();
    try_short_counts();
    try_counts();
    try_ranges();
    try_errors();
    try_failed_sync();
    try_release();
    try_read_only();
    try_limit();
    try_random();
    if (count > 2) try_full_disk(words[2]);
    return end_checks("file checks");
}
