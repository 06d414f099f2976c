// Looks at files that are replaced while they are opened, or removed, replaced and renamed afterwards. Then at what is
// told of errors.
//
// usage: name_checks FOLDER   with an empty folder
#define _GNU_SOURCE
#include "session.h"
#include <fcntl.h>

static uint8_t bytes[100], room[100];
static char told[2000];

// What standard error gets while something is done.
static void begin_telling(void) {
    memset(told, 0, sizeof told);
    stderr = fmemopen(told, sizeof told, "w");
    if (stderr != NULL) setbuf(stderr, NULL);
}

static void end_telling(FILE *before) {
    fclose(stderr);
    stderr = before;
}

static unsigned lines_told(void) {
    unsigned count = 0;
    for (const char *at = told; (at = strchr(at, '\n')) != NULL; at++) count++;
    return count;
}

static void make_file(const char *path, const char *text) {
    FILE *file = fopen(path, "w");
    expect(file != NULL && fputs(text, file) >= 0 && fclose(file) == 0, "a file of another program");
}

static void remove_it(void) { expect(unlink(PATH) == 0, "a removed file"); }
static void replace_it(void) {
    make_file("other", "other");
    expect(rename("other", PATH) == 0, "a replaced file");
}
static void rename_it(void) { expect(rename(PATH, "renamed") == 0, "a renamed file"); }
static void link_and_replace(void) {
    expect(link(PATH, "renamed") == 0, "a second name");
    replace_it();
}

// Writes and syncs after something was done with the name: what the two syncs give, and the lines that are told.
static void sync_after(void (*does)(void), uint32_t wanted, uint32_t later, unsigned lines, const char *text) {
    uint64_t moment = 0, session;
    FILE *before = stderr;
    unlink("renamed");
    zonedisk_file_close(new_file(PATH, 100));
    session = old_file(PATH, true, 100);
    expect(zonedisk_file_sync(session, &moment) == 0, "a sync of a file that has its name");
    does();
    begin_telling();
    expect(zonedisk_file_write(session, &moment, 0, bytes, 10) == 0, "a write after that");
    calls = (struct calls){.data_error = 0};
    expect(zonedisk_file_sync(session, &moment) == wanted && calls.data_syncs == 1, "the next sync");
    expect(zonedisk_file_sync(session, &moment) == later, "the sync after it");
    zonedisk_file_close(session);
    end_telling(before);
    expect(lines_told() == lines && strstr(told, text) != NULL, text);
}

static void try_syncs(void) {
    sync_after(remove_it, ENOENT, EIO, 2, "no name leads to what was written\n");
    sync_after(replace_it, ENOENT, EIO, 2, "can be copied: it has what was flushed before\n");
    sync_after(rename_it, 0, 0, 1, "has another name now");
    sync_after(link_and_replace, 0, 0, 1, "has another name now");
}

// Without a sync it is told at the end. Nothing is told of a file that is only read.
static void try_ends(bool is_writable) {
    FILE *before = stderr;
    zonedisk_file_close(new_file(PATH, 100));
    uint64_t session = old_file(PATH, is_writable, 100);
    remove_it();
    begin_telling();
    zonedisk_file_close(session);
    end_telling(before);
    expect(lines_told() == is_writable, "what is told at the end");
}

// A file that had no name when it was opened loses none.
static void try_nameless(void) {
    char path[64];
    FILE *before = stderr;
    zonedisk_file_close(new_file(PATH, 100));
    int file = open(PATH, O_RDWR | O_CLOEXEC);
    snprintf(path, sizeof path, "/proc/self/fd/%d", file);
    remove_it();
    uint64_t moment = 0, session = old_file(path, true, 100);
    begin_telling();
    expect(zonedisk_file_sync(session, &moment) == 0, "a file that never had a name");
    zonedisk_file_close(session);
    end_telling(before);
    expect(lines_told() == 0, "what is told of it");
    close(file);
}

// A new file that cannot be written or synced is removed by its own session, and by no other.
static void try_new(bool fails_to_sync) {
    FILE *before = stderr;
    uint64_t session = new_file(PATH, 100), moment = 0;
    begin_telling();
    calls = (struct calls){.write_error = fails_to_sync ? 0 : ENOSPC, .data_error = fails_to_sync ? EIO : 0};
    uint32_t written = zonedisk_file_write(session, &moment, 0, bytes, 10);
    uint32_t synced = zonedisk_file_sync(session, &moment);
    calls = (struct calls){.data_error = 0};
    expect(written == (fails_to_sync ? 0 : ENOSPC) && synced == (fails_to_sync ? EIO : 0), "a new file that fails");
    zonedisk_file_close(session);
    end_telling(before);
    expect(access(PATH, F_OK) != 0, "a new file that failed is left");
    expect(lines_told() == 2 && strstr(told, "was removed\n") != NULL, "what is told of it");
}

static void try_replaced_new(void) {
    FILE *before = stderr;
    uint64_t session = new_file(PATH, 100), moment = 0;
    calls = (struct calls){.write_error = ENOSPC};
    begin_telling();
    zonedisk_file_write(session, &moment, 0, bytes, 10);
    calls = (struct calls){.data_error = 0};
    replace_it();
    zonedisk_file_close(session);
    end_telling(before);
    expect(access(PATH, F_OK) == 0 && lines_told() == 1, "a file of another program is removed");
}

// An error is told once for each kind of work, with its name. A file that was there is never removed.
static void try_errors(void) {
    FILE *before = stderr;
    zonedisk_file_close(new_file(PATH, 100));
    uint64_t session = old_file(PATH, true, 100), moment = 0;
    begin_telling();
    for (int turn = 0; turn < 2; turn++) {
        calls = (struct calls){.read_error = EIO, .write_error = ENOSPC, .data_error = EDQUOT};
        expect(zonedisk_file_read(session, moment, 0, room, 10) == EIO, "a read that fails");
        expect(zonedisk_file_write(session, &moment, 0, bytes, 10) == ENOSPC, "a write that fails");
    }
    expect(zonedisk_file_sync(session, &moment) == EDQUOT && zonedisk_file_sync(session, &moment) == EIO, "a sync");
    calls = (struct calls){.data_error = 0};
    zonedisk_file_close(session);
    end_telling(before);
    expect(strcmp(told, "zonedisk: " PATH ": a read failed at byte 0: Input/output error\n"
                        "zonedisk: " PATH ": a write failed at byte 0: No space left on device\n"
                        "zonedisk: " PATH ": a sync failed: Disk quota exceeded\n") == 0, told);
    expect(access(PATH, F_OK) == 0, "a file that was there is removed");
}

// Of the sync at the opening its caller tells, and so nothing else does.
static void try_late(void) {
    FILE *before = stderr;
    zonedisk_file_close(new_file(PATH, 100));
    begin_telling();
    calls = (struct calls){.data_error = EIO};
    uint64_t session = old_file(PATH, true, 100), moment = 0;
    calls = (struct calls){.data_error = 0};
    expect(zonedisk_file_sync(session, &moment) == EIO, "the sync at the opening");
    zonedisk_file_close(session);
    end_telling(before);
    expect(lines_told() == 0, told);
}

static void put_pipe(void) {
    remove_it();
    expect(mkfifo(PATH, 0600) == 0, "a pipe");
}

// Opens a file in whose place another program puts something after it was looked at.
static void open_late(void (*does)(void), bool has_no_proc, uint32_t wanted, const char *what) {
    uint64_t session, size;
    unsigned before = open_files();
    zonedisk_file_close(new_file(PATH, 100));
    calls = (struct calls){.at_open = does, .has_no_proc = has_no_proc};
    uint32_t number = open_at(PATH, true, &size, &session);
    calls = (struct calls){.data_error = 0};
    expect(number == wanted && (number != 0 || size == 100), what);
    if (number == 0) zonedisk_file_close(session);
    expect(open_files() == before, "a file that was refused is left open");
}

static void try_opens(void) {
    open_late(NULL, false, 0, "a file that stays where it is");
    open_late(NULL, true, 0, "a file that stays, without /proc");
    open_late(put_pipe, false, 0, "the file that was looked at is opened, and not a pipe");
    open_late(replace_it, false, 0, "the file that was looked at is opened, and not another one");
    open_late(put_pipe, true, ESTALE, "a pipe that came, without /proc");
    open_late(replace_it, true, ESTALE, "another file that came, without /proc");
}

int main(int count, char **words) {
    if (count < 2 || chdir(words[1]) != 0) return 2;
    try_opens();
    try_syncs();
    try_ends(true);
    try_ends(false);
    try_nameless();
    try_new(false);
    try_new(true);
    try_replaced_new();
    try_errors();
    try_late();
    return end_checks("name checks");
}
