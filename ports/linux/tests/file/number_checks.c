// Looks at the numbers by which files are told from their copies.
//
// usage: number_checks FOLDER   with an empty folder
#define _GNU_SOURCE
#include "session.h"

enum { SIZE = 100 };

static uint32_t number_of(const char *path, bool is_writable) {
    uint64_t session = old_file(path, is_writable, SIZE);
    uint32_t number = zonedisk_file_number(session);
    zonedisk_file_close(session);
    return number;
}

// Copies a file to another one, which is made anew where nothing is.
static void copy(const char *from, const char *to) {
    char bytes[SIZE];
    FILE *source = fopen(from, "r");
    FILE *target = fopen(to, "r+");
    if (target == NULL) target = fopen(to, "w");
    expect(source != NULL && fread(bytes, 1, SIZE, source) == SIZE && fclose(source) == 0, "what is copied");
    expect(target != NULL && fwrite(bytes, 1, SIZE, target) == SIZE && fclose(target) == 0, "a copy");
}

static void try_file(void) {
    zonedisk_file_close(new_file(PATH, SIZE));
    uint32_t number = number_of(PATH, true);
    expect(number_of(PATH, true) == number, "the same file again");
    expect(number_of(PATH, false) == number, "the same file, only read");
    expect(rename(PATH, "renamed") == 0 && number_of("renamed", true) == number, "the same file by another name");
    copy("renamed", "copy");
    expect(number_of("copy", true) != number, "a copy");
    copy("copy", "renamed");
    expect(number_of("renamed", true) == number, "the same file with other bytes");
    expect(rename("copy", "renamed") == 0 && number_of("renamed", true) != number, "another file in its place");
    expect(unlink("renamed") == 0, "the end");
}

// A file that is made anew may get the inode of one that was removed, so the time at which it was made counts.
static void try_birth(void) {
    zonedisk_file_close(new_file(PATH, SIZE));
    uint32_t number = number_of(PATH, true);
    calls.has_no_birth = true;
    uint32_t later = number_of(PATH, true);
    expect(later == number_of(PATH, false), "the same number, without a time");
    calls.has_no_statx = true;
    expect(number_of(PATH, true) == later, "the same number, without such a call");
    calls = (struct calls){.has_no_statx = false};
    expect(number_of(PATH, true) == number, "the number as it was");
    calls.has_no_statx = true;
    uint64_t session = old_file(PATH, true, SIZE);
    calls.look_error = EIO;
    expect(zonedisk_file_number(session) == 0, "a file of which nothing is told");
    calls = (struct calls){.has_no_statx = false};
    zonedisk_file_close(session);
}

static void ask_for_the_number(uint64_t session) { zonedisk_file_number(session); }

int main(int count, char **words) {
    if (count != 2 || chdir(words[1]) != 0) return 2;
    try_file();
    try_birth();
    expect(aborts(ask_for_the_number, 4711), "a number without a session");
    return end_checks("number checks");
}
