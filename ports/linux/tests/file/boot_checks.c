// Looks at what the system tells of its boot. A process asks once, so each try is a process of its own.
//
// usage: boot_checks FOLDER   with an empty folder
#define _GNU_SOURCE
#include "../../crates/linux_file/c/boot.h"
#include "../../crates/linux_file/c/tell.h"
#include "session.h"
#include <inttypes.h>

// Where the identifier is that is tried.
#define TEXT "boot"

// An identifier in which no two digits of a word are the same, with its words.
#define KNOWN "01234567-89ab-cdef-8123-4567abcdef90\n"
static const uint64_t known_first = 0x0123456789abcdef, known_second = 0x81234567abcdef90;

static uint64_t wanted_first, wanted_second;

static void put(const char *text, size_t length) {
    FILE *file = fopen(TEXT, "w");
    expect(file != NULL && fwrite(text, 1, length, file) == length && fclose(file) == 0, "an identifier is put");
}

static bool is_wanted(void) {
    uint64_t first = 1, second = 1;
    zonedisk_boot(&first, &second);
    return first == wanted_first && second == wanted_second;
}

static void be_wanted(uint64_t session) {
    (void)session;
    unsigned before = open_files();
    _exit(is_wanted() && open_files() == before ? 0 : 1);
}

static void gives(const char *text, uint64_t first, uint64_t second, const char *what) {
    put(text, strlen(text));
    wanted_first = first;
    wanted_second = second;
    expect(ends_well(be_wanted, 0), what);
}

static void is_unknown(const char *text, const char *what) { gives(text, 0, 0, what); }

static void try_known(void) {
    gives(KNOWN, known_first, known_second, "an identifier");
    gives("01234567-89ab-cdef-8123-4567abcdef90", known_first, known_second, "one without a new line");
    gives("01234567-89AB-CDEF-8123-4567ABCDEF90\n", known_first, known_second, "one in capitals");
    gives("00000000-0000-0000-8123-4567abcdef90\n", 0, known_second, "a first word that is 0");
    gives("ffffffff-ffff-ffff-ffff-ffffffffffff\n", UINT64_MAX, UINT64_MAX, "the greatest words");
}

static void try_lengths(void) {
    is_unknown("", "an empty text");
    is_unknown("\n", "a new line alone");
    is_unknown("01234567-89ab-cdef-8123-4567abcdef9\n", "a digit fewer");
    is_unknown("01234567-89ab-cdef-8123-4567abcdef9", "a digit fewer, without a new line");
    is_unknown("01234567-89ab-cdef-8123-4567abcdef901\n", "a digit more");
    is_unknown("01234567-89ab-cdef-8123-4567abcdef901", "a digit more, without a new line");
    is_unknown("01234567-89ab-cdef-8123-4567abcdef90 ", "a space after it");
    is_unknown(KNOWN "\n", "two new lines");
    is_unknown(KNOWN KNOWN, "two identifiers");
    is_unknown(" 01234567-89ab-cdef-8123-4567abcdef90\n", "a space before it");
}

static void try_hyphens(void) {
    is_unknown("0123456789abcdef81234567abcdef90\n", "no hyphens");
    is_unknown("0123456789abcdef81234567abcdef900000\n", "36 digits");
    is_unknown("0123456-789ab-cdef-8123-4567abcdef90\n", "the first hyphen is too early");
    is_unknown("01234567-89ab-cdef-81234-567abcdef90\n", "the last hyphen is too late");
    is_unknown("01234567-89ab-cdef--123-4567abcdef90\n", "a fifth hyphen");
    for (size_t at = 8; at < 24; at += 5) {
        char text[] = KNOWN;
        text[at] = '0';
        is_unknown(text, "a digit in place of a hyphen");
        text[at] = '_';
        is_unknown(text, "another character in place of a hyphen");
    }
}

static void try_no_digits(void) {
    static const char others[] = "/:@G`g xX+";
    for (size_t i = 0; i < sizeof others; i++) {
        char text[] = KNOWN;
        text[3 * i] = others[i];
        if (3 * i == 18) text[3 * i] = '-', text[19] = others[i];
        put(text, strlen(KNOWN));
        wanted_first = wanted_second = 0;
        expect(ends_well(be_wanted, 0), "a character that is no digit");
    }
}

// Each place has its digit of the words.
static void try_places(void) {
    unsigned digits = 0;
    for (size_t at = 0; at < 36; at++) {
        char text[] = "00000000-0000-0000-0000-000000000001\n";
        uint64_t words[2] = {0, 1};
        if (text[at] == '-') continue;
        text[at] = 'e';
        words[digits / 16] = (at == 35 ? 0 : words[digits / 16]) | (uint64_t)14 << (60 - digits % 16 * 4);
        digits++;
        gives(text, words[0], words[1], "the digit of a place");
    }
    expect(digits == 32, "all places");
}

static void try_unknown(void) {
    is_unknown("01234567-89ab-cdef-0000-000000000000\n", "a second word that is 0");
    calls.boot_path = "absent";
    expect(ends_well(be_wanted, 0), "nothing is there");
    calls.boot_path = "folder";
    expect(mkdir("folder", 0700) == 0 && ends_well(be_wanted, 0), "a read with an error");
    calls.boot_path = TEXT;
}

// Looks twice, and puts another text in between.
static void look_twice(const char *later) {
    calls.boot_reads = 0;
    bool is_first = is_wanted();
    put(later, strlen(later));
    _exit(is_first && is_wanted() && is_wanted() && calls.boot_reads == 1 ? 0 : 1);
}
static void see_other_later(uint64_t session) { (void)session, look_twice("ffffffff-ffff-ffff-ffff-ffffffffffff\n"); }
static void see_none_later(uint64_t session) { (void)session, look_twice(""); }

static void try_later_looks(void) {
    gives(KNOWN, known_first, known_second, "before it changes");
    expect(ends_well(see_other_later, 0), "an identifier that changes");
    put(KNOWN, strlen(KNOWN));
    expect(ends_well(see_none_later, 0), "an identifier that goes away");
    is_unknown("", "before it comes");
    expect(ends_well(see_other_later, 0), "an identifier that comes later");
}

// What is told on standard error goes to a file.
static void tell(uint64_t session) {
    (void)session;
    if (freopen("told", "w", stderr) == NULL) _exit(1);
    zonedisk_tell_unknown_boot();
    zonedisk_tell_unknown_boot();
    zonedisk_tell_unsynced();
    zonedisk_tell_set_back();
    fclose(stderr);
    _exit(0);
}

static void try_telling(void) {
    char line[200];
    unsigned lines = 0;
    expect(ends_well(tell, 0), "a process that tells");
    FILE *file = fopen("told", "r");
    while (file != NULL && fgets(line, sizeof line, file) != NULL) {
        lines++;
        expect(strncmp(line, "zonedisk: ", 10) == 0, "who tells");
    }
    if (file != NULL) fclose(file);
    expect(lines == 3, "the boot is told once");
}

// What the system itself tells, where it tells any.
static void try_real(void) {
    uint64_t parts[5];
    calls.boot_path = NULL;
    wanted_first = wanted_second = 0;
    FILE *file = fopen("/proc/sys/kernel/random/boot_id", "r");
    if (file != NULL && fscanf(file, "%8" SCNx64 "-%4" SCNx64 "-%4" SCNx64 "-%4" SCNx64 "-%12" SCNx64, parts,
                               parts + 1, parts + 2, parts + 3, parts + 4) == 5) {
        wanted_first = parts[0] << 32 | parts[1] << 16 | parts[2];
        wanted_second = parts[3] << 48 | parts[4];
    }
    if (file != NULL) fclose(file);
    expect(is_wanted(), "the boot of this system");
}

int main(int count, char **words) {
    if (count < 2 || chdir(words[1]) != 0) return 2;
    calls.boot_path = TEXT;
    try_known();
    try_lengths();
    try_hyphens();
    try_no_digits();
    try_places();
    try_unknown();
    try_later_looks();
    try_telling();
    try_real();
    return end_checks("boot checks");
}
