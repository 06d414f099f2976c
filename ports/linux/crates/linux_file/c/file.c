// Passes reads, writes and syncs of files to Linux. Each is of a session, at its present moment.
#define _GNU_SOURCE
#include "file.h"
#include "counts.h"
#include "holder.h"
#include "named.h"
#include "number.h"
#include "tell.h"
#include <errno.h>
#include <fcntl.h>
#include <libgen.h>
#include <limits.h>
#include <stdio.h>
#include <stdlib.h>
#include <string.h>
#include <sys/file.h>
#include <sys/stat.h>
#include <unistd.h>

enum { MOST_SESSIONS = 16, MOST_TRIES = 2000, WORD = 8 };

// What a file may fail at: each is told once in a session.
enum work { WRITING = 1, SYNCING = 2 };

// So many failed reads are told in a session, each at another place than the one before.
enum { MOST_TOLD = 20 };

struct session {
    uint64_t number; // from 1 on, or 0 where there is none
    uint64_t moment;
    uint64_t size; // of the file, in bytes
    int file;
    struct named named;
    bool is_writable;
    bool is_made;      // this session made the file
    bool is_move_told; // it was told that the name leads elsewhere
    unsigned failed;   // the kinds of work that failed
    unsigned told;     // how many failed reads were told
    uint64_t unread;   // where the last one of them failed
    uint32_t late; // the error of the sync at the opening, which the first sync of the session gives, or 0
    bool is_lost;  // a sync has failed, or the first bytes of a file that is looked at have changed
    uint8_t *held; // the first bytes of such a file, as they were at one moment, or NULL
    uint8_t *seen; // room for as many, to look at them again
    size_t held_length;
};

static struct session sessions[MOST_SESSIONS];
static uint64_t begun;
static _Atomic uint64_t counts[FILE_COUNTS];

uint64_t zonedisk_file_count(enum file_count which) {
    return counts[which];
}

static void count_bytes(enum file_count calls, enum file_count bytes, size_t moved) {
    counts[calls]++;
    counts[bytes] += moved;
}

// Ends the process: what is proved of a file holds only of the present moment of a session that there is.
static _Noreturn void end_process(const char *why) {
    fprintf(stderr, "zonedisk: %s\n", why);
    abort();
}

// The session with a number, or a place for a new one where the number is 0. NULL where there is none.
static struct session *find(uint64_t number) {
    for (size_t i = 0; i < MOST_SESSIONS; i++) {
        if (sessions[i].number == number) return &sessions[i];
    }
    return NULL;
}

static struct session *session_of(uint64_t number) {
    struct session *used = number == 0 ? NULL : find(number);
    if (used == NULL) end_process("there is no such session of a file");
    return used;
}

static struct session *session_at(uint64_t number, uint64_t moment) {
    struct session *used = session_of(number);
    if (used->moment != moment) end_process("a call of a file at another moment than the present one");
    return used;
}

// The session at its present moment, which is the next one from now on.
static struct session *change_at(uint64_t number, uint64_t *moment) {
    struct session *used = session_at(number, *moment);
    *moment = ++used->moment;
    return used;
}

// What a call of the system comes to: 0, or the number of the error that it has just given.
static uint32_t number_of(int given) {
    return given == 0 ? 0 : (uint32_t)errno;
}

// Whether this is the first failure of its kind in a session.
static bool is_first(struct session *used, enum work work) {
    bool is_told = (used->failed & work) != 0;
    used->failed |= work;
    return !is_told;
}

static void tell_failed_sync(struct session *used, uint32_t number) {
    if (!is_first(used, SYNCING)) return;
    fprintf(stderr, "zonedisk: %s: a sync failed: %s\n", used->named.name, strerror((int)number));
}

// Tells people at which byte a call failed.
static void tell_failed_at(const struct session *used, const char *call, uint64_t at, uint32_t number) {
    fprintf(stderr, "zonedisk: %s: a %s failed at byte %llu: %s\n", used->named.name, call, (unsigned long long)at,
            strerror((int)number));
}

// A read is asked for again, and then of fewer bytes. So it is told once for a place.
static void tell_unread(struct session *used, uint64_t at, uint32_t number) {
    if (used->told == MOST_TOLD || (used->told != 0 && used->unread == at)) return;
    used->unread = at;
    tell_failed_at(used, "read", at, number);
    if (++used->told == MOST_TOLD) fprintf(stderr, "zonedisk: %s: no more such reads are told\n", used->named.name);
}

static void tell_moved(struct session *used) {
    if (used->is_move_told) return;
    used->is_move_told = true;
    fprintf(stderr,
            "zonedisk: %s: the file has another name now, and this one leads to another file or to none. What is "
            "written goes to the file that was opened\n",
            used->named.name);
}

// Until the file is closed, other programs can still copy it.
static void tell_removed(const struct session *used, bool stays_open) {
    fprintf(stderr,
            "zonedisk: %s: the file was removed or replaced while it was in use: no name leads to what was written\n",
            used->named.name);
    if (!stays_open) return;
    fprintf(stderr,
            "zonedisk: %s: until this program ends, /proc/%d/fd/%d can be copied: it has what was flushed before\n",
            used->named.name, (int)getpid(), used->file);
}

// Looks whether a file that may be changed still has a name, and tells if its name leads elsewhere: whether it has one.
static bool has_name(struct session *used) {
    enum whereabouts found = used->is_writable ? find_file(&used->named, used->file) : AT_ITS_NAME;
    if (found == MOVED) tell_moved(used);
    return found != REMOVED;
}

// Brings to the disk what was written to a file.
static uint32_t sync_data(int file) {
    counts[FILE_SYNCS]++;
    return number_of(fdatasync(file));
}

// Copies a path, and ends it by a byte 0. There has to be a place for a session too.
static uint32_t copy_path(char name[PATH_MAX], const uint8_t *path, size_t length) {
    if (find(0) == NULL) return EMFILE;
    if (length == 0 || length >= PATH_MAX || memchr(path, 0, length) != NULL) return EINVAL;
    memcpy(name, path, length);
    name[length] = 0;
    return 0;
}

// Begins the session of a file that was opened, or closes it where it is refused. The session has what `new` has.
static uint32_t begin(uint32_t number, const char *name, const struct session *new, uint64_t *session) {
    *session = 0;
    if (number == 0) {
        struct session *used = find(0);
        *used = *new;
        used->number = *session = ++begun;
        take_name(&used->named, name, used->file);
    } else if (new->file >= 0) {
        close(new->file);
    }
    return number;
}

// Takes the lock that other programs of this kind ask for too.
static uint32_t lock(int file, int kind) {
    uint32_t number = number_of(flock(file, kind | LOCK_NB));
    if (number != EWOULDBLOCK) return number;
    tell_holder(file);
    return LOCKED;
}

// Brings to the disk what earlier programs wrote, and then lets go of it in memory. A sync of theirs may have failed.
// Then Linux may still show what they wrote, and no later sync would write it. Where this sync fails, all stays in
// memory that is still there.
static uint32_t go_by_disk(int file) {
    uint32_t number = sync_data(file);
    if (number == 0) posix_fadvise(file, 0, 0, POSIX_FADV_DONTNEED);
    return number;
}

// Opens what is held, whatever stands at its name by now. Without /proc it is opened by its name.
static int open_held(int held, const char *name, int how) {
    char path[64];
    snprintf(path, sizeof path, "/proc/self/fd/%d", held);
    int file = open(path, how | O_CLOEXEC);
    if (file >= 0 || errno != ENOENT) return file;
    return open(name, how | O_CLOEXEC | O_NONBLOCK | O_NOCTTY);
}

// Whether two files that are open are one.
static bool are_one(int first, int second) {
    struct stat one, other;
    if (fstat(first, &one) != 0 || fstat(second, &other) != 0) return false;
    return one.st_dev == other.st_dev && one.st_ino == other.st_ino;
}

static uint32_t open_looked_at(int held, const char *name, int how, int *file) {
    struct stat seen;
    if (fstat(held, &seen) != 0) return number_of(-1);
    if (!S_ISREG(seen.st_mode)) return NOT_REGULAR;
    *file = open_held(held, name, how);
    if (*file < 0) return number_of(-1);
    return are_one(held, *file) ? 0 : ESTALE;
}

// Opening a device may do something, and a pipe waits for its other end. So what is there is held first without being
// opened (O_PATH), and looked at. Then just that is opened.
static uint32_t open_regular(const char *name, int how, int *file) {
    int held = open(name, O_PATH | O_CLOEXEC);
    if (held < 0) return number_of(-1);
    uint32_t number = open_looked_at(held, name, how, file);
    close(held);
    return number;
}

static uint32_t length_of(int file, uint64_t *size) {
    struct stat seen = {0};
    uint32_t number = number_of(fstat(file, &seen));
    *size = (uint64_t)seen.st_size;
    return number;
}

static uint32_t open_locked(const char *name, struct session *new) {
    uint32_t number = open_regular(name, new->is_writable ? O_RDWR : O_RDONLY, &new->file);
    if (number == 0) number = lock(new->file, new->is_writable ? LOCK_EX : LOCK_SH);
    if (number == 0) number = length_of(new->file, &new->size);
    if (number == 0 && new->is_writable) new->late = go_by_disk(new->file);
    return number;
}

uint32_t zonedisk_file_open(const uint8_t *path, size_t length, bool is_writable, uint64_t *size, uint64_t *session) {
    char name[PATH_MAX];
    struct session new = {.file = -1, .is_writable = is_writable};
    uint32_t number = copy_path(name, path, length);
    if (number == 0) number = open_locked(name, &new);
    *size = new.size;
    return begin(number, name, &new, session);
}

uint32_t zonedisk_file_look(const uint8_t *path, size_t length, uint64_t *size, uint64_t *session) {
    char name[PATH_MAX];
    struct session new = {.file = -1};
    uint32_t number = copy_path(name, path, length);
    if (number == 0) number = open_regular(name, O_RDONLY, &new.file);
    if (number == 0) number = length_of(new.file, &new.size);
    *size = new.size;
    return begin(number, name, &new, session);
}

// Syncs the folder of a file, so that the file's name is durable. A file system that syncs no folders says EINVAL: then
// there is nothing to do.
static uint32_t sync_folder(const char *name) {
    char copy[PATH_MAX];
    snprintf(copy, sizeof copy, "%s", name);
    int folder = open(dirname(copy), O_RDONLY | O_DIRECTORY | O_CLOEXEC);
    if (folder < 0) return number_of(-1);
    uint32_t number = number_of(fsync(folder));
    close(folder);
    return number == EINVAL ? 0 : number;
}

static uint32_t make_new(const char *name, uint64_t size, int *file) {
    *file = open(name, O_RDWR | O_CREAT | O_EXCL | O_CLOEXEC, 0666);
    if (*file < 0) return errno == EEXIST ? EXISTS : number_of(-1);
    uint32_t number = lock(*file, LOCK_EX);
    if (number == LOCKED) return number;
    if (number == 0) number = number_of(ftruncate(*file, (off_t)size));
    if (number == 0) number = number_of(fsync(*file));
    if (number == 0) number = sync_folder(name);
    if (number != 0) unlink(name);
    return number;
}

uint32_t zonedisk_file_create(const uint8_t *path, size_t length, uint64_t size, uint64_t *session) {
    char name[PATH_MAX];
    struct session new = {.file = -1, .size = size, .is_writable = true, .is_made = true};
    uint32_t number = size > INT64_MAX ? EFBIG : copy_path(name, path, length);
    if (number == 0) number = make_new(name, size, &new.file);
    return begin(number, name, &new, session);
}

static bool is_within(const struct session *used, uint64_t at, size_t length) {
    return at <= used->size && length <= used->size - at;
}

// Why the system is not asked for a range: 0 where it is asked.
static uint32_t fault_of(const struct session *used, uint64_t at, size_t length) {
    if (used->is_lost) return EIO;
    return is_within(used, at, length) ? 0 : EINVAL;
}

static uint32_t read_range(struct session *used, uint64_t at, uint8_t *room, size_t length) {
    uint32_t number = 0;
    size_t done = 0;
    while (done < length && number == 0) {
        ssize_t count = pread(used->file, room + done, length - done, (off_t)(at + done));
        if (count > 0) done += (size_t)count;
        else if (count == 0) number = EIO;
        else if (errno != EINTR) number = (uint32_t)errno;
    }
    count_bytes(FILE_READS, FILE_BYTES_READ, done);
    if (number != 0) tell_unread(used, at + done, number);
    return number;
}

// Looks at the first bytes of a file again: whether they are still those that are held.
static uint32_t look_again(struct session *used) {
    uint32_t number = read_range(used, 0, used->seen, used->held_length);
    if (number != 0 || memcmp(used->seen, used->held, used->held_length) == 0) return number;
    used->is_lost = true;
    zonedisk_tell_changed();
    return ESTALE;
}

// Reads a file as of the moment at which its first bytes were held. Whoever changes the file so that later bytes of
// that moment are gone changes the first bytes before. So they are looked at after the read.
static uint32_t read_held(struct session *used, uint64_t at, uint8_t *room, size_t length) {
    if (at >= used->held_length) {
        uint32_t number = read_range(used, at, room, length);
        return number == 0 ? look_again(used) : number;
    }
    if (length > used->held_length - at) return EINVAL;
    memcpy(room, used->held + at, length);
    return 0;
}

uint32_t zonedisk_file_read(uint64_t session, uint64_t moment, uint64_t at, uint8_t *room, size_t length) {
    struct session *used = session_at(session, moment);
    uint32_t number = fault_of(used, at, length);
    if (number != 0) return number;
    return used->held == NULL ? read_range(used, at, room, length) : read_held(used, at, room, length);
}

// Reads the first bytes of a file until they are twice the same: then they were so at the moment between the two reads.
// Only a word that changed and changed back between them may have been another one then.
static uint32_t read_twice(struct session *used) {
    uint32_t number = read_range(used, 0, used->seen, used->held_length);
    for (unsigned tries = 0; number == 0 && tries < MOST_TRIES; tries++) {
        number = read_range(used, 0, used->held, used->held_length);
        if (number == 0 && memcmp(used->held, used->seen, used->held_length) == 0) return 0;
        uint8_t *newest = used->held;
        used->held = used->seen;
        used->seen = newest;
    }
    return number == 0 ? CHANGING : number;
}

static void let_go(struct session *used) {
    free(used->held);
    free(used->seen);
    used->held = used->seen = NULL;
}

uint32_t zonedisk_file_hold(uint64_t session, uint64_t *moment, uint64_t length) {
    struct session *used = change_at(session, moment);
    uint32_t number = length == 0 || used->held != NULL ? EINVAL : fault_of(used, 0, length);
    if (number != 0) return number;
    used->held_length = length;
    used->held = malloc(length);
    used->seen = malloc(length);
    number = used->held == NULL || used->seen == NULL ? ENOMEM : read_twice(used);
    if (number != 0) let_go(used);
    return number;
}

// Writes a range, and counts the bytes that are written.
static uint32_t write_range(struct session *used, uint64_t at, const uint8_t *bytes, size_t length, size_t *done) {
    uint32_t number = 0;
    for (*done = 0; *done < length && number == 0;) {
        ssize_t count = pwrite(used->file, bytes + *done, length - *done, (off_t)(at + *done));
        if (count > 0) *done += (size_t)count;
        else if (count == 0) number = EIO;
        else if (errno != EINTR) number = (uint32_t)errno;
    }
    count_bytes(FILE_WRITES, FILE_BYTES_WRITTEN, *done);
    if (number != 0 && is_first(used, WRITING)) tell_failed_at(used, "write", at + *done, number);
    return number;
}

uint32_t zonedisk_file_write(uint64_t session, uint64_t *moment, uint64_t at, const uint8_t *bytes, size_t length) {
    struct session *used = change_at(session, moment);
    size_t done;
    uint32_t number = fault_of(used, at, length);
    return number != 0 ? number : write_range(used, at, bytes, length, &done);
}

// Writes all 8 bytes, or none of them.
static uint32_t put_word(struct session *used, uint64_t at, const uint8_t word[WORD]) {
    size_t done;
    uint32_t number = write_range(used, at, word, WORD, &done);
    if (number != 0 && done != 0) end_process("a word of a file is written in part");
    return number;
}

uint32_t zonedisk_file_write_word(uint64_t session, uint64_t *moment, uint64_t at, const uint8_t word[8]) {
    struct session *used = change_at(session, moment);
    if (at % WORD != 0 || !is_within(used, at, WORD)) return EINVAL;
    uint32_t number = put_word(used, at, word);
    // After a failed sync the word is brought to the disk at once. Where that fails, Linux has told it now, and tells it
    // to nobody else. So the word is written anew: the sync of the next program has it to write, and fails if it cannot.
    if (number == 0 && used->is_lost && sync_data(used->file) != 0) number = put_word(used, at, word);
    return number;
}

uint32_t zonedisk_file_sync(uint64_t session, uint64_t *moment) {
    struct session *used = change_at(session, moment);
    if (used->is_lost) return EIO;
    uint32_t number = used->late != 0 ? used->late : sync_data(used->file);
    // Whoever opens the file tells of the sync at the opening (`tell.h`).
    if (number != 0 && used->late == 0) tell_failed_sync(used, number);
    if (number == 0 && !has_name(used)) {
        number = ENOENT;
        tell_removed(used, true);
    }
    used->is_lost = number != 0;
    return number;
}

void zonedisk_file_release(uint64_t session, uint64_t *moment, uint64_t at, uint64_t length) {
    const struct session *used = change_at(session, moment);
    if (length == 0 || fault_of(used, at, length) != 0) return;
    while (fallocate(used->file, FALLOC_FL_PUNCH_HOLE | FALLOC_FL_KEEP_SIZE, (off_t)at, (off_t)length) != 0) {
        if (errno != EINTR) return;
    }
}

uint32_t zonedisk_file_number(uint64_t session) {
    return number_of_file(session_of(session)->file);
}

// Removes a file that its own session could not write, or not bring to the disk: nobody can use it.
static void remove_failed(const struct session *used) {
    if ((used->failed & (WRITING | SYNCING)) == 0 || !remove_file(&used->named)) return;
    fprintf(stderr, "zonedisk: %s: the new file is not whole, and was removed\n", used->named.name);
}

void zonedisk_file_close(uint64_t session) {
    struct session *used = session_of(session);
    if (used->is_made) remove_failed(used);
    else if (!used->is_lost && !has_name(used)) tell_removed(used, false);
    close(used->file);
    let_go(used);
    used->number = 0;
}
