// What the tests do with sessions, and how they look at files and processes.
#pragma once
#include "../../crates/linux_file/c/file.h"
#include "../check.h"
#include "fake_calls.h"
#include <dirent.h>
#include <errno.h>
#include <signal.h>
#include <stdlib.h>
#include <string.h>
#include <sys/resource.h>
#include <sys/stat.h>
#include <sys/wait.h>
#include <unistd.h>

// Where the file is that is tried.
#define PATH "drive"

static inline uint32_t open_at(const char *path, bool is_writable, uint64_t *size, uint64_t *session) {
    return zonedisk_file_open((const uint8_t *)path, strlen(path), is_writable, size, session);
}

static inline uint32_t create_at(const char *path, uint64_t size, uint64_t *session) {
    return zonedisk_file_create((const uint8_t *)path, strlen(path), size, session);
}

// A session of a new file.
static inline uint64_t new_file(const char *path, uint64_t size) {
    uint64_t session;
    unlink(path);
    expect(create_at(path, size, &session) == 0 && session != 0, "a new file");
    return session;
}

// A session of a file that is there.
static inline uint64_t old_file(const char *path, bool is_writable, uint64_t wanted) {
    uint64_t session, size;
    expect(open_at(path, is_writable, &size, &session) == 0 && session != 0 && size == wanted, "a file that is there");
    return session;
}

// How many files the process has open.
static inline unsigned open_files(void) {
    unsigned count = 0;
    DIR *folder = opendir("/proc/self/fd");
    while (folder != NULL && readdir(folder) != NULL) count++;
    if (folder != NULL) closedir(folder);
    return count;
}

// Does something in a process of its own: how that ends, as waitpid tells.
static inline int end_of(void (*does)(uint64_t), uint64_t session) {
    int status = 0;
    fflush(stdout);
    pid_t child = fork();
    if (child == 0) {
        const struct rlimit none = {0, 0};
        setrlimit(RLIMIT_CORE, &none);
        if (freopen("/dev/null", "w", stderr) != NULL) does(session);
        _exit(0);
    }
    return waitpid(child, &status, 0) == child ? status : -1;
}

static inline bool aborts(void (*does)(uint64_t), uint64_t session) {
    int status = end_of(does, session);
    return WIFSIGNALED(status) && WTERMSIG(status) == SIGABRT;
}

static inline bool ends_well(void (*does)(uint64_t), uint64_t session) {
    int status = end_of(does, session);
    return WIFEXITED(status) && WEXITSTATUS(status) == 0;
}
