// Tells which program has an image, where this one ends with the status 1 and another one has it.
//
// The standard library locks images, and no C sees that. So it is looked for at the end. If the status has another cause,
// the line is as true, and of no use. Of drives in their files and of devices the C of their crates tells (`holder.h`).
#define _GNU_SOURCE
#include "../../linux_file/c/holder.h"
#include <fcntl.h>
#include <stdlib.h>
#include <string.h>
#include <unistd.h>

// The path that the command line gives for an image.
static const char *image;

// Whether a file begins as a drive that stays in its file does.
static bool is_drive_in_file(int file) {
    char first[6];
    return pread(file, first, sizeof first, 0) == sizeof first && memcmp(first, "ZNSDRV", sizeof first) == 0;
}

static void tell_at_end(int status, void *nothing) {
    struct stat seen;
    (void)nothing;
    if (status != 1 || stat(image, &seen) != 0 || !S_ISREG(seen.st_mode)) return;
    int file = open(image, O_RDONLY | O_CLOEXEC | O_NONBLOCK);
    if (file < 0) return;
    if (!is_drive_in_file(file)) tell_holder(file);
    close(file);
}

// The path after `--image` at a word of the command line, or NULL. The last word is followed by NULL.
static const char *image_at(char **word) {
    static const char option[] = "--image";
    if (strncmp(*word, option, sizeof option - 1) != 0) return NULL;
    const char *rest = *word + sizeof option - 1;
    if (*rest == '=') return rest + 1;
    return *rest == 0 ? word[1] : NULL;
}

__attribute__((constructor)) static void begin(int count, char **words) {
    for (int i = 1; i < count && image == NULL; i++) image = image_at(words + i);
    if (image != NULL) on_exit(tell_at_end, NULL);
}
