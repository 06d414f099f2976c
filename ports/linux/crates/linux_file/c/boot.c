// Asks Linux for the identifier of the boot that it is in.
#include "boot.h"
#include <stdbool.h>
#include <stdio.h>

// An identifier has 36 characters: 32 digits, 16 for each word, and four hyphens. A new line follows it.
enum { CHARACTERS = 36, DIGITS_OF_WORD = 16, NO_DIGIT = 16 };

// Reads the text, and one byte more where there is one. It is empty where the system gives an error.
static size_t read_text(char text[CHARACTERS + 2]) {
    FILE *file = fopen("/proc/sys/kernel/random/boot_id", "re");
    if (file == NULL) return 0;
    size_t length = fread(text, 1, CHARACTERS + 2, file);
    fclose(file);
    return length;
}

static unsigned digit_of(char character) {
    if (character >= '0' && character <= '9') return (unsigned)(character - '0');
    if (character >= 'a' && character <= 'f') return (unsigned)(character - 'a') + 10;
    if (character >= 'A' && character <= 'F') return (unsigned)(character - 'A') + 10;
    return NO_DIGIT;
}

// Takes the digits of an identifier, and tells whether it is one.
static bool take_words(const char *text, uint64_t words[2]) {
    unsigned digits = 0;
    for (unsigned i = 0; i < CHARACTERS; i++) {
        if (i == 8 || i == 13 || i == 18 || i == 23) {
            if (text[i] != '-') return false;
            continue;
        }
        unsigned digit = digit_of(text[i]);
        if (digit == NO_DIGIT) return false;
        uint64_t *word = &words[digits++ / DIGITS_OF_WORD];
        *word = *word << 4 | digit;
    }
    return true;
}

// The words stay 0 where the boot is not known.
static void read_boot(uint64_t words[2]) {
    char text[CHARACTERS + 2];
    uint64_t taken[2] = {0, 0};
    size_t length = read_text(text);
    bool is_whole = length == CHARACTERS || (length == CHARACTERS + 1 && text[CHARACTERS] == '\n');
    if (!is_whole || !take_words(text, taken) || taken[1] == 0) return;
    words[0] = taken[0];
    words[1] = taken[1];
}

// The words are kept from the first call on. So no later call gives others, whatever Linux would say then.
void zonedisk_boot(uint64_t *first, uint64_t *second) {
    static bool is_read;
    static uint64_t words[2];
    if (!is_read) read_boot(words);
    is_read = true;
    *first = words[0];
    *second = words[1];
}
