/* Reads `write` lines from standard input, decodes their data, digit by digit, and prints the seconds that it
   took: what a plain loop takes that is given blocks in hexadecimal digits, and decodes them one by one. */
#include <stdint.h>
#include <stdio.h>
#include <string.h>
#include <time.h>
#include <unistd.h>

enum { PIECE = 65536, LONGEST = 4194304 };

static uint8_t value[256], bytes[LONGEST / 2];
static char text[LONGEST + PIECE];

/* The bytes of the data of a line, put into `bytes`; their number. */
static size_t decode(const char *line, const char *end) {
    const char *word = memchr(line, ' ', end - line);
    const char *digits = (const char *)memchr(word + 1, ' ', end - word - 1) + 1;
    size_t count = (end - digits) / 2;
    for (size_t i = 0; i < count; i++)
        bytes[i] = value[(uint8_t)digits[2 * i]] << 4 | value[(uint8_t)digits[2 * i + 1]];
    return count;
}

int main(void) {
    size_t held = 0, decoded = 0;
    ssize_t got;
    struct timespec start, end;
    for (int i = 0; i < 16; i++)
        value[(uint8_t)"0123456789abcdef"[i]] = i;
    memset(text, 0, sizeof text);
    memset(bytes, 0, sizeof bytes);
    clock_gettime(CLOCK_MONOTONIC, &start);
    while ((got = read(0, text + held, PIECE)) > 0) {
        char *line = text, *last = text + held + got, *feed = memchr(text + held, '\n', got);
        for (; feed != NULL; feed = memchr(line, '\n', last - line)) {
            decoded += decode(line, feed);
            line = feed + 1;
        }
        held = last - line;
        memmove(text, line, held);
    }
    clock_gettime(CLOCK_MONOTONIC, &end);
    printf("%.6f\n", (end.tv_sec - start.tv_sec) + (end.tv_nsec - start.tv_nsec) / 1e9);
    return decoded == 0;
}
