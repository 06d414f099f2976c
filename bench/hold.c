/* Reads a file into memory that was never touched, writes it to another file if one is named, which takes the place of
   a third one if that is named, and prints the seconds that it took: what no program that holds a drive in memory can be
   faster than. */
#include <fcntl.h>
#include <stdio.h>
#include <stdlib.h>
#include <time.h>
#include <unistd.h>

enum { PIECE = 262144 };

int main(int argc, char **argv) {
    struct timespec start, end;
    if (argc < 2)
        return 1;
    clock_gettime(CLOCK_MONOTONIC, &start);
    int from = open(argv[1], O_RDONLY), writes = argc > 2;
    int to = writes ? open(argv[2], O_WRONLY | O_CREAT | O_TRUNC, 0666) : 0;
    off_t size = lseek(from, 0, SEEK_END);
    char *bytes = malloc(size);
    if (from < 0 || to < 0 || bytes == NULL || lseek(from, 0, SEEK_SET) != 0)
        return 1;
    off_t held = 0, written = 0;
    ssize_t count;
    while ((count = read(from, bytes + held, size - held < PIECE ? size - held : PIECE)) > 0)
        held += count;
    while (writes && written < held && (count = write(to, bytes + written, held - written)) > 0)
        written += count;
    int replaced = argc > 3 ? rename(argv[2], argv[3]) : 0;
    clock_gettime(CLOCK_MONOTONIC, &end);
    printf("%.6f\n", (end.tv_sec - start.tv_sec) + (end.tv_nsec - start.tv_nsec) / 1e9);
    return held != size || (writes && written != size) || replaced != 0;
}
