/* Copies blocks of 4,096 bytes, one after the other, into memory that was never touched, and prints
   the seconds that it took: what no program that keeps written blocks can be faster than. */
#include <stdio.h>
#include <stdlib.h>
#include <string.h>
#include <time.h>

int main(int argc, char **argv) {
    size_t blocks = argc > 1 ? strtoul(argv[1], NULL, 10) : 0;
    char *source = malloc(4096);
    char *target = malloc(blocks * 4096);
    struct timespec start, end;
    if (source == NULL || target == NULL)
        return 1;
    memset(source, 0xaa, 4096);
    clock_gettime(CLOCK_MONOTONIC, &start);
    for (size_t i = 0; i < blocks; i++)
        memcpy(target + i * 4096, source, 4096);
    clock_gettime(CLOCK_MONOTONIC, &end);
    printf("%.6f\n", (end.tv_sec - start.tv_sec) + (end.tv_nsec - start.tv_nsec) / 1e9);
    return blocks == 0 || target[blocks * 4096 - 1] != source[0];
}
