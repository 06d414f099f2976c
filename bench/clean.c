/* Makes the copies of a cleaned drive in memory and nothing else, and prints the seconds that they took: what no
   program that moves as many blocks can be faster than.

   usage: clean ZONES CAPACITY BLOCK_BYTES BATCH CLEANS MOVED HOST

   In each of CLEANS rounds, MOVED blocks of a zone are read in random order and appended elsewhere, BATCH at a time
   after a header, and HOST blocks are appended, each after a header. All zones are filled first. */
#include <stdio.h>
#include <stdlib.h>
#include <string.h>
#include <time.h>

static size_t zones, capacity, block_bytes, filling, used;
static char **zone, *batch;

/* Appends the batch: so many blocks of data after its header. */
static void append(size_t blocks) {
    if (used + 1 + blocks > capacity) {
        filling = (filling + 1) % zones;
        used = 0;
    }
    memcpy(zone[filling] + used * block_bytes, batch, (1 + blocks) * block_bytes);
    used += 1 + blocks;
}

/* Moves so many blocks of a zone, which are the first of `order` once it is shuffled. */
static void move(const char *victim, size_t *order, size_t moved, size_t most) {
    size_t held = 0;
    for (size_t i = 0; i < moved; i++) {
        size_t other = i + rand() % (capacity - i), at = order[other];
        order[other] = order[i];
        order[i] = at;
        memcpy(batch + ++held * block_bytes, victim + at * block_bytes, block_bytes);
        if (held == most || i + 1 == moved) {
            append(held);
            held = 0;
        }
    }
}

int main(int argc, char **argv) {
    struct timespec start, end;
    if (argc < 8)
        return 1;
    zones = strtoul(argv[1], NULL, 10), capacity = strtoul(argv[2], NULL, 10);
    block_bytes = strtoul(argv[3], NULL, 10);
    size_t most = strtoul(argv[4], NULL, 10), cleans = strtoul(argv[5], NULL, 10);
    size_t moved = strtoul(argv[6], NULL, 10), host = strtoul(argv[7], NULL, 10);
    size_t *order = malloc(capacity * sizeof *order);
    zone = malloc(zones * sizeof *zone);
    batch = malloc((1 + most) * block_bytes);
    for (size_t i = 0; i < zones; i++)
        memset(zone[i] = malloc(capacity * block_bytes), 1, capacity * block_bytes);
    for (size_t i = 0; i < capacity; i++)
        order[i] = i;
    memset(batch, 2, (1 + most) * block_bytes);
    clock_gettime(CLOCK_MONOTONIC, &start);
    for (size_t i = 0; i < cleans; i++) {
        move(zone[rand() % zones], order, moved, most);
        for (size_t j = 0; j < host; j++)
            append(1);
    }
    clock_gettime(CLOCK_MONOTONIC, &end);
    printf("%.6f\n", (end.tv_sec - start.tv_sec) + (end.tv_nsec - start.tv_nsec) / 1e9);
    return 0;
}
