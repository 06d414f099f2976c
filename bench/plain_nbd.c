// The least that a server with a file costs: a disk in memory, whose writes are appended to a file before they are answered.
//
// usage: plain_nbd FILE BYTES BLOCK   (a client on standard input and output)
//
// As `zonedisk nbd` does, it writes a mark, an entry, a header block, the data and a checksum for each write, and writes
// the file anew, as the disk, when it is more than 1 MiB longer than twice the disk. It answers no other option than GO and
// INFO, and takes one request at a time. It checks nothing: it is a yardstick for bench/nbd, and no server.
#include <endian.h>
#include <fcntl.h>
#include <stdint.h>
#include <stdio.h>
#include <stdlib.h>
#include <string.h>
#include <sys/uio.h>
#include <unistd.h>

enum { BUFFER = 1 << 16, LONGEST = 1 << 25 };

static unsigned char held[BUFFER];
static size_t from, to;

static void finish(int status) { _exit(status); }

static void all_out(int file, const void *bytes, size_t count) {
  const char *at = bytes;
  while (count > 0) {
    ssize_t done = write(file, at, count);
    if (done <= 0) finish(1);
    at += done;
    count -= (size_t)done;
  }
}

static void all_in(void *bytes, size_t count) {
  char *at = bytes;
  while (count > 0) {
    if (from < to) {
      size_t part = count < to - from ? count : to - from;
      memcpy(at, held + from, part);
      from += part, at += part, count -= part;
      continue;
    }
    ssize_t done = count >= BUFFER ? read(0, at, count) : read(0, held, BUFFER);
    if (done <= 0) finish(0);
    if (count >= BUFFER) at += done, count -= (size_t)done;
    else from = 0, to = (size_t)done;
  }
}

static uint64_t number(const unsigned char *bytes, int count) {
  uint64_t value = 0;
  for (int i = 0; i < count; i++) value = value << 8 | bytes[i];
  return value;
}

static unsigned char *put(unsigned char *at, uint64_t value, int count) {
  for (int i = count - 1; i >= 0; i--) *at++ = (unsigned char)(value >> (8 * i));
  return at;
}

static void option_reply(uint32_t option, uint32_t kind, const void *bytes, uint32_t count) {
  unsigned char head[20], *at = put(head, 0x3e889045565a9, 8);
  at = put(put(put(at, option, 4), kind, 4), count, 4);
  all_out(1, head, 20);
  all_out(1, bytes, count);
}

static void shake_hands(uint64_t size) {
  unsigned char head[18], info[12];
  memcpy(head, "NBDMAGICIHAVEOPT", 16);
  put(head + 16, 3, 2);
  all_out(1, head, 18);
  all_in(head, 4);
  for (;;) {
    all_in(head, 16);
    uint32_t option = (uint32_t)number(head + 8, 4), count = (uint32_t)number(head + 12, 4);
    unsigned char *bytes = malloc(count + 1);
    all_in(bytes, count);
    free(bytes);
    if (option != 6 && option != 7) {
      option_reply(option, 0x80000001, "", 0);
      continue;
    }
    put(put(put(info, 0, 2), size, 8), 0x6d, 2);
    option_reply(option, 3, info, 12);
    option_reply(option, 1, "", 0);
    if (option == 7) return;
  }
}

static void sum(uint32_t *first, uint32_t *second, const unsigned char *bytes, size_t count) {
  for (size_t i = 0; i + 8 <= count; i += 8) {
    uint32_t a, b;
    memcpy(&a, bytes + i, 4);
    memcpy(&b, bytes + i + 4, 4);
    *first += le32toh(a) + *second;
    *second += le32toh(b) + *first;
  }
}

static const char *path;
static int file = -1;
static uint64_t length;
// The checksum that runs through the changes.
static uint32_t first, second;

static void write_anew(const unsigned char *disk, uint64_t size) {
  char name[4096];
  snprintf(name, sizeof name, "%s.new", path);
  int next = open(name, O_CREAT | O_TRUNC | O_WRONLY, 0600);
  if (next < 0) finish(1);
  all_out(next, disk, size);
  if (rename(name, path) != 0) finish(1);
  if (file >= 0) close(file);
  file = next;
  length = size;
  first = second = 0;
}

static void keep(const unsigned char *entry, const unsigned char *blocks, size_t count, const unsigned char *disk, uint64_t size) {
  unsigned char head[8], seal[8];
  if (length > 2 * size + (1 << 20)) write_anew(disk, size);
  sum(&first, &second, entry, 64);
  memcpy(head, &first, 4);
  memcpy(head + 4, &second, 4);
  sum(&first, &second, blocks, count);
  memcpy(seal, &first, 4);
  memcpy(seal + 4, &second, 4);
  struct iovec parts[] = {{"ZNSCHG02", 8}, {(void *)entry, 64}, {head, 8}, {(void *)blocks, count}, {seal, 8}};
  if (writev(file, parts, 5) != (ssize_t)(count + 88)) finish(1);
  length += count + 88;
}

int main(int count, char **words) {
  if (count != 4) return 2;
  path = words[1];
  uint64_t size = strtoull(words[2], NULL, 10), block = strtoull(words[3], NULL, 10);
  unsigned char *disk = malloc(size), *blocks = malloc(LONGEST + block), entry[64] = {0}, head[28], reply[16];
  memset(disk, 0, size);
  write_anew(disk, size);
  shake_hands(size);
  for (;;) {
    all_in(head, 28);
    unsigned kind = (unsigned)number(head + 6, 2);
    uint64_t offset = number(head + 16, 8), bytes = number(head + 24, 4);
    if (kind == 2) return 0;
    if (bytes > LONGEST || offset + bytes > size) return 1;
    if (kind == 1) {
      memset(blocks, 0, block);
      all_in(blocks + block, bytes);
      keep(entry, blocks, block + bytes, disk, size);
      memcpy(disk + offset, blocks + block, bytes);
    }
    memcpy(put(put(reply, 0x67446698, 4), 0, 4), head + 8, 8);
    if (kind != 0) {
      all_out(1, reply, 16);
      continue;
    }
    struct iovec parts[] = {{reply, 16}, {disk + offset, bytes}};
    ssize_t done = writev(1, parts, 2);
    if (done < 16) return 1;
    all_out(1, disk + offset + (done - 16), bytes - (size_t)(done - 16));
  }
}
