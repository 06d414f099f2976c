// Submission queue entries, as docs/formats.md has them.
#pragma once
#include <stdint.h>
#include <string.h>

static inline void put_dword(uint8_t entry[64], int index, uint32_t value) {
    for (int i = 0; i < 4; i++) entry[4 * index + i] = (uint8_t)(value >> 8 * i);
}

// An entry of the namespace 1, which is what programs name.
static inline void put_entry(uint8_t entry[64], uint8_t opcode, uint64_t address, uint32_t dword12, uint32_t dword13) {
    memset(entry, 0, 64);
    entry[0] = opcode;
    put_dword(entry, 1, 1);
    put_dword(entry, 10, (uint32_t)address);
    put_dword(entry, 11, (uint32_t)(address >> 32));
    put_dword(entry, 12, dword12);
    put_dword(entry, 13, dword13);
}
