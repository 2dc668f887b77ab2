/* CRC-32 by a table of 256 words, over 64 KiB of memory again and again: table look-ups. */
#include "program.h"
#define SIZE 65536

static u32 table[256];
static u8 data[SIZE];

static u32 crc(u32 rounds) {
    for (u32 i = 0; i < 256; i++) {
        u32 c = i;
        for (int k = 0; k < 8; k++) c = c & 1 ? 0xEDB88320u ^ (c >> 1) : c >> 1;
        table[i] = c;
    }
    for (u32 i = 0; i < SIZE; i++) data[i] = (u8)(i * 31 + (i >> 7));
    u32 c = 0xFFFFFFFFu;
    for (u32 round = 0; round < rounds; round++)
        for (u32 i = 0; i < SIZE; i++) c = table[(c ^ data[i]) & 0xFF] ^ (c >> 8);
    return ~c;
}

PROGRAM(crc(60))
