/* Base64 there and back, hexadecimal there and back, and CRC-64 of each form. */
#include "program.h"
#define SIZE 12000

static u8 plain[SIZE], again[SIZE + 3];
static char text[SIZE * 2 + 8];
static u64 crc_table[256];
static u8 values[128];
static const char letters[] = "ABCDEFGHIJKLMNOPQRSTUVWXYZabcdefghijklmnopqrstuvwxyz0123456789+/";

static u64 crc64(const void *data, u32 size) {
    const u8 *at = data;
    u64 crc = ~0ull;
    for (u32 i = 0; i < size; i++) crc = crc_table[(crc ^ at[i]) & 255] ^ crc >> 8;
    return ~crc;
}

static u32 encode(u32 size) {
    u32 out = 0;
    for (u32 i = 0; i < size; i += 3) {
        u32 group = (u32)plain[i] << 16, left = size - i;
        if (left > 1) group |= (u32)plain[i + 1] << 8;
        if (left > 2) group |= plain[i + 2];
        text[out++] = letters[group >> 18];
        text[out++] = letters[group >> 12 & 63];
        text[out++] = left > 1 ? letters[group >> 6 & 63] : '=';
        text[out++] = left > 2 ? letters[group & 63] : '=';
    }
    return out;
}

static u32 decode(u32 size) {
    u32 out = 0, bits = 0, held = 0;
    for (u32 i = 0; i < size && text[i] != '='; i++) {
        held = held << 6 | values[(u8)text[i]];
        bits += 6;
        if (bits >= 8) again[out++] = (u8)(held >> (bits -= 8));
    }
    return out;
}

static u32 to_hex(u32 size) {
    for (u32 i = 0; i < size; i++) {
        text[2 * i] = "0123456789abcdef"[plain[i] >> 4];
        text[2 * i + 1] = "0123456789abcdef"[plain[i] & 15];
    }
    return size * 2;
}

static u32 digit(char c) { return c <= '9' ? (u32)(c - '0') : (u32)(c - 'a') + 10; }

static u32 run(u32 rounds) {
    u32 sum = 0;
    for (u32 i = 0; i < 64; i++) values[(u8)letters[i]] = (u8)i;
    for (u32 i = 0; i < 256; i++) {
        crc_table[i] = i;
        for (u32 k = 0; k < 8; k++)
            crc_table[i] = crc_table[i] & 1 ? crc_table[i] >> 1 ^ 0xC96C5795D7870F42ull : crc_table[i] >> 1;
    }
    for (u32 round = 0; round < rounds; round++) {
        u32 size = SIZE - round;
        for (u32 i = 0; i < size; i++) plain[i] = (u8)(i * (round + 3) ^ i >> 4);
        u32 length = encode(size);
        sum = sum * 31 + (u32)crc64(text, length);
        u32 back = decode(length);
        for (u32 i = 0; i < size; i++) sum += back != size || again[i] != plain[i];
        length = to_hex(size);
        sum ^= (u32)(crc64(text, length) >> 32);
        for (u32 i = 0; i < size; i++) sum += (digit(text[2 * i]) << 4 | digit(text[2 * i + 1])) == plain[i];
    }
    return sum;
}

PROGRAM(run(25))
