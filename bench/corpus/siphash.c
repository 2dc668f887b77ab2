/* SipHash-2-4 of many short texts, the keys of a table of counts. */
#include "program.h"
#define SLOTS 8192

static u64 v0, v1, v2, v3;
static struct { u64 hash; u32 count; } table[SLOTS];

static u64 rotl(u64 x, u32 n) { return x << n | x >> (64 - n); }

static void round_(void) {
    v0 += v1; v1 = rotl(v1, 13) ^ v0; v0 = rotl(v0, 32);
    v2 += v3; v3 = rotl(v3, 16) ^ v2;
    v0 += v3; v3 = rotl(v3, 21) ^ v0;
    v2 += v1; v1 = rotl(v1, 17) ^ v2; v2 = rotl(v2, 32);
}

static u64 siphash(const u8 *text, u32 size, u64 k0, u64 k1) {
    v0 = k0 ^ 0x736f6d6570736575ull;
    v1 = k1 ^ 0x646f72616e646f6dull;
    v2 = k0 ^ 0x6c7967656e657261ull;
    v3 = k1 ^ 0x7465646279746573ull;
    u64 word = 0;
    for (u32 i = 0; i < size; i++) {
        word |= (u64)text[i] << (8 * (i & 7));
        if ((i & 7) != 7) continue;
        v3 ^= word;
        round_();
        round_();
        v0 ^= word;
        word = 0;
    }
    word |= (u64)size << 56;
    v3 ^= word;
    round_();
    round_();
    v0 ^= word;
    v2 ^= 255;
    for (u32 i = 0; i < 4; i++) round_();
    return v0 ^ v1 ^ v2 ^ v3;
}

static u32 digits(u8 *out, u32 number) {
    u32 size = 0;
    do out[size++] = (u8)('0' + number % 10);
    while (number /= 10);
    return size;
}

static u32 run(u32 rounds) {
    u8 text[32];
    u32 sum = 0;
    for (u32 i = 0; i < rounds; i++) {
        u32 number = i * 2654435761u >> 19, size = digits(text, number);
        size += digits(text + size, number * 77777u);
        u64 hash = siphash(text, size, 0x0706050403020100ull, 0x0f0e0d0c0b0a0908ull);
        u32 slot = (u32)hash & (SLOTS - 1);
        for (u32 tries = 0; table[slot].count && table[slot].hash != hash && tries < 16; tries++)
            slot = (slot + 1) & (SLOTS - 1);
        table[slot].hash = hash;
        sum = sum * 31 + ++table[slot].count + (u32)(hash >> 40);
    }
    return sum;
}

PROGRAM(run(80000))
