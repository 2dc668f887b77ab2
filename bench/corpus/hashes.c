/* Hashes that take a word or a byte at a time: FNV-1a, murmur3 of 32 bits, and one of 64 bits in four lanes. */
#include "program.h"
#define SIZE 16384

static u8 data[SIZE];

static u32 rotl(u32 x, u32 n) { return x << n | x >> (32 - n); }
static u64 rotl64(u64 x, u32 n) { return x << n | x >> (64 - n); }
static u32 word(const u8 *at) { return (u32)at[0] | (u32)at[1] << 8 | (u32)at[2] << 16 | (u32)at[3] << 24; }
static u64 wide(const u8 *at) { return word(at) | (u64)word(at + 4) << 32; }

static u32 fnv(const u8 *at, u32 size) {
    u32 h = 2166136261u;
    for (u32 i = 0; i < size; i++) h = (h ^ at[i]) * 16777619u;
    return h;
}

static u32 murmur(const u8 *at, u32 size, u32 seed) {
    u32 h = seed;
    for (u32 i = 0; i + 4 <= size; i += 4) {
        h ^= rotl(word(at + i) * 0xcc9e2d51u, 15) * 0x1b873593u;
        h = rotl(h, 13) * 5 + 0xe6546b64u;
    }
    u32 rest = 0;
    for (u32 i = size & 3; i > 0; i--) rest = rest << 8 | at[(size & ~3u) + i - 1];
    h ^= rotl(rest * 0xcc9e2d51u, 15) * 0x1b873593u ^ size;
    h = (h ^ h >> 16) * 0x85ebca6bu;
    h = (h ^ h >> 13) * 0xc2b2ae35u;
    return h ^ h >> 16;
}

static const u64 P1 = 11400714785074694791ull, P2 = 14029467366897019727ull, P3 = 1609587929392839161ull;

static u64 lanes(const u8 *at, u32 size, u64 seed) {
    u64 v[4], h;
    u32 i = 0;
    v[0] = seed + P1 + P2;
    v[1] = seed + P2;
    v[2] = seed;
    v[3] = seed - P1;
    for (; i + 32 <= size; i += 32)
        for (u32 k = 0; k < 4; k++) v[k] = rotl64(v[k] + wide(at + i + 8 * k) * P2, 31) * P1;
    h = rotl64(v[0], 1) + rotl64(v[1], 7) + rotl64(v[2], 12) + rotl64(v[3], 18);
    for (u32 k = 0; k < 4; k++) h = (h ^ rotl64(v[k] * P2, 31) * P1) * P1 + P3;
    for (h += size; i < size; i++) h = rotl64(h ^ at[i] * P3, 11) * P1;
    h = (h ^ h >> 33) * P2;
    h = (h ^ h >> 29) * P3;
    return h ^ h >> 32;
}

static u32 run(u32 rounds) {
    u32 sum = 0;
    for (u32 i = 0; i < SIZE; i++) data[i] = (u8)(i * i >> 3 ^ i);
    for (u32 round = 0; round < rounds; round++) {
        u32 size = SIZE - round * 7;
        u64 h = lanes(data, size, sum);
        sum = sum * 31 + (fnv(data, size) ^ murmur(data, size, round) ^ (u32)h ^ (u32)(h >> 32));
        data[round & (SIZE - 1)] ^= (u8)sum;
    }
    return sum;
}

PROGRAM(run(120))
