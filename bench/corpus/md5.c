/* MD5 of a message of 48 KiB, over and over. */
#include "program.h"
#define SIZE 49152

static u8 data[SIZE + 64];
static u32 state[4];
static const u8 shifts[16] = {7, 12, 17, 22, 5, 9, 14, 20, 4, 11, 16, 23, 6, 10, 15, 21};
static const u32 sines[64] = {
    0xd76aa478, 0xe8c7b756, 0x242070db, 0xc1bdceee, 0xf57c0faf, 0x4787c62a, 0xa8304613, 0xfd469501, 0x698098d8, 0x8b44f7af,
    0xffff5bb1, 0x895cd7be, 0x6b901122, 0xfd987193, 0xa679438e, 0x49b40821, 0xf61e2562, 0xc040b340, 0x265e5a51, 0xe9b6c7aa,
    0xd62f105d, 0x02441453, 0xd8a1e681, 0xe7d3fbc8, 0x21e1cde6, 0xc33707d6, 0xf4d50d87, 0x455a14ed, 0xa9e3e905, 0xfcefa3f8,
    0x676f02d9, 0x8d2a4c8a, 0xfffa3942, 0x8771f681, 0x6d9d6122, 0xfde5380c, 0xa4beea44, 0x4bdecfa9, 0xf6bb4b60, 0xbebfbc70,
    0x289b7ec6, 0xeaa127fa, 0xd4ef3085, 0x04881d05, 0xd9d4d039, 0xe6db99e5, 0x1fa27cf8, 0xc4ac5665, 0xf4292244, 0x432aff97,
    0xab9423a7, 0xfc93a039, 0x655b59c3, 0x8f0ccc92, 0xffeff47d, 0x85845dd1, 0x6fa87e4f, 0xfe2ce6e0, 0xa3014314, 0x4e0811a1,
    0xf7537e82, 0xbd3af235, 0x2ad7d2bb, 0xeb86d391,
};

static void block(const u8 *at) {
    u32 words[16], a = state[0], b = state[1], c = state[2], d = state[3];
    for (u32 i = 0; i < 16; i++, at += 4)
        words[i] = (u32)at[0] | (u32)at[1] << 8 | (u32)at[2] << 16 | (u32)at[3] << 24;
    for (u32 i = 0; i < 64; i++) {
        u32 f, k;
        switch (i / 16) {
        case 0: f = (b & c) | (~b & d); k = i; break;
        case 1: f = (d & b) | (~d & c); k = 5 * i + 1; break;
        case 2: f = b ^ c ^ d; k = 3 * i + 5; break;
        default: f = c ^ (b | ~d); k = 7 * i;
        }
        f += a + sines[i] + words[k & 15];
        u32 shift = shifts[i / 16 * 4 + (i & 3)];
        a = d;
        d = c;
        c = b;
        b += f << shift | f >> (32 - shift);
    }
    state[0] += a;
    state[1] += b;
    state[2] += c;
    state[3] += d;
}

static u32 run(u32 rounds) {
    u32 sum = 0;
    for (u32 i = 0; i < SIZE; i++) data[i] = (u8)(i * 131 >> 3);
    data[SIZE] = 0x80;
    for (u32 i = 0; i < 4; i++) data[SIZE + 56 + i] = (u8)((u64)SIZE * 8 >> (8 * i));
    for (u32 round = 0; round < rounds; round++) {
        state[0] = 0x67452301u;
        state[1] = 0xefcdab89u;
        state[2] = 0x98badcfeu;
        state[3] = 0x10325476u;
        for (u32 at = 0; at < SIZE + 64; at += 64) block(data + at);
        for (u32 i = 0; i < 4; i++) sum = sum * 31 ^ state[i];
        data[round] ^= (u8)sum;
    }
    return sum;
}

PROGRAM(run(20))
