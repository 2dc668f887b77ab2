/* BLAKE2b with a key and digests of several lengths. */
#include "program.h"

static const u64 iv[8] = {
    0x6a09e667f3bcc908ull, 0xbb67ae8584caa73bull, 0x3c6ef372fe94f82bull, 0xa54ff53a5f1d36f1ull,
    0x510e527fade682d1ull, 0x9b05688c2b3e6c1full, 0x1f83d9abfb41bd6bull, 0x5be0cd19137e2179ull,
};
static const u8 sigma[10][16] = {
    {0, 1, 2, 3, 4, 5, 6, 7, 8, 9, 10, 11, 12, 13, 14, 15}, {14, 10, 4, 8, 9, 15, 13, 6, 1, 12, 0, 2, 11, 7, 5, 3},
    {11, 8, 12, 0, 5, 2, 15, 13, 10, 14, 3, 6, 7, 1, 9, 4}, {7, 9, 3, 1, 13, 12, 11, 14, 2, 6, 5, 10, 4, 0, 15, 8},
    {9, 0, 5, 7, 2, 4, 10, 15, 14, 1, 11, 12, 6, 8, 3, 13}, {2, 12, 6, 10, 0, 11, 8, 3, 4, 13, 7, 5, 15, 14, 1, 9},
    {12, 5, 1, 15, 14, 13, 4, 10, 0, 7, 6, 3, 9, 2, 8, 11}, {13, 11, 7, 14, 12, 1, 3, 9, 5, 0, 15, 4, 8, 6, 2, 10},
    {6, 15, 14, 9, 11, 3, 0, 8, 12, 2, 13, 7, 1, 4, 10, 5}, {10, 2, 8, 4, 7, 6, 1, 5, 15, 11, 9, 14, 3, 12, 13, 0},
};

static u64 h[8], v[16], m[16];

static u64 rotr(u64 x, u32 n) { return x >> n | x << (64 - n); }

static void mix(u32 a, u32 b, u32 c, u32 d, u64 x, u64 y) {
    v[a] += v[b] + x;
    v[d] = rotr(v[d] ^ v[a], 32);
    v[c] += v[d];
    v[b] = rotr(v[b] ^ v[c], 24);
    v[a] += v[b] + y;
    v[d] = rotr(v[d] ^ v[a], 16);
    v[c] += v[d];
    v[b] = rotr(v[b] ^ v[c], 63);
}

static void compress(const u8 *block, u64 count, int is_last) {
    for (u32 i = 0; i < 16; i++) {
        m[i] = 0;
        for (u32 j = 8; j-- > 0;) m[i] = m[i] << 8 | block[8 * i + j];
        v[i] = i < 8 ? h[i] : iv[i - 8];
    }
    v[12] ^= count;
    if (is_last) v[14] = ~v[14];
    for (u32 round = 0; round < 12; round++) {
        const u8 *s = sigma[round % 10];
        for (u32 i = 0; i < 4; i++) mix(i, i + 4, i + 8, i + 12, m[s[2 * i]], m[s[2 * i + 1]]);
        for (u32 i = 0; i < 4; i++)
            mix(i, 4 + ((i + 1) & 3), 8 + ((i + 2) & 3), 12 + ((i + 3) & 3), m[s[8 + 2 * i]], m[s[9 + 2 * i]]);
    }
    for (u32 i = 0; i < 8; i++) h[i] ^= v[i] ^ v[i + 8];
}

static void blake2(const u8 *data, u32 size, u32 digest) {
    u8 last[128];
    for (u32 i = 0; i < 8; i++) h[i] = iv[i];
    h[0] ^= 0x01010000 ^ digest;
    u32 at = 0;
    for (; size - at > 128; at += 128) compress(data + at, at + 128, 0);
    for (u32 i = 0; i < 128; i++) last[i] = at + i < size ? data[at + i] : 0;
    compress(last, size, 1);
}

static u32 run(u32 rounds) {
    static u8 data[5000];
    u32 sum = 0;
    for (u32 i = 0; i < sizeof data; i++) data[i] = (u8)(i * i >> 4);
    for (u32 round = 0; round < rounds; round++) {
        u32 size = 1 + round * 97 % (sizeof data - 1), digest = 20 + round % 45;
        blake2(data, size, digest);
        for (u32 i = 0; i < digest; i++) sum = sum * 31 + (u8)(h[i / 8] >> (8 * (i & 7)));
        data[round % sizeof data] ^= (u8)sum;
    }
    return sum;
}

PROGRAM(run(250))
