/* Ciphers of streams and small blocks: ChaCha20, RC4 and XTEA, over the same page and back. */
#include "program.h"
#define SIZE 16384

static u8 page[SIZE];

static u32 rotl(u32 x, u32 n) { return x << n | x >> (32 - n); }

static void quarter(u32 *x, u32 a, u32 b, u32 c, u32 d) {
    x[a] += x[b], x[d] = rotl(x[d] ^ x[a], 16);
    x[c] += x[d], x[b] = rotl(x[b] ^ x[c], 12);
    x[a] += x[b], x[d] = rotl(x[d] ^ x[a], 8);
    x[c] += x[d], x[b] = rotl(x[b] ^ x[c], 7);
}

static void chacha(const u32 *key, u32 nonce) {
    u32 input[16], x[16];
    static const u32 words[4] = {0x61707865, 0x3320646e, 0x79622d32, 0x6b206574};
    for (u32 i = 0; i < 16; i++) input[i] = i < 4 ? words[i] : i < 12 ? key[i - 4] : i == 13 ? nonce : 0;
    for (u32 at = 0; at < SIZE; at += 64, input[12]++) {
        for (u32 i = 0; i < 16; i++) x[i] = input[i];
        for (u32 round = 0; round < 10; round++) {
            quarter(x, 0, 4, 8, 12), quarter(x, 1, 5, 9, 13), quarter(x, 2, 6, 10, 14), quarter(x, 3, 7, 11, 15);
            quarter(x, 0, 5, 10, 15), quarter(x, 1, 6, 11, 12), quarter(x, 2, 7, 8, 13), quarter(x, 3, 4, 9, 14);
        }
        for (u32 i = 0; i < 64; i++) page[at + i] ^= (u8)((x[i / 4] + input[i / 4]) >> (8 * (i & 3)));
    }
}

static void rc4(const u8 *key, u32 size) {
    u8 s[256];
    u32 i, j = 0;
    for (i = 0; i < 256; i++) s[i] = (u8)i;
    for (i = 0; i < 256; i++) {
        j = (j + s[i] + key[i % size]) & 255;
        u8 t = s[i];
        s[i] = s[j], s[j] = t;
    }
    i = j = 0;
    for (u32 at = 0; at < SIZE; at++) {
        i = (i + 1) & 255;
        j = (j + s[i]) & 255;
        u8 t = s[i];
        s[i] = s[j], s[j] = t;
        page[at] ^= s[(s[i] + s[j]) & 255];
    }
}

static u64 xtea(u64 block, const u32 *key) {
    u32 a = (u32)block, b = (u32)(block >> 32), sum = 0;
    for (u32 round = 0; round < 32; round++) {
        a += ((b << 4 ^ b >> 5) + b) ^ (sum + key[sum & 3]);
        sum += 0x9E3779B9u;
        b += ((a << 4 ^ a >> 5) + a) ^ (sum + key[sum >> 11 & 3]);
    }
    return (u64)b << 32 | a;
}

static u32 run(u32 rounds) {
    u32 key[8], sum = 0;
    u64 block = 1;
    for (u32 i = 0; i < 8; i++) key[i] = 0x01020304u * (i + 1);
    for (u32 round = 0; round < rounds; round++) {
        chacha(key, round);
        rc4((const u8 *)"a key of RC4", 12);
        for (u32 i = 0; i < SIZE / 64; i++) block = xtea(block ^ page[i], key);
        for (u32 i = 0; i < SIZE; i += 3) sum = sum * 31 + page[i];
        key[round & 7] ^= (u32)block;
    }
    return sum ^ (u32)(block >> 32);
}

PROGRAM(run(22))
