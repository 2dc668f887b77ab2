/* SHA-1 and HMAC over it, of messages of growing lengths. */
#include "program.h"

typedef struct { u32 h[5]; u8 block[64]; u32 used, total; } Sha1;

static u32 rotl(u32 x, u32 n) { return x << n | x >> (32 - n); }

static void compress(Sha1 *s) {
    u32 w[80], a = s->h[0], b = s->h[1], c = s->h[2], d = s->h[3], e = s->h[4];
    for (u32 i = 0; i < 16; i++) {
        const u8 *at = s->block + 4 * i;
        w[i] = (u32)at[0] << 24 | (u32)at[1] << 16 | (u32)at[2] << 8 | at[3];
    }
    for (u32 i = 16; i < 80; i++) w[i] = rotl(w[i - 3] ^ w[i - 8] ^ w[i - 14] ^ w[i - 16], 1);
    for (u32 i = 0; i < 80; i++) {
        u32 f, k;
        if (i < 20) f = (b & c) | (~b & d), k = 0x5a827999u;
        else if (i < 40) f = b ^ c ^ d, k = 0x6ed9eba1u;
        else if (i < 60) f = (b & c) | (b & d) | (c & d), k = 0x8f1bbcdcu;
        else f = b ^ c ^ d, k = 0xca62c1d6u;
        u32 t = rotl(a, 5) + f + e + k + w[i];
        e = d, d = c, c = rotl(b, 30), b = a, a = t;
    }
    s->h[0] += a, s->h[1] += b, s->h[2] += c, s->h[3] += d, s->h[4] += e;
    s->used = 0;
}

static void begin(Sha1 *s) {
    s->h[0] = 0x67452301u, s->h[1] = 0xefcdab89u, s->h[2] = 0x98badcfeu, s->h[3] = 0x10325476u, s->h[4] = 0xc3d2e1f0u;
    s->used = s->total = 0;
}

static void add(Sha1 *s, const u8 *data, u32 size) {
    s->total += size;
    for (u32 i = 0; i < size; i++) {
        s->block[s->used++] = data[i];
        if (s->used == 64) compress(s);
    }
}

static void end(Sha1 *s, u8 *out) {
    u32 bits = s->total * 8;
    u8 byte = 0x80, zero = 0;
    add(s, &byte, 1);
    while (s->used != 60) add(s, &zero, 1);
    for (u32 i = 4; i-- > 0;) {
        byte = (u8)(bits >> (8 * i));
        add(s, &byte, 1);
    }
    for (u32 i = 0; i < 20; i++) out[i] = (u8)(s->h[i / 4] >> (24 - 8 * (i & 3)));
}

static void hmac(const u8 *key, const u8 *data, u32 size, u8 *out) {
    static Sha1 s;
    u8 pad[64];
    for (u32 i = 0; i < 64; i++) pad[i] = (i < 20 ? key[i] : 0) ^ 0x36;
    begin(&s), add(&s, pad, 64), add(&s, data, size), end(&s, out);
    for (u32 i = 0; i < 64; i++) pad[i] ^= 0x36 ^ 0x5c;
    begin(&s), add(&s, pad, 64), add(&s, out, 20), end(&s, out);
}

static u32 run(u32 rounds) {
    static u8 data[4096], key[20];
    u32 sum = 0;
    for (u32 i = 0; i < sizeof data; i++) data[i] = (u8)(i ^ i >> 5);
    for (u32 round = 0; round < rounds; round++) {
        hmac(key, data, round * 13 % sizeof data, key);
        for (u32 i = 0; i < 20; i++) sum = sum * 33 + key[i];
    }
    return sum;
}

PROGRAM(run(250))
