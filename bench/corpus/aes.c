/* AES-128 by bytes, its table made by products in GF(256): chained blocks there and back. */
#include "program.h"

static u8 box[256], inverse[256], keys[176];

static u8 twice(u8 x) { return (u8)(x << 1 ^ (x >> 7) * 0x1b); }

static u8 times(u8 x, u8 y) {
    u8 product = 0;
    for (; y; y >>= 1, x = twice(x))
        if (y & 1) product ^= x;
    return product;
}

static void make_boxes(void) {
    u8 p = 1, q = 1;
    do {
        p ^= twice(p);
        q ^= (u8)(q << 1);
        q ^= (u8)(q << 2);
        q ^= (u8)(q << 4);
        if (q & 0x80) q ^= 9;
        u32 x = q | (u32)q << 8;
        box[p] = (u8)(q ^ x >> 7 ^ x >> 6 ^ x >> 5 ^ x >> 4 ^ 0x63);
    } while (p != 1);
    box[0] = 0x63;
    for (u32 i = 0; i < 256; i++) inverse[box[i]] = (u8)i;
}

static void expand(const u8 *key) {
    u8 t[4], power = 1;
    for (u32 i = 0; i < 176; i++) {
        if (i < 16) {
            keys[i] = key[i];
            continue;
        }
        if (i % 4 == 0) {
            for (u32 k = 0; k < 4; k++) t[k] = i % 16 ? keys[i - 4 + k] : box[keys[i - 4 + ((k + 1) & 3)]];
            if (i % 16 == 0) t[0] ^= power, power = twice(power);
        }
        keys[i] = keys[i - 16] ^ t[i & 3];
    }
}

static void encrypt(u8 *s) {
    u8 t[16];
    for (u32 i = 0; i < 16; i++) s[i] ^= keys[i];
    for (u32 round = 1; round <= 10; round++) {
        for (u32 i = 0; i < 16; i++) t[i] = box[s[(i + 4 * (i & 3)) & 15]];
        for (u32 c = 0; c < 16; c += 4) {
            u8 all = t[c] ^ t[c + 1] ^ t[c + 2] ^ t[c + 3];
            for (u32 r = 0; r < 4; r++) {
                u8 mixed = round < 10 ? (u8)(all ^ twice(t[c + r] ^ t[c + ((r + 1) & 3)])) : 0;
                s[c + r] = (u8)(t[c + r] ^ mixed ^ keys[16 * round + c + r]);
            }
        }
    }
}

static void decrypt(u8 *s) {
    static const u8 weights[4] = {14, 11, 13, 9};
    u8 t[16];
    for (u32 i = 0; i < 16; i++) s[i] ^= keys[160 + i];
    for (u32 round = 10; round-- > 0;) {
        for (u32 i = 0; i < 16; i++) t[(i + 4 * (i & 3)) & 15] = inverse[s[i]];
        for (u32 i = 0; i < 16; i++) t[i] ^= keys[16 * round + i];
        for (u32 i = 0; i < 16; i++) {
            s[i] = round ? 0 : t[i];
            for (u32 k = 0; round && k < 4; k++) s[i] ^= times(t[(i & 12) + ((i + k) & 3)], weights[k]);
        }
    }
}

static u32 run(u32 rounds) {
    u8 state[16], key[16];
    u32 sum = 0;
    make_boxes();
    for (u32 i = 0; i < 16; i++) state[i] = (u8)i, key[i] = (u8)(i * 17);
    for (u32 round = 0; round < rounds; round++) {
        if (round % 16 == 0) expand(key);
        encrypt(state);
        if (round % 4 == 3) decrypt(state);
        state[round & 15] ^= (u8)round;
        for (u32 i = 0; i < 16; i++) sum = sum * 31 + state[i];
        key[round & 15] ^= (u8)sum;
    }
    return sum;
}

PROGRAM(run(4000))
