/* Counts and turns of bits: ones in four ways, zeros at either end, reversal, gray codes, the next with as many ones. */
#include "program.h"

static u8 table[256];

static u32 by_loop(u32 x) {
    u32 count = 0;
    for (; x; x &= x - 1) count++;
    return count;
}

static u32 by_sums(u32 x) {
    x -= x >> 1 & 0x55555555u;
    x = (x & 0x33333333u) + (x >> 2 & 0x33333333u);
    return ((x + (x >> 4)) & 0x0f0f0f0fu) * 0x01010101u >> 24;
}

static u32 by_table(u32 x) {
    return table[x & 255] + table[x >> 8 & 255] + table[x >> 16 & 255] + table[x >> 24];
}

static u32 reversed(u32 x) {
    x = (x >> 1 & 0x55555555u) | (x & 0x55555555u) << 1;
    x = (x >> 2 & 0x33333333u) | (x & 0x33333333u) << 2;
    x = (x >> 4 & 0x0f0f0f0fu) | (x & 0x0f0f0f0fu) << 4;
    x = (x >> 8 & 0x00ff00ffu) | (x & 0x00ff00ffu) << 8;
    return x >> 16 | x << 16;
}

static u32 log2_of(u32 x) {
    u32 log = 0;
    for (u32 step = 16; step > 0; step >>= 1)
        if (x >> step) {
            x >>= step;
            log += step;
        }
    return log;
}

static u32 ungray(u32 x) {
    for (u32 step = 1; step < 32; step <<= 1) x ^= x >> step;
    return x;
}

static u32 next_alike(u32 x) {
    u32 low = x & -x, ripple = x + low;
    return ripple | ((x ^ ripple) >> 2) / low;
}

static u32 run(u32 rounds) {
    u32 sum = 0, x = 0x12345, alike = 0x1f;
    for (u32 i = 1; i < 256; i++) table[i] = (u8)(table[i >> 1] + (i & 1));
    for (u32 i = 0; i < rounds; i++) {
        x = x * 1664525u + 1013904223u;
        sum = sum * 5 + by_loop(x) + by_sums(x ^ i) + by_table(x + i) + (u32)__builtin_popcount(x * 3);
        sum ^= reversed(x) + ungray(i ^ i >> 1) + log2_of(x | 1);
        sum ^= (u32)__builtin_clz(x | 1) + (u32)__builtin_ctz(x | 1u << 31);
        alike = alike > 0xffffff ? 0x1f : next_alike(alike);
        sum += alike;
    }
    return sum;
}

PROGRAM(run(250000))
