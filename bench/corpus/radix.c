/* Radix sort of 64-bit keys by bytes, and shell sort of what it gave, put out of order again. */
#include "program.h"
#define SIZE 20000

static u64 keys[SIZE], spare[SIZE];

static void radix(void) {
    u64 *from = keys, *to = spare;
    for (u32 shift = 0; shift < 64; shift += 8) {
        static u32 places[257];
        for (u32 i = 0; i < 257; i++) places[i] = 0;
        for (u32 i = 0; i < SIZE; i++) places[(from[i] >> shift & 255) + 1]++;
        for (u32 i = 1; i < 257; i++) places[i] += places[i - 1];
        for (u32 i = 0; i < SIZE; i++) to[places[from[i] >> shift & 255]++] = from[i];
        u64 *other = from;
        from = to;
        to = other;
    }
}

static void shell(void) {
    static const u32 gaps[] = {8929, 3905, 2161, 929, 505, 209, 109, 41, 19, 5, 1};
    for (u32 g = 0; g < sizeof gaps / sizeof *gaps; g++) {
        u32 gap = gaps[g];
        for (u32 i = gap; i < SIZE; i++) {
            u64 key = keys[i];
            u32 at = i;
            for (; at >= gap && keys[at - gap] > key; at -= gap) keys[at] = keys[at - gap];
            keys[at] = key;
        }
    }
}

static u32 run(u32 rounds) {
    u32 sum = 0;
    u64 state = 1;
    for (u32 round = 0; round < rounds; round++) {
        for (u32 i = 0; i < SIZE; i++) {
            state = state * 6364136223846793005ull + 1442695040888963407ull;
            keys[i] = state ^ state >> 29;
        }
        radix();
        for (u32 i = 0; i < SIZE; i++) sum = sum * 3 + (u32)(keys[i] >> 11) + (i > 0 && keys[i] < keys[i - 1]);
        for (u32 i = 0; i < SIZE; i++) keys[i] = keys[i] * 0x9E3779B97F4A7C15ull;
        shell();
        for (u32 i = 1; i < SIZE; i++) sum ^= (u32)(keys[i] - keys[i - 1]) * (keys[i] >= keys[i - 1]);
    }
    return sum;
}

PROGRAM(run(4))
