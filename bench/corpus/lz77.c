/* Compression by references to what came before, found through chains of hashes, and its reverse. */
#include "program.h"
#define SIZE 60000
#define HASHES 4096

static u8 plain[SIZE], packed[SIZE * 2], again[SIZE];
static int heads[HASHES], chain[SIZE];
static const char *const words[] = {"the ", "quick ", "brown ", "fox ", "jumps ", "over ", "lazy ", "dogs ", "and ", "runs ",
                                    "away\n", "from ", "every ", "hunter ", "in ", "town. "};

static void fill(u32 seed) {
    for (u32 at = 0; at < SIZE;) {
        seed = seed * 1664525u + 1013904223u;
        for (const char *c = words[seed >> 28]; *c && at < SIZE; c++) plain[at++] = (u8)*c;
    }
}

static u32 hash(const u8 *at) {
    return ((u32)at[0] << 16 ^ (u32)at[1] << 8 ^ at[2]) * 2654435761u >> 20;
}

static u32 match(u32 a, u32 b) {
    u32 length = 0;
    while (length < 255 && b + length < SIZE && plain[a + length] == plain[b + length]) length++;
    return length;
}

static u32 pack(void) {
    u32 out = 0;
    for (u32 i = 0; i < HASHES; i++) heads[i] = -1;
    for (u32 at = 0; at < SIZE;) {
        u32 best = 0, from = 0, step = 1;
        if (at + 3 < SIZE) {
            int tries = 8;
            for (int i = heads[hash(plain + at)]; i >= 0 && at - (u32)i < 65536 && tries-- > 0; i = chain[i]) {
                u32 length = match((u32)i, at);
                if (length > best) {
                    best = length;
                    from = (u32)i;
                }
            }
        }
        if (best >= 4) {
            packed[out++] = (u8)best;
            packed[out++] = (u8)(at - from);
            packed[out++] = (u8)((at - from) >> 8);
            step = best;
        } else {
            packed[out++] = 0;
            packed[out++] = plain[at];
        }
        for (; step > 0; step--, at++) {
            if (at + 3 >= SIZE) continue;
            u32 slot = hash(plain + at);
            chain[at] = heads[slot];
            heads[slot] = (int)at;
        }
    }
    return out;
}

static u32 unpack(u32 size) {
    u32 out = 0;
    for (u32 in = 0; in < size;) {
        u32 length = packed[in++];
        if (length == 0) {
            again[out++] = packed[in++];
            continue;
        }
        u32 back = packed[in] | (u32)packed[in + 1] << 8;
        in += 2;
        for (; length > 0; length--, out++) again[out] = again[out - back];
    }
    return out;
}

static u32 run(u32 rounds) {
    u32 sum = 0;
    for (u32 round = 0; round < rounds; round++) {
        fill(round + 7);
        u32 size = pack(), length = unpack(size);
        for (u32 i = 0; i < length; i++) sum = sum * 33 + (again[i] == plain[i]) + again[i];
        sum ^= size;
    }
    return sum;
}

PROGRAM(run(4))
