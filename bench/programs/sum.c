/* A sum over a linear congruential sequence: arithmetic in locals alone. */
#include "program.h"

static u32 sum(u32 rounds) {
    u32 state = 12345, total = 0;
    for (u32 i = 0; i < rounds; i++) {
        state = state * 1664525u + 1013904223u;
        total += state >> 16;
        if (state & 1) total ^= i;
    }
    return total;
}

PROGRAM(sum(6000000))
