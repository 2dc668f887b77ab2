/* A map with open addressing: 600,000 insertions and look-ups of 64-bit keys. */
#include "program.h"
#define SLOTS 32768

static u64 keys[SLOTS];
static u32 values[SLOTS];

static u32 slot_of(u64 key) {
    u64 h = key * 0x9E3779B97F4A7C15ull;
    u32 slot = (u32)(h >> 49);
    while (keys[slot] != 0 && keys[slot] != key) slot = (slot + 1) & (SLOTS - 1);
    return slot;
}

static u32 map(u32 rounds) {
    u64 state = 88172645463325252ull;
    u32 sum = 0;
    for (u32 i = 0; i < rounds; i++) {
        state ^= state << 13;
        state ^= state >> 7;
        state ^= state << 17;
        u64 key = (state & 16383) + 1;
        u32 slot = slot_of(key);
        keys[slot] = key;
        values[slot] += i;
        sum ^= values[slot_of((state >> 20 & 16383) + 1)] + slot;
    }
    return sum;
}

PROGRAM(map(600000))
