/* Makers of random numbers: the Mersenne twister, PCG, xorshift*, splitmix and a lagged sum; each fills a table of counts. */
#include "program.h"
#define WORDS 624

static u32 twister[WORDS], at = WORDS;
static u64 pcg_state = 42, star = 88172645463325252ull, split = 7;
static u32 lagged[55], lag;
static u32 counts[5][256];

static void seed(u32 number) {
    for (u32 i = 0; i < WORDS; i++) {
        twister[i] = number;
        number = 1812433253u * (number ^ number >> 30) + i + 1;
    }
    for (u32 i = 0; i < 55; i++) lagged[i] = twister[i] ^ i;
}

static u32 by_twister(void) {
    if (at == WORDS) {
        for (u32 i = 0; i < WORDS; i++) {
            u32 y = (twister[i] & 0x80000000u) | (twister[(i + 1) % WORDS] & 0x7fffffffu);
            twister[i] = twister[(i + 397) % WORDS] ^ y >> 1 ^ (y & 1 ? 0x9908b0dfu : 0);
        }
        at = 0;
    }
    u32 y = twister[at++];
    y ^= y >> 11;
    y ^= y << 7 & 0x9d2c5680u;
    y ^= y << 15 & 0xefc60000u;
    return y ^ y >> 18;
}

static u32 by_pcg(void) {
    u64 old = pcg_state;
    pcg_state = old * 6364136223846793005ull + 1442695040888963407ull;
    u32 shifted = (u32)((old >> 18 ^ old) >> 27), turn = (u32)(old >> 59);
    return shifted >> turn | shifted << (-turn & 31);
}

static u32 by_star(void) {
    star ^= star >> 12;
    star ^= star << 25;
    star ^= star >> 27;
    return (u32)(star * 2685821657736338717ull >> 32);
}

static u32 by_split(void) {
    u64 z = split += 0x9E3779B97F4A7C15ull;
    z = (z ^ z >> 30) * 0xBF58476D1CE4E5B9ull;
    z = (z ^ z >> 27) * 0x94D049BB133111EBull;
    return (u32)(z ^ z >> 31);
}

static u32 by_lag(void) {
    lag = lag + 1 < 55 ? lag + 1 : 0;
    return lagged[lag] += lagged[(lag + 31) % 55];
}

static u32 run(u32 rounds) {
    static u32 (*const makers[])(void) = {by_twister, by_pcg, by_star, by_split, by_lag};
    u32 sum = 0;
    seed(5489);
    for (u32 i = 0; i < rounds; i++)
        for (u32 maker = 0; maker < 5; maker++) {
            u32 number = makers[maker]();
            counts[maker][number >> 24]++;
            sum = (sum << 1 | sum >> 31) ^ number;
        }
    for (u32 maker = 0; maker < 5; maker++)
        for (u32 i = 0; i < 256; i++) sum = sum * 31 + counts[maker][i];
    return sum;
}

PROGRAM(run(200000))
