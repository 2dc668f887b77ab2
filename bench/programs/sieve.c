/* The sieve of Eratosthenes over 600,000 numbers, four times: single bytes of memory. */
#include "program.h"
#define SIZE 600000

static u8 composite[SIZE];

static u32 sieve(u32 rounds) {
    u32 count = 0;
    for (u32 round = 0; round < rounds; round++) {
        for (u32 i = 0; i < SIZE; i++) composite[i] = 0;
        for (u32 i = 2; i * i < SIZE; i++)
            if (!composite[i])
                for (u32 j = i * i; j < SIZE; j += i) composite[j] = 1;
        for (u32 i = 2; i < SIZE; i++) count += !composite[i];
    }
    return count;
}

PROGRAM(sieve(4))
