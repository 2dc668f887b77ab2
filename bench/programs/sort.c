/* Heap sort of 60,000 words, twice: compares and swaps in memory. */
#include "program.h"
#define SIZE 60000

static u32 items[SIZE];

static void sift(u32 start, u32 end) {
    u32 root = start;
    while (2 * root + 1 < end) {
        u32 child = 2 * root + 1;
        if (child + 1 < end && items[child] < items[child + 1]) child++;
        if (items[root] >= items[child]) return;
        u32 t = items[root];
        items[root] = items[child];
        items[child] = t;
        root = child;
    }
}

static u32 sort(u32 rounds) {
    u32 sum = 0, state = 1;
    for (u32 round = 0; round < rounds; round++) {
        for (u32 i = 0; i < SIZE; i++) items[i] = state = state * 1103515245u + 12345u;
        for (u32 i = SIZE / 2; i-- > 0;) sift(i, SIZE);
        for (u32 end = SIZE; end-- > 1;) {
            u32 t = items[0];
            items[0] = items[end];
            items[end] = t;
            sift(0, end);
        }
        for (u32 i = 1; i < SIZE; i++) sum += (items[i - 1] <= items[i]) * i ^ items[i];
    }
    return sum;
}

PROGRAM(sort(2))
