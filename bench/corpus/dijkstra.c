/* Shortest ways over a grid of heights: a queue by a binary heap whose entries know their places. */
#include "program.h"
#define SIZE 96
#define CELLS (SIZE * SIZE)

static u8 cost[CELLS];
static u32 far[CELLS], heap[CELLS], place[CELLS], from[CELLS];
static u32 count;

static void put(u32 at, u32 cell) {
    heap[at] = cell;
    place[cell] = at;
}

static void rise(u32 at, u32 cell) {
    for (; at > 0 && far[heap[(at - 1) / 2]] > far[cell]; at = (at - 1) / 2) put(at, heap[(at - 1) / 2]);
    put(at, cell);
}

static u32 nearest(void) {
    u32 found = heap[0], cell = heap[--count], at = 0;
    for (;;) {
        u32 child = 2 * at + 1;
        if (child >= count) break;
        if (child + 1 < count && far[heap[child + 1]] < far[heap[child]]) child++;
        if (far[heap[child]] >= far[cell]) break;
        put(at, heap[child]);
        at = child;
    }
    put(at, cell);
    return found;
}

static void reach(u32 cell, u32 distance, u32 before) {
    if (distance >= far[cell]) return;
    if (far[cell] == ~0u) place[cell] = count++;
    far[cell] = distance;
    from[cell] = before;
    rise(place[cell], cell);
}

static u32 ways(u32 start, u32 end) {
    for (u32 i = 0; i < CELLS; i++) far[i] = ~0u;
    count = 0;
    reach(start, 0, start);
    while (count > 0) {
        u32 cell = nearest(), x = cell % SIZE, y = cell / SIZE;
        if (x > 0) reach(cell - 1, far[cell] + cost[cell - 1], cell);
        if (x + 1 < SIZE) reach(cell + 1, far[cell] + cost[cell + 1], cell);
        if (y > 0) reach(cell - SIZE, far[cell] + cost[cell - SIZE], cell);
        if (y + 1 < SIZE) reach(cell + SIZE, far[cell] + cost[cell + SIZE], cell);
    }
    u32 steps = 0;
    for (u32 cell = end; cell != start; cell = from[cell]) steps++;
    return far[end] * 1000 + steps;
}

static u32 run(u32 rounds) {
    u32 state = 17, sum = 0;
    for (u32 i = 0; i < CELLS; i++) {
        state = state * 1103515245u + 12345u;
        cost[i] = (u8)(1 + (state >> 16) % 9 + (i * 7 / SIZE % 5 == 0 ? 60 : 0));
    }
    for (u32 round = 0; round < rounds; round++) {
        sum = sum * 31 + ways(round * 977 % CELLS, CELLS - 1 - round * 131 % CELLS);
        cost[sum % CELLS] ^= 3;
    }
    return sum;
}

PROGRAM(run(12))
