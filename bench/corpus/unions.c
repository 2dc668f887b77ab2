/* Sets that are joined: parts of a random graph, the least spanning tree by Kruskal, and when water runs through a grid. */
#include "program.h"
#define NODES 4096
#define EDGES 12000

static u32 parent[NODES + 2], rank_[NODES + 2];
static struct Edge { u32 weight; unsigned short a, b; } edges[EDGES];
static u8 open[NODES];

static void begin(u32 count) {
    for (u32 i = 0; i < count; i++) {
        parent[i] = i;
        rank_[i] = 0;
    }
}

static u32 find(u32 x) {
    while (parent[x] != x) x = parent[x] = parent[parent[x]];
    return x;
}

static int join(u32 a, u32 b) {
    a = find(a);
    b = find(b);
    if (a == b) return 0;
    if (rank_[a] < rank_[b]) parent[a] = b;
    else parent[b] = a;
    rank_[a] += rank_[a] == rank_[b];
    return 1;
}

static void sort(u32 count) {
    static struct Edge spare[EDGES];
    static u32 places[4097];
    for (u32 shift = 0; shift < 24; shift += 12) {
        for (u32 i = 0; i < 4097; i++) places[i] = 0;
        for (u32 i = 0; i < count; i++) places[(edges[i].weight >> shift & 4095) + 1]++;
        for (u32 i = 1; i < 4097; i++) places[i] += places[i - 1];
        for (u32 i = 0; i < count; i++) spare[places[edges[i].weight >> shift & 4095]++] = edges[i];
        for (u32 i = 0; i < count; i++) edges[i] = spare[i];
    }
}

static u32 percolates(u32 state) {
    u32 opened = 0;
    begin(NODES + 2);
    for (u32 i = 0; i < NODES; i++) open[i] = 0;
    while (find(NODES) != find(NODES + 1)) {
        state = state * 1664525u + 1013904223u;
        u32 i = state >> 20, x = i % 64, y = i / 64;
        if (open[i]) continue;
        open[i] = 1;
        opened++;
        if (y == 0) join(i, NODES);
        else if (open[i - 64]) join(i, i - 64);
        if (y == 63) join(i, NODES + 1);
        else if (open[i + 64]) join(i, i + 64);
        if (x > 0 && open[i - 1]) join(i, i - 1);
        if (x < 63 && open[i + 1]) join(i, i + 1);
    }
    return opened;
}

static u32 run(u32 rounds) {
    u32 sum = 0, state = 1;
    for (u32 round = 0; round < rounds; round++) {
        for (u32 i = 0; i < EDGES; i++) {
            state = state * 1103515245u + 12345u;
            edges[i].weight = state >> 8;
            edges[i].a = state >> 13 & 4095;
            edges[i].b = (unsigned short)((state ^ state >> 7) >> 3 & 4095);
        }
        sort(EDGES);
        begin(NODES);
        for (u32 i = 0; i < EDGES; i++)
            if (join(edges[i].a, edges[i].b)) sum += edges[i].weight;
        sum = sum * 31 + percolates(state);
    }
    return sum;
}

PROGRAM(run(20))
