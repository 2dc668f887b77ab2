/* A list with lanes that skip: keys go in and out, sums over ranges, beside a map with chains that grows. */
#include "program.h"
#define NODES 6000
#define LEVELS 12

typedef struct { u32 key, value; unsigned short next[LEVELS]; } Node;

static Node nodes[NODES];
static unsigned short unused[NODES];
static u32 free_count, state = 1;

static struct { u32 key, value, next; } entries[NODES];
static u32 heads[4096], slots = 64, entry_count;

static u32 random_level(void) {
    state = state * 1664525u + 1013904223u;
    u32 level = 1;
    for (u32 bits = state >> 8; (bits & 3) == 0 && level < LEVELS; bits >>= 2) level++;
    return level;
}

static u32 path(u32 key, unsigned short *before) {
    u32 at = 0;
    for (u32 level = LEVELS; level-- > 0;) {
        while (nodes[at].next[level] && nodes[nodes[at].next[level]].key < key) at = nodes[at].next[level];
        before[level] = (unsigned short)at;
    }
    return nodes[at].next[0];
}

static void insert(u32 key, u32 value) {
    unsigned short before[LEVELS];
    u32 at = path(key, before);
    if (at && nodes[at].key == key) nodes[at].value += value;
    if ((at && nodes[at].key == key) || !free_count) return;
    u32 node = unused[--free_count], levels = random_level();
    nodes[node] = (Node){.key = key, .value = value};
    for (u32 level = 0; level < levels; level++) {
        nodes[node].next[level] = nodes[before[level]].next[level];
        nodes[before[level]].next[level] = (unsigned short)node;
    }
}

static void erase(u32 key) {
    unsigned short before[LEVELS];
    u32 at = path(key, before);
    if (!at || nodes[at].key != key) return;
    for (u32 level = 0; level < LEVELS && nodes[before[level]].next[level] == at; level++)
        nodes[before[level]].next[level] = nodes[at].next[level];
    unused[free_count++] = (unsigned short)at;
}

static u32 hash(u32 key) { return (key * 2654435761u >> 16) & (slots - 1); }

static void count(u32 key) {
    u32 entry = heads[hash(key)];
    while (entry && entries[entry].key != key) entry = entries[entry].next;
    if (!entry) {
        if (entry_count > slots && slots < 4096) {
            slots *= 2;
            for (u32 i = 0; i < slots; i++) heads[i] = 0;
            for (u32 i = 1, h; h = hash(entries[i].key), i <= entry_count; i++) entries[i].next = heads[h], heads[h] = i;
        }
        entry = ++entry_count;
        entries[entry].key = key, entries[entry].value = 0;
        entries[entry].next = heads[hash(key)], heads[hash(key)] = entry;
    }
    entries[entry].value++;
}

static u32 run(u32 steps) {
    u32 sum = 0;
    for (u32 i = 1; i < NODES; i++) unused[free_count++] = (unsigned short)i;
    for (u32 step = 0; step < steps; step++) {
        state = state * 1664525u + 1013904223u;
        u32 key = 1 + (state >> 20);
        if (state >> 13 & 3) insert(key, step);
        else erase(key);
        count(key);
        if (step % 64 == 0) {
            unsigned short before[LEVELS];
            u32 left = 50;
            for (u32 at = path(key, before); at && left-- > 0; at = nodes[at].next[0]) sum = sum * 31 + nodes[at].value;
        }
    }
    for (u32 i = 1; i <= entry_count; i++) sum = sum * 31 + entries[i].value;
    return sum;
}

PROGRAM(run(130000))
