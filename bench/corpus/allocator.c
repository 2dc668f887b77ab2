/* An allocator with a list of free blocks that are joined again, under a load of lists and buffers that come and go. */
#include "program.h"
#define ROOM 65536
#define HELD 512
#define HEAD 32

typedef struct Block { u32 size, is_used; struct Block *before, *next_free, *last_free; } Block;

static u64 room[ROOM / 8];
static Block ring;
static u32 failed;

static Block *after(Block *block) {
    Block *next = (Block *)((u8 *)block + block->size);
    return (u8 *)next < (u8 *)room + ROOM ? next : 0;
}

static void release(Block *block) {
    block->is_used = 0;
    block->next_free = ring.next_free;
    block->last_free = &ring;
    ring.next_free->last_free = block;
    ring.next_free = block;
}

static void take(Block *block) {
    block->is_used = 1;
    block->last_free->next_free = block->next_free;
    block->next_free->last_free = block->last_free;
}

static void *allocate(u32 size) {
    size = (size + HEAD + 7) & ~7u;
    Block *block = ring.next_free;
    while (block != &ring && block->size < size) block = block->next_free;
    if (block == &ring) return failed++, (void *)0;
    take(block);
    if (block->size - size > 2 * HEAD) {
        Block *rest = (Block *)((u8 *)block + size), *next = after(block);
        rest->size = block->size - size;
        rest->before = block;
        if (next) next->before = rest;
        block->size = size;
        release(rest);
    }
    return (u8 *)block + HEAD;
}

static void join(Block *block, Block *next) {
    block->size += next->size;
    next = after(block);
    if (next) next->before = block;
}

static void free_(void *data) {
    Block *block = (Block *)((u8 *)data - HEAD), *next = after(block), *before = block->before;
    if (next && !next->is_used) {
        take(next);
        join(block, next);
    }
    if (before && !before->is_used) join(before, block);
    else release(block);
}

static u32 run(u32 rounds) {
    static u8 *held[HELD];
    static u32 sizes[HELD];
    u32 sum = 0, state = 1;
    ring.next_free = ring.last_free = &ring;
    Block *all = (Block *)room;
    all->size = ROOM;
    all->before = 0;
    release(all);
    for (u32 round = 0; round < rounds; round++) {
        state = state * 1664525u + 1013904223u;
        u32 i = state >> 23, size = 1 + (state >> 8 & 127) * (state >> 15 & 3);
        if (held[i]) {
            for (u32 k = 0; k < sizes[i]; k += 8) sum = sum * 31 + held[i][k];
            free_(held[i]);
        }
        held[i] = allocate(size);
        sizes[i] = held[i] ? size : 0;
        for (u32 k = 0; k < sizes[i]; k += 4) held[i][k] = (u8)(state >> 16 ^ k);
    }
    return sum + failed;
}

PROGRAM(run(90000))
