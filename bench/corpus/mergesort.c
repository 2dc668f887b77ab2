/* Merge sort of a linked list of records from below, and a merge sort of an array of 64-bit keys from above. */
#include "program.h"
#define SIZE 16384

typedef struct Record { u32 key, place; struct Record *next; } Record;

static Record records[SIZE];
static u64 keys[SIZE], spare[SIZE];

static Record *merged(Record *a, Record *b) {
    Record *list = 0, **last = &list;
    while (a && b) {
        Record **least = b->key < a->key ? &b : &a;
        *last = *least;
        last = &(*least)->next;
        *least = *last;
    }
    *last = a ? a : b;
    return list;
}

/* runs[i] has 2^i records, or none */
static Record *sorted(Record *list) {
    Record *runs[16], *all = 0;
    for (u32 i = 0; i < 16; i++) runs[i] = 0;
    while (list) {
        Record *run = list;
        list = list->next;
        run->next = 0;
        u32 i = 0;
        for (; runs[i]; i++) {
            run = merged(runs[i], run);
            runs[i] = 0;
        }
        runs[i] = run;
    }
    for (u32 i = 0; i < 16; i++)
        if (runs[i]) all = merged(runs[i], all);
    return all;
}

static void sort(u32 low, u32 high) {
    if (high - low < 2) return;
    u32 middle = (low + high) / 2, i = low, j = middle;
    sort(low, middle);
    sort(middle, high);
    for (u32 at = low; at < high; at++) spare[at] = j >= high || (i < middle && keys[i] <= keys[j]) ? keys[i++] : keys[j++];
    for (u32 at = low; at < high; at++) keys[at] = spare[at];
}

static u32 run(u32 rounds) {
    u32 sum = 0;
    u64 state = 88172645463325252ull;
    for (u32 round = 0; round < rounds; round++) {
        for (u32 i = 0; i < SIZE; i++) {
            state ^= state << 13;
            state ^= state >> 7;
            state ^= state << 17;
            keys[i] = state;
            records[i].key = (u32)(state >> 40);
            records[i].place = i;
            records[i].next = i + 1 < SIZE ? &records[i + 1] : 0;
        }
        sort(0, SIZE);
        u32 at = 0;
        for (Record *record = sorted(records); record; record = record->next, at++)
            sum = sum * 5 + (record->place ^ at) + (u32)(keys[at] >> 32);
    }
    return sum;
}

PROGRAM(run(3))
