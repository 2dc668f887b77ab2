/* Quick sort by the median of three and a stack of its own, small parts by insertion, and look-ups by halves. */
#include "program.h"
#define SIZE 50000

static u32 items[SIZE];

static void swap(u32 *a, u32 *b) {
    u32 t = *a;
    *a = *b;
    *b = t;
}

static void insertion(u32 low, u32 high) {
    for (u32 i = low + 1; i < high; i++) {
        u32 item = items[i], at = i;
        for (; at > low && items[at - 1] > item; at--) items[at] = items[at - 1];
        items[at] = item;
    }
}

static u32 part(u32 low, u32 high) {
    u32 middle = low + (high - low) / 2, last = high - 1;
    if (items[middle] < items[low]) swap(items + middle, items + low);
    if (items[last] < items[low]) swap(items + last, items + low);
    if (items[last] < items[middle]) swap(items + last, items + middle);
    u32 pivot = items[middle], i = low, j = last;
    for (;;) {
        while (items[++i] < pivot) {}
        while (items[--j] > pivot) {}
        if (i >= j) return j + 1;
        swap(items + i, items + j);
    }
}

static void sort(void) {
    u32 stack[64], top = 0;
    stack[top++] = 0;
    stack[top++] = SIZE;
    while (top > 0) {
        u32 high = stack[--top], low = stack[--top];
        while (high - low > 12) {
            u32 cut = part(low, high);
            if (cut - low > high - cut) {
                stack[top++] = low;
                stack[top++] = cut;
                low = cut;
            } else {
                stack[top++] = cut;
                stack[top++] = high;
                high = cut;
            }
        }
        insertion(low, high);
    }
}

static u32 find(u32 item) {
    u32 low = 0, high = SIZE;
    while (low < high) {
        u32 middle = (low + high) / 2;
        if (items[middle] < item) low = middle + 1;
        else high = middle;
    }
    return low;
}

static u32 run(u32 rounds) {
    u32 sum = 0, state = 3;
    for (u32 round = 0; round < rounds; round++) {
        for (u32 i = 0; i < SIZE; i++) {
            state = state * 1103515245u + 12345u;
            items[i] = round % 3 == 2 ? (u32)(i * 7 % 1000) : state >> round;
        }
        sort();
        for (u32 i = 1; i < SIZE; i += 5) sum += find(items[i]) ^ (items[i - 1] <= items[i]);
    }
    return sum;
}

PROGRAM(run(3))
