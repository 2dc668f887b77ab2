/* Permutations in order, by exchanges and by numbers; subsets of a size; partitions; the number of exchanges that sort. */
#include "program.h"

static u8 items[16];

static int next(u32 size) {
    u32 i = size - 1, j = size - 1;
    while (i > 0 && items[i - 1] >= items[i]) i--;
    if (i == 0) return 0;
    while (items[j] <= items[i - 1]) j--;
    u8 t = items[i - 1];
    items[i - 1] = items[j];
    items[j] = t;
    for (j = size - 1; i < j; i++, j--) {
        t = items[i];
        items[i] = items[j];
        items[j] = t;
    }
    return 1;
}

static u32 cycles(u32 size) {
    u32 seen = 0, count = 0;
    for (u32 i = 0; i < size; i++) {
        if (seen >> i & 1) continue;
        count++;
        for (u32 k = i; !(seen >> k & 1); k = items[k]) seen |= 1u << k;
    }
    return count;
}

static u32 visited;

static void exchanged(u32 size) {
    if (size == 1) {
        visited = visited * 31 + items[0] + (u32)items[3] * 7;
        return;
    }
    for (u32 i = 0; i + 1 < size; i++) {
        exchanged(size - 1);
        u32 other = size & 1 ? 0 : i;
        u8 t = items[other];
        items[other] = items[size - 1];
        items[size - 1] = t;
    }
    exchanged(size - 1);
}

static void numbered(u32 number, u32 size) {
    u32 left = (1u << size) - 1, factorial = 1;
    for (u32 i = 2; i < size; i++) factorial *= i;
    for (u32 i = 0; i < size; i++) {
        u32 skip = number / factorial, k = 0;
        number %= factorial;
        if (i + 1 < size) factorial /= size - 1 - i;
        for (;; k++) {
            if (!(left >> k & 1)) continue;
            if (skip-- == 0) break;
        }
        left ^= 1u << k;
        items[i] = (u8)k;
    }
}

static u32 partitions(u32 number, u32 most) {
    if (number == 0) return 1;
    u32 count = 0;
    for (u32 part = most < number ? most : number; part > 0; part--) count += partitions(number - part, part);
    return count;
}

static u32 run(u32 size) {
    u32 sum = 0;
    for (u32 i = 0; i < size; i++) items[i] = (u8)i;
    do sum = sum * 31 + cycles(size);
    while (next(size));
    for (u32 i = 0; i < size + 1; i++) items[i] = (u8)i;
    exchanged(size + 1);
    for (u32 number = 0; number < 3000; number++) {
        numbered(number * 1013 % 362880, 9);
        sum = sum * 31 + items[4] + cycles(9);
    }
    return sum ^ visited ^ partitions(45, 45);
}

PROGRAM(run(8))
