/* All ways to place queens: with three arrays of what is taken, and with three words of bits. */
#include "program.h"

static u8 column[16], rising[32], falling[32], place[16];
static u32 size, found, sum;

static void by_arrays(u32 row) {
    if (row == size) {
        found++;
        for (u32 i = 0; i < size; i++) sum = sum * 31 + place[i];
        return;
    }
    for (u32 c = 0; c < size; c++) {
        if (column[c] || rising[row + c] || falling[row - c + 15]) continue;
        column[c] = rising[row + c] = falling[row - c + 15] = 1;
        place[row] = (u8)c;
        by_arrays(row + 1);
        column[c] = rising[row + c] = falling[row - c + 15] = 0;
    }
}

static u32 by_bits(u32 taken, u32 up, u32 down) {
    u32 all = (1u << size) - 1, count = 0;
    if (taken == all) return 1;
    for (u32 open = all & ~(taken | up | down); open; open &= open - 1) {
        u32 bit = open & -open;
        count += by_bits(taken | bit, (up | bit) << 1, (down | bit) >> 1);
    }
    return count;
}

static u32 run(u32 most) {
    for (size = 4; size <= most; size++) {
        found = 0;
        by_arrays(0);
        sum = sum * 7 + (found ^ by_bits(0, 0, 0) << 16);
    }
    size = most + 1;
    return sum + by_bits(0, 0, 0);
}

PROGRAM(run(10))
