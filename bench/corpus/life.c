/* The game of life on a torus of 96 by 96 cells of a byte, and the same by rows of bits. */
#include "program.h"
#define SIZE 96
#define WORDS (SIZE / 32)

static u8 field[SIZE][SIZE], next[SIZE][SIZE];
static u32 rows[SIZE][WORDS], after[SIZE][WORDS];

static void by_cells(void) {
    for (u32 y = 0; y < SIZE; y++) {
        const u8 *up = field[(y + SIZE - 1) % SIZE], *here = field[y], *down = field[(y + 1) % SIZE];
        for (u32 x = 0; x < SIZE; x++) {
            u32 l = x ? x - 1 : SIZE - 1, r = x + 1 < SIZE ? x + 1 : 0;
            u32 n = up[l] + up[x] + up[r] + here[l] + here[r] + down[l] + down[x] + down[r];
            next[y][x] = n == 3 || (n == 2 && here[x]);
        }
    }
    for (u32 y = 0; y < SIZE; y++)
        for (u32 x = 0; x < SIZE; x++) field[y][x] = next[y][x];
}

static void add(u32 sums[3], u32 bits) {
    u32 carry = sums[0] & bits;
    sums[0] ^= bits;
    u32 more = sums[1] & carry;
    sums[1] ^= carry;
    sums[2] |= more;
}

static u32 left(const u32 *row, u32 w) { return row[w] << 1 | row[(w + WORDS - 1) % WORDS] >> 31; }
static u32 right(const u32 *row, u32 w) { return row[w] >> 1 | row[(w + 1) % WORDS] << 31; }

static void by_bits(void) {
    for (u32 y = 0; y < SIZE; y++) {
        const u32 *up = rows[(y + SIZE - 1) % SIZE], *here = rows[y], *down = rows[(y + 1) % SIZE];
        for (u32 w = 0; w < WORDS; w++) {
            u32 sums[3];
            sums[0] = sums[1] = sums[2] = 0;
            add(sums, left(up, w)), add(sums, up[w]), add(sums, right(up, w));
            add(sums, left(here, w)), add(sums, right(here, w));
            add(sums, left(down, w)), add(sums, down[w]), add(sums, right(down, w));
            after[y][w] = sums[1] & ~sums[2] & (sums[0] | here[w]);
        }
    }
    for (u32 y = 0; y < SIZE; y++)
        for (u32 w = 0; w < WORDS; w++) rows[y][w] = after[y][w];
}

static u32 run(u32 rounds) {
    u32 state = 2463534242u, sum = 0, differ = 0;
    for (u32 y = 0; y < SIZE; y++)
        for (u32 x = 0; x < SIZE; x++) {
            state ^= state << 13, state ^= state >> 17, state ^= state << 5;
            field[y][x] = state % 3 == 0;
            rows[y][x / 32] |= (u32)field[y][x] << (x % 32);
        }
    for (u32 round = 0; round < rounds; round++) {
        by_cells();
        by_bits();
        for (u32 y = 0; y < SIZE; y++) sum = sum * 31 + rows[y][round % WORDS];
    }
    for (u32 y = 0; y < SIZE; y++)
        for (u32 x = 0; x < SIZE; x++) differ += (rows[y][x / 32] >> (x % 32) & 1) != field[y][x];
    return sum ^ differ;
}

PROGRAM(run(70))
