/* Tables that are filled row by row: a knapsack, the distance of texts, their longest common part, and ways to give change. */
#include "program.h"
#define ROOM 5000
#define LENGTH 400

static u32 best[ROOM + 1], ways[ROOM + 1];
static u8 a[LENGTH], b[LENGTH];
static u32 rows[2][LENGTH + 1];
static unsigned short common[LENGTH + 1][LENGTH + 1];

static u32 min(u32 x, u32 y) { return x < y ? x : y; }

static u32 knapsack(u32 items, u32 state) {
    for (u32 i = 0; i <= ROOM; i++) best[i] = 0;
    for (u32 item = 0; item < items; item++) {
        state = state * 1103515245u + 12345u;
        u32 weight = 20 + (state >> 16) % 400, value = 10 + (state >> 8) % 1000;
        for (u32 room = ROOM; room >= weight; room--)
            if (best[room - weight] + value > best[room]) best[room] = best[room - weight] + value;
    }
    return best[ROOM];
}

static u32 distance(void) {
    for (u32 j = 0; j <= LENGTH; j++) rows[0][j] = j;
    for (u32 i = 1; i <= LENGTH; i++) {
        u32 *row = rows[i & 1], *above = rows[(i - 1) & 1];
        row[0] = i;
        for (u32 j = 1; j <= LENGTH; j++)
            row[j] = min(min(row[j - 1], above[j]) + 1, above[j - 1] + (a[i - 1] != b[j - 1]));
    }
    return rows[LENGTH & 1][LENGTH];
}

static u32 longest(void) {
    for (u32 i = 1; i <= LENGTH; i++)
        for (u32 j = 1; j <= LENGTH; j++) {
            u32 up = common[i - 1][j], side = common[i][j - 1];
            common[i][j] = (unsigned short)(a[i - 1] == b[j - 1] ? common[i - 1][j - 1] + 1u : up > side ? up : side);
        }
    u32 i = LENGTH, j = LENGTH, sum = common[LENGTH][LENGTH];
    while (i > 0 && j > 0) {
        if (a[i - 1] == b[j - 1]) sum = sum * 31 + a[i - 1], i--, j--;
        else if (common[i - 1][j] >= common[i][j - 1]) i--;
        else j--;
    }
    return sum;
}

static u32 change(void) {
    static const u32 coins[] = {1, 2, 5, 10, 20, 50, 100, 200};
    for (u32 i = 0; i <= ROOM; i++) ways[i] = i == 0;
    for (u32 c = 0; c < sizeof coins / sizeof *coins; c++)
        for (u32 i = coins[c]; i <= ROOM; i++) ways[i] += ways[i - coins[c]];
    return ways[ROOM];
}

static u32 run(u32 rounds) {
    u32 sum = 0, state = 5;
    for (u32 round = 0; round < rounds; round++) {
        for (u32 i = 0; i < LENGTH; i++) {
            state = state * 1664525u + 1013904223u;
            a[i] = (u8)('a' + (state >> 28));
            b[i] = (u8)('a' + (state >> 20 & 7));
        }
        sum = sum * 31 + (knapsack(60, state) ^ distance() ^ longest() ^ change());
    }
    return sum;
}

PROGRAM(run(3))
