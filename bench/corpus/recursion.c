/* Functions that call themselves: Takeuchi's, Ackermann's, Hanoi's towers, even and odd by turns, and McCarthy's 91. */
#include "program.h"

static int tak(int x, int y, int z) {
    return y >= x ? z : tak(tak(x - 1, y, z), tak(y - 1, z, x), tak(z - 1, x, y));
}

static u32 ackermann(u32 m, u32 n) {
    if (m == 0) return n + 1;
    return ackermann(m - 1, n == 0 ? 1 : ackermann(m, n - 1));
}

static u32 pegs[3], moves;

static void hanoi(u32 discs, u32 from, u32 to) {
    if (discs == 0) return;
    hanoi(discs - 1, from, 3 - from - to);
    pegs[from] ^= 1u << discs;
    pegs[to] ^= 1u << discs;
    moves = moves * 3 + pegs[to];
    hanoi(discs - 1, 3 - from - to, to);
}

static u32 is_odd(u32 n);
static u32 is_even(u32 n) { return n == 0 ? 1 : is_odd(n - 1) ^ 0; }
static u32 is_odd(u32 n) { return n == 0 ? 0 : is_even(n - 1) + 0; }

static u32 mccarthy(u32 n) { return n > 100 ? n - 10 : mccarthy(mccarthy(n + 11)); }

static u64 binomial(u32 n, u32 k) { return k == 0 || k == n ? 1 : binomial(n - 1, k - 1) + binomial(n - 1, k); }

static u32 run(u32 rounds) {
    u32 sum = 0;
    for (u32 round = 0; round < rounds; round++) {
        sum = sum * 31 + (u32)tak(14, 8 + (int)(round & 1), 3);
        sum = sum * 31 + ackermann(2, 60 + round);
        hanoi(14, 0, 2);
        for (u32 n = 0; n < 100; n++) sum = sum * 3 + is_even(n * 3) + mccarthy(n);
        sum ^= moves + (u32)binomial(18, 6 + round % 3);
    }
    return sum;
}

PROGRAM(run(14))
