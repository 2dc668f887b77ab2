/* Sudokus by sets of candidates: the cell with the fewest is tried first. */
#include "program.h"

static const char *const puzzles[] = {
    "53..7....6..195....98....6.8...6...34..8.3..17...2...6.6....28....419..5....8..79",
    "8..........36......7..9.2...5...7.......457.....1...3...1....68..85...1..9....4..",
    "..............3.85..1.2.......5.7.....4...1...9.......5......73..2.1........4...9",
    "4.....8.5.3..........7......2.....6.....8.4......1.......6.3.7.5..2.....1.4......",
};

static u8 cells[81];
static u32 rows[9], columns[9], boxes[9], tries;

static u32 box_of(u32 cell) { return cell / 27 * 3 + cell % 9 / 3; }

static u32 candidates(u32 cell) {
    return 511 & ~(rows[cell / 9] | columns[cell % 9] | boxes[box_of(cell)]);
}

static void flip(u32 cell, u32 bit) {
    rows[cell / 9] ^= bit;
    columns[cell % 9] ^= bit;
    boxes[box_of(cell)] ^= bit;
}

static u32 ones(u32 bits) {
    u32 count = 0;
    for (; bits; bits &= bits - 1) count++;
    return count;
}

static int solve(u32 most) {
    u32 best = 81, fewest = 10;
    for (u32 cell = 0; cell < 81 && fewest > 1; cell++) {
        if (cells[cell]) continue;
        u32 count = ones(candidates(cell));
        if (count < fewest) {
            fewest = count;
            best = cell;
        }
    }
    if (best == 81) return 1;
    if (tries++ > most) return 0;
    for (u32 digit = 1; digit <= 9; digit++) {
        u32 bit = 1u << (digit - 1);
        if (!(candidates(best) & bit)) continue;
        cells[best] = (u8)digit;
        flip(best, bit);
        if (solve(most)) return 1;
        flip(best, bit);
        cells[best] = 0;
    }
    return 0;
}

static u32 run(u32 rounds) {
    u32 sum = 0;
    for (u32 round = 0; round < rounds; round++) {
        for (u32 i = 0; i < 9; i++) rows[i] = columns[i] = boxes[i] = 0;
        for (u32 cell = 0; cell < 81; cell++) {
            char c = puzzles[round % 4][cell];
            cells[cell] = c == '.' ? 0 : (u8)(c - '0');
            if (cells[cell]) flip(cell, 1u << (cells[cell] - 1));
        }
        tries = 0;
        sum = sum * 3 + (u32)solve(6000 + round) + tries;
        for (u32 cell = 0; cell < 81; cell++) sum = sum * 31 + cells[cell];
    }
    return sum;
}

PROGRAM(run(8))
