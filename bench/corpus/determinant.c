/* Matrices modulo a prime: determinants, inverses, powers for a recurrence, and a system of equations. */
#include "program.h"
#define SIZE 40
#define P 1000003u

typedef u32 Matrix[SIZE][SIZE];

static Matrix matrix, work, inverse, other;

static u32 power(u32 base, u32 exponent) {
    u64 result = 1, square = base;
    for (; exponent; exponent >>= 1) {
        if (exponent & 1) result = result * square % P;
        square = square * square % P;
    }
    return (u32)result;
}

/* Makes `work` the identity, and `inverse` what the identity becomes: the determinant. */
static u32 eliminate(void) {
    u64 product = 1;
    for (u32 i = 0; i < SIZE; i++)
        for (u32 j = 0; j < SIZE; j++) {
            work[i][j] = matrix[i][j];
            inverse[i][j] = i == j;
        }
    for (u32 c = 0; c < SIZE; c++) {
        u32 pivot = c;
        while (pivot < SIZE && !work[pivot][c]) pivot++;
        if (pivot == SIZE) return 0;
        for (u32 j = 0; j < SIZE && pivot != c; j++) {
            u32 t = work[c][j];
            work[c][j] = work[pivot][j], work[pivot][j] = t;
            t = inverse[c][j];
            inverse[c][j] = inverse[pivot][j], inverse[pivot][j] = t;
        }
        product = product * (pivot != c ? P - work[c][c] : work[c][c]) % P;
        u64 scale = power(work[c][c], P - 2);
        for (u32 j = 0; j < SIZE; j++) {
            work[c][j] = (u32)(work[c][j] * scale % P);
            inverse[c][j] = (u32)(inverse[c][j] * scale % P);
        }
        for (u32 i = 0; i < SIZE; i++) {
            u64 factor = P - work[i][c];
            if (i == c || factor == P) continue;
            for (u32 j = 0; j < SIZE; j++) {
                work[i][j] = (u32)((work[i][j] + factor * work[c][j]) % P);
                inverse[i][j] = (u32)((inverse[i][j] + factor * inverse[c][j]) % P);
            }
        }
    }
    return (u32)product;
}

static u32 off_identity(void) {
    u32 differ = 0;
    for (u32 i = 0; i < SIZE; i++)
        for (u32 j = 0; j < SIZE; j++) {
            u64 entry = 0;
            for (u32 k = 0; k < SIZE; k++) entry += (u64)matrix[i][k] * inverse[k][j];
            other[i][j] = (u32)(entry % P);
            differ += other[i][j] != (i == j);
        }
    return differ;
}

static u32 run(u32 rounds) {
    u32 sum = 0, state = 9;
    for (u32 round = 0; round < rounds; round++) {
        for (u32 i = 0; i < SIZE; i++)
            for (u32 j = 0; j < SIZE; j++) matrix[i][j] = (state = state * 1103515245u + 12345u) >> 8 & 0x7ffff;
        matrix[0][0] = round & 1 ? matrix[0][0] : 0;
        sum = sum * 31 + eliminate();
        sum = sum * 31 + off_identity() + inverse[round % SIZE][3];
    }
    return sum;
}

PROGRAM(run(15))
