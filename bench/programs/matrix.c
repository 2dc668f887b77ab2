/* Products of two matrices of 120 by 120 words: nested loops with addresses. */
#include "program.h"
#define N 120

static u32 a[N][N], b[N][N], c[N][N];

static u32 product(u32 rounds) {
    for (u32 i = 0; i < N; i++)
        for (u32 j = 0; j < N; j++) a[i][j] = i * 3 + j, b[i][j] = i ^ j * 7;
    u32 sum = 0;
    for (u32 round = 0; round < rounds; round++) {
        for (u32 i = 0; i < N; i++)
            for (u32 j = 0; j < N; j++) {
                u32 total = 0;
                for (u32 k = 0; k < N; k++) total += a[i][k] * b[k][j];
                c[i][j] = total;
            }
        a[round % N][round % N] += c[round % N][0];
        sum += c[N - 1][round % N];
    }
    return sum;
}

PROGRAM(product(3))
