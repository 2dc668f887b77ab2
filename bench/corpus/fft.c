/* Transforms of numbers modulo 998244353, by which polynomials are multiplied; a product by hand is compared. */
#include "program.h"
#define SIZE 2048
#define P 998244353u

static u32 a[SIZE], b[SIZE], first[SIZE / 2], second[SIZE / 2], slow[SIZE];

static u32 times(u32 x, u32 y) { return (u32)((u64)x * y % P); }

static u32 power(u32 base, u32 exponent) {
    u32 result = 1;
    for (; exponent; exponent >>= 1) {
        if (exponent & 1) result = times(result, base);
        base = times(base, base);
    }
    return result;
}

static void transform(u32 *x, u32 root) {
    for (u32 i = 1, j = 0; i < SIZE; i++) {
        u32 bit = SIZE / 2;
        for (; j & bit; bit >>= 1) j ^= bit;
        j ^= bit;
        if (i < j) {
            u32 t = x[i];
            x[i] = x[j];
            x[j] = t;
        }
    }
    for (u32 length = 2; length <= SIZE; length *= 2) {
        u32 step = power(root, SIZE / length);
        for (u32 begin = 0; begin < SIZE; begin += length) {
            u32 w = 1;
            for (u32 i = begin; i < begin + length / 2; i++) {
                u32 u = x[i], v = times(x[i + length / 2], w);
                x[i] = u + v >= P ? u + v - P : u + v;
                x[i + length / 2] = u >= v ? u - v : u + P - v;
                w = times(w, step);
            }
        }
    }
}

static u32 run(u32 rounds) {
    u32 sum = 0, state = 3, root = power(3, (P - 1) / SIZE), inverse = power(SIZE, P - 2);
    for (u32 round = 0; round < rounds; round++) {
        for (u32 i = 0; i < SIZE; i++) {
            state = state * 1664525u + 1013904223u;
            a[i] = i < SIZE / 2 ? first[i] = state >> 4 : 0;
            b[i] = i < SIZE / 2 ? second[i] = (state ^ state >> 11) & 0xfffffff : 0;
            slow[i] = 0;
        }
        transform(a, root);
        transform(b, root);
        for (u32 i = 0; i < SIZE; i++) a[i] = times(a[i], b[i]);
        transform(a, power(root, P - 2));
        for (u32 i = 0; i < SIZE / 16; i++)
            for (u32 j = 0; j <= i; j++) slow[i] = (slow[i] + times(first[j], second[i - j])) % P;
        for (u32 i = 0; i < SIZE; i++) {
            a[i] = times(a[i], inverse);
            sum = sum * 31 + a[i] + (i < SIZE / 16 && a[i] != slow[i]);
        }
    }
    return sum;
}

PROGRAM(run(30))
