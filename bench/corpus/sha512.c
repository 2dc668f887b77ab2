/* SHA-512, whose constants are the roots of primes, worked out by integers. */
#include "program.h"
#define SIZE 8192

static u64 k[80], h[8];
static u8 data[SIZE + 128];

static u64 rotr(u64 x, u32 n) { return x >> n | x << (64 - n); }

/* The square of a number of 72 bits, or its cube, is more than the prime: compared in digits of 16 bits. */
static int exceeds(u64 low, u32 high, u32 degree, u32 prime) {
    u32 x[5], y[20];
    for (u32 i = 0; i < 4; i++) x[i] = (u32)(low >> (16 * i)) & 65535;
    x[4] = high;
    for (u32 i = 0; i < 20; i++) y[i] = i < 5 ? x[i] : 0;
    for (u32 turn = 1; turn < degree; turn++) {
        u32 z[20];
        u64 carry = 0;
        for (u32 i = 0; i < 20; i++) {
            for (u32 j = 0; j < 5 && j <= i; j++) carry += (u64)x[j] * y[i - j];
            z[i] = (u32)carry & 65535;
            carry >>= 16;
        }
        for (u32 i = 0; i < 20; i++) y[i] = z[i];
    }
    return y[4 * degree] + (y[4 * degree + 1] << 16) >= prime;
}

/* The first 64 bits after the point of a root of a prime. */
static u64 root(u32 prime, u32 degree) {
    u32 whole = 1;
    while (degree == 2 ? (whole + 1) * (whole + 1) <= prime : (whole + 1) * (whole + 1) * (whole + 1) <= prime) whole++;
    u64 part = 0;
    for (u64 bit = 1ull << 63; bit; bit >>= 1)
        if (!exceeds(part | bit, whole, degree, prime)) part |= bit;
    return part;
}

static void block(const u8 *at) {
    u64 w[80], s[8];
    for (u32 i = 0; i < 16; i++) {
        w[i] = 0;
        for (u32 j = 0; j < 8; j++) w[i] = w[i] << 8 | *at++;
    }
    for (u32 i = 16; i < 80; i++)
        w[i] = w[i - 16] + w[i - 7] + (rotr(w[i - 15], 1) ^ rotr(w[i - 15], 8) ^ w[i - 15] >> 7) +
               (rotr(w[i - 2], 19) ^ rotr(w[i - 2], 61) ^ w[i - 2] >> 6);
    for (u32 i = 0; i < 8; i++) s[i] = h[i];
    for (u32 i = 0; i < 80; i++) {
        u64 a = s[0], e = s[4];
        u64 t = s[7] + (rotr(e, 14) ^ rotr(e, 18) ^ rotr(e, 41)) + ((e & s[5]) ^ (~e & s[6])) + k[i] + w[i];
        u64 v = (rotr(a, 28) ^ rotr(a, 34) ^ rotr(a, 39)) + ((a & s[1]) ^ (a & s[2]) ^ (s[1] & s[2]));
        for (u32 j = 7; j > 0; j--) s[j] = s[j - 1];
        s[4] += t;
        s[0] = t + v;
    }
    for (u32 i = 0; i < 8; i++) h[i] += s[i];
}

static u32 run(u32 rounds) {
    u32 sum = 0;
    for (u32 prime = 2, i = 0; i < 80; prime++) {
        u32 divisor = 2;
        while (prime % divisor) divisor++;
        if (divisor == prime) k[i++] = root(prime, 3);
    }
    for (u32 i = 0; i < SIZE; i++) data[i] = (u8)(i * 7);
    data[SIZE] = 0x80;
    data[SIZE + 125] = SIZE * 8 >> 16;
    for (u32 round = 0; round < rounds; round++) {
        static const u8 first[] = {2, 3, 5, 7, 11, 13, 17, 19};
        for (u32 i = 0; i < 8; i++) h[i] = root(first[i], 2);
        for (u32 at = 0; at < SIZE + 128; at += 128) block(data + at);
        for (u32 i = 0; i < 8; i++) sum = sum * 31 + (u32)(h[i] >> 20);
        data[round] ^= (u8)sum;
    }
    return sum;
}

PROGRAM(run(20))
