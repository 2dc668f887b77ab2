/* Numbers of 512 bits: products of words, a remainder by shifts, and powers modulo an odd number. */
#include "program.h"
#define WORDS 16

typedef struct { u32 word[WORDS]; } Big;

static int compare(const u32 *a, const u32 *b, u32 size) {
    while (size-- > 0)
        if (a[size] != b[size]) return a[size] < b[size] ? -1 : 1;
    return 0;
}

static u32 subtract(u32 *a, const u32 *b, u32 size) {
    u64 borrow = 0;
    for (u32 i = 0; i < size; i++) {
        u64 word = (u64)a[i] - b[i] - borrow;
        a[i] = (u32)word;
        borrow = word >> 63;
    }
    return (u32)borrow;
}

static void product(u32 *out, const Big *a, const Big *b) {
    for (u32 i = 0; i < 2 * WORDS; i++) out[i] = 0;
    for (u32 i = 0; i < WORDS; i++) {
        u64 carry = 0;
        for (u32 j = 0; j < WORDS; j++) {
            carry += (u64)a->word[i] * b->word[j] + out[i + j];
            out[i + j] = (u32)carry;
            carry >>= 32;
        }
        out[i + WORDS] = (u32)carry;
    }
}

/* One bit after another from above: the remainder is doubled, and the modulus taken away. */
static void remainder_of(Big *rest, const u32 *number, const Big *modulus) {
    u32 high[WORDS + 1], limit[WORDS + 1];
    for (u32 i = 0; i <= WORDS; i++) {
        high[i] = 0;
        limit[i] = i < WORDS ? modulus->word[i] : 0;
    }
    for (u32 bit = 64 * WORDS; bit-- > 0;) {
        u32 carry = number[bit / 32] >> (bit % 32) & 1;
        for (u32 i = 0; i <= WORDS; i++) {
            u32 next = high[i] >> 31;
            high[i] = high[i] << 1 | carry;
            carry = next;
        }
        if (compare(high, limit, WORDS + 1) >= 0) subtract(high, limit, WORDS + 1);
    }
    for (u32 i = 0; i < WORDS; i++) rest->word[i] = high[i];
}

static void power(Big *result, const Big *base, u32 exponent, const Big *modulus) {
    u32 wide[2 * WORDS];
    for (u32 i = 0; i < WORDS; i++) result->word[i] = i == 0;
    for (u32 bit = 32; bit-- > 0;) {
        product(wide, result, result);
        remainder_of(result, wide, modulus);
        if (exponent >> bit & 1) {
            product(wide, result, base);
            remainder_of(result, wide, modulus);
        }
    }
}

static u32 run(u32 rounds) {
    static Big base, modulus, result;
    u32 state = 12345, sum = 0;
    for (u32 round = 0; round < rounds; round++) {
        for (u32 i = 0; i < WORDS; i++) {
            base.word[i] = state = state * 1664525u + 1013904223u;
            modulus.word[i] = (state = state * 1664525u + 1013904223u) | 1;
        }
        modulus.word[WORDS - 1] |= 0x80000000u;
        power(&result, &base, 65537 + round * 8, &modulus);
        for (u32 i = 0; i < WORDS; i++) sum = sum * 31 ^ result.word[i];
    }
    return sum;
}

PROGRAM(run(5))
