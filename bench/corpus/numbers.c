/* Of whole numbers: Collatz, greatest common divisors, factors by Pollard, primes by Miller and Rabin, and roots. */
#include "program.h"

static u32 collatz(u64 n) {
    u32 steps = 0;
    for (; n != 1; steps++) n = n & 1 ? 3 * n + 1 : n >> 1;
    return steps;
}

static u64 gcd(u64 a, u64 b) {
    while (b) {
        u64 rest = a % b;
        a = b;
        b = rest;
    }
    return a;
}

static u32 binary_gcd(u32 a, u32 b) {
    u32 shift = 0;
    for (; !((a | b) & 1); shift++) a >>= 1, b >>= 1;
    while (!(a & 1)) a >>= 1;
    while (b) {
        while (!(b & 1)) b >>= 1;
        if (a > b) a ^= b, b ^= a, a ^= b;
        b -= a;
    }
    return a << shift;
}

static u32 power(u32 base, u32 exponent, u32 modulus) {
    u64 result = 1, square = base % modulus;
    for (; exponent; exponent >>= 1) {
        if (exponent & 1) result = result * square % modulus;
        square = square * square % modulus;
    }
    return (u32)result;
}

static int is_prime(u32 n) {
    static const u32 bases[] = {2, 3, 5, 7};
    if (n < 2 || n % 2 == 0) return n == 2;
    u32 odd = n - 1, twos = 0;
    for (; odd % 2 == 0; odd /= 2) twos++;
    for (u32 i = 0; i < 4; i++) {
        if (n == bases[i]) return 1;
        u64 x = power(bases[i], odd, n);
        u32 turn = 0;
        for (; turn < twos && x != n - 1 && !(turn == 0 && x == 1); turn++) x = x * x % n;
        if (turn == twos) return 0;
    }
    return 1;
}

static u32 factor(u32 n) {
    for (u32 c = 1;; c++) {
        u64 slow = 2, fast = 2, divisor = 1;
        while (divisor == 1) {
            slow = (slow * slow + c) % n;
            fast = (fast * fast + c) % n;
            fast = (fast * fast + c) % n;
            divisor = gcd(slow > fast ? slow - fast : fast - slow, n);
        }
        if (divisor != n) return (u32)divisor;
    }
}

static u32 root(u64 n) {
    u64 x = 1ull << 32, y = n;
    for (y = (x + n / x) / 2; y < x; y = (x + n / x) / 2) x = y;
    return (u32)x;
}

static u32 run(u32 rounds) {
    u32 sum = 0, state = 5;
    for (u32 round = 0; round < rounds; round++) {
        state = state * 1664525u + 1013904223u;
        u32 n = state >> 4 | 1;
        sum = sum * 31 + collatz(state) + binary_gcd(state, (round | 8) * 360) + root((u64)state * n);
        for (u32 divisor = 3; divisor < 30; divisor += 2) while (n % divisor == 0 && n > divisor) n /= divisor;
        if (round % 4 == 0) sum ^= is_prime(n) ? n : n < 30 ? 1 : factor(n);
    }
    return sum;
}

PROGRAM(run(12000))
