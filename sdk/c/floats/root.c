/* IEEE 754, 5.4.1: squareRoot. */
#include "floats.h"

/* The root of n, from 2^62 on, or 1 more. A line is at most 1/24 away from it, and each round of Heron's squares that: to less
   than 2^-10, 2^-21 and 2^-43. No round gives less than the root. */
INLINE u64 root(u64 n) {
  u64 s = n / ((u64)3 << 31) + 0x5aaaaaaa;
  s = (s + n / s) >> 1;
  s = (s + n / s) >> 1;
  return (s + n / s) >> 1;
}

/* The root is never between two numbers in the middle, and never out of range. */
EXPORT(word, NAME(sqrt))(word a) {
  number e = exponent_of(a);
  if (!is_normal((number)a >> FRACTION_SIZE)) {
    if (is_nan(a)) return a | QUIET;
    if (a << 1 == 0 || a == INFINITY) return a; /* the root of -0 is -0 */
    if ((number)a < 0) return CANONICAL;
  }
  word m = normalized(a, &e) >> GUARD;
  word exponent = (word)(e + BIAS) >> 1;
#if F == 64
  u64 n = m << (11 - (e & 1));
  u64 s = root(n) - 1, rest = n - s * s; /* at most 4 s */
  s = (s << 23) + (rest << 22) / s;      /* of n * 2^46: the root, or 1 more */
  s -= ((n << 46) - s * s) >> 63;
  return ((exponent - 1) << FRACTION_SIZE) + ((s + 2) >> 2);
#else
  u64 n = (u64)m << (40 - (e & 1)), s = root(n);
  s -= s * s > n;
  return ((exponent - 1) << FRACTION_SIZE) + (word)((s + 128) >> 8);
#endif
}
