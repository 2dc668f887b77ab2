/* IEEE 754, 5.4.1: addition and subtraction. */
#include "floats.h"

/* a is an infinity or a NaN, and b has no larger magnitude: infinities of two signs have no sum. */
INLINE word special_sum(word a, word b) {
  if (is_nan(a)) return a | QUIET;
  return (a ^ b) == SIGN ? CANONICAL : a;
}

/* Both are subnormal or 0, so that the words are fixed-point numbers. The sum of zeros of two signs is +0. */
INLINE word small_sum(word a, word b) {
  if ((number)(a ^ b) >= 0) return a + (b & ~SIGN);
  word difference = a - (b & ~SIGN);
  return difference << 1 ? difference : 0;
}

/* The larger significand m and the smaller one n of numbers with one sign. The first bit of a significand adds 1 to the
   exponent that `front` has behind its sign. */
INLINE word sum_of(word front, word m, word n) {
  m += n;
  if ((number)m < 0) {
    if (((front + HIDDEN) & INFINITY) == INFINITY) return front + HIDDEN;
    m = m >> 1 | (m & 1);
    front += HIDDEN;
  }
  return front - HIDDEN + rounded(m);
}

/* The same with two signs. What is subnormal then was not rounded, and x - x is +0. */
INLINE word difference_of(word front, word m, word n) {
  m -= n;
  if (m == 0) return 0;
  word e = exponent_of(front), zeros = LEADING_ZEROS(m);
  if (e < zeros) return (front & SIGN) | m << (e - 1) >> GUARD;
  return front - (zeros << FRACTION_SIZE) + rounded(m << (zeros - 1));
}

INLINE word sum(word a, word b) {
  if (a << 1 < b << 1) {
    word c = a;
    a = b;
    b = c;
    KEEP_BRANCH(a);
  }
  if (RARELY(a << 1 >= INFINITY << 1)) return special_sum(a, b);
  word front = a & ~FRACTION, m = significand_of(a), n = significand_of(b);
  word distance = ((a >> FRACTION_SIZE) - (b >> FRACTION_SIZE)) & MOST;
  if (RARELY(b << 1 < HIDDEN << 1)) {
    if (a << 1 < HIDDEN << 1) return small_sum(a, b);
    n -= HIDDEN << GUARD; /* a subnormal number: its exponent is 1, and nothing is before the point */
    distance--;
    if (n == 0) return a;
  }
  if (distance > GUARD) {
    if (distance > FRACTION_SIZE + 2) return a; /* b is less than half of what may be below the last bit */
    n = shifted(n, distance);
    KEEP_BRANCH(n);
  } else {
    n >>= distance;
  }
  return (number)(a ^ b) < 0 ? difference_of(front, m, n) : sum_of(front, m, n);
}

EXPORT(word, NAME(add))(word a, word b) { return sum(a, b); }

/* x - y is x + (-y); a NaN that is subtracted has the other sign then. */
EXPORT(word, NAME(sub))(word a, word b) { return sum(a, b ^ SIGN); }
