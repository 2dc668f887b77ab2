/* IEEE 754, 5.4.1: multiplication. */
#include "floats.h"

/* The product of significands, the upper WIDTH bits; the lowest bit also says whether there are more. */
INLINE word product(word m, word n) {
#if F == 64
  u64 m0 = (u32)m, m1 = m >> 32, n0 = (u32)n, n1 = n >> 32;
  u64 low = m0 * n0;
  u64 middle = m1 * n0 + m0 * n1 + (low >> 32); /* less than 2^64, since m1 and n1 have 31 bits */
  return (m1 * n1 + (middle >> 32)) | ((middle | low) << 32 != 0);
#else
  u64 all = (u64)m * n;
  return all >> 32 | ((u32)all != 0);
#endif
}

/* The product with an infinity or a NaN, or with 0: an infinity times 0 has none. */
INLINE word special_product(word a, word b, word sign) {
  if (is_nan(a)) return a | QUIET;
  if (is_nan(b)) return b | QUIET;
  word zero = (a << 1 == 0) | (b << 1 == 0), infinite = exponent_of(a) == MOST || exponent_of(b) == MOST;
  if (!infinite) return sign;
  return zero ? CANONICAL : sign | INFINITY;
}

EXPORT(word, NAME(mul))(word a, word b) {
  word sign = (a ^ b) & SIGN, m, n;
  number e = exponent_of(a), other = exponent_of(b);
  if (is_normal(e) && is_normal(other)) {
    m = significand_of(a);
    n = significand_of(b);
  } else {
    if (e == MOST || other == MOST || a << 1 == 0 || b << 1 == 0) return special_product(a, b, sign);
    m = normalized(a, &e);
    n = normalized(b, &other);
  }
  /* Both are in [2^TOP, 2^(TOP+1)), so the upper bits of the product are in [2^(TOP-2), 2^TOP). */
  e += other - BIAS;
  m = product(m, n) << 1;
  if (m >> TOP) return packed(sign, e + 1, m);
  return packed(sign, e, m << 1);
}
