/* IEEE 754, 5.4.1: division. */
#include "floats.h"

/* The quotient of significands m and n without guard bits, n <= m < 2n, its first bit at bit TOP; the lowest bit also says
   whether there are more. */
INLINE word quotient(word m, word n) {
#if F == 64
  /* Two digits, of 32 and 31 bits, by the 32 bits of n in front, 1 more so that no digit is too large. A digit is too small
     by less than 3: a remainder is less than 3n, and the last of them corrects the quotient. */
  u64 divisor = (n >> 21) + 1;
  u64 first = (m << 10) / divisor;
  u64 rest = (m << 31) - first * n;
  u64 second = (rest << 9) / divisor;
  rest = (rest << 30) - second * n;
  return ((first << 30) + second + rest / n) << 1 | (rest % n != 0);
#else
  u64 all = (u64)m << 30;
  return all / n | (all % n != 0);
#endif
}

/* The quotient with an infinity, a NaN or a zero: 0/0 and infinity/infinity have none, x/0 is infinite. */
INLINE word special_quotient(word a, word b, word sign) {
  if (is_nan(a)) return a | QUIET;
  if (is_nan(b)) return b | QUIET;
  if (a << 1 == b << 1) return CANONICAL;
  return exponent_of(a) == MOST || b << 1 == 0 ? sign | INFINITY : sign;
}

EXPORT(word, NAME(div))(word a, word b) {
  word sign = (a ^ b) & SIGN, m, n;
  number e = exponent_of(a), other = exponent_of(b);
  if (is_normal(e) && is_normal(other)) {
    m = (a & FRACTION) | HIDDEN;
    n = (b & FRACTION) | HIDDEN;
  } else {
    if (e == MOST || other == MOST || a << 1 == 0 || b << 1 == 0) return special_quotient(a, b, sign);
    m = normalized(a, &e) >> GUARD;
    n = normalized(b, &other) >> GUARD;
  }
  e += BIAS - other;
  if (m < n) {
    m <<= 1;
    e--;
  }
  return packed(sign, e, quotient(m, n));
}
