/* IEEE 754, 5.11: comparisons that are quiet. A NaN is not equal to, less or greater than anything; zeros are equal. */
#include "floats.h"

INLINE int is_unordered(word a, word b) { return is_nan(a) | is_nan(b); }
INLINE int are_zeros(word a, word b) { return (a | b) << 1 == 0; }

/* Of two negative numbers that one is less which has the larger magnitude; otherwise the words are in the order. */
INLINE int is_less(word a, word b) {
  if (is_unordered(a, b)) return 0;
  if ((number)(a & b) < 0) return b < a;
  return ((number)a < (number)b) & !are_zeros(a, b);
}

INLINE int is_less_or_equal(word a, word b) {
  if (is_unordered(a, b)) return 0;
  if ((number)(a & b) < 0) return b <= a;
  return ((number)a <= (number)b) | are_zeros(a, b);
}

INLINE int is_equal(word a, word b) { return a == b ? !is_nan(a) : are_zeros(a, b); }

EXPORT(u32, NAME(eq))(word a, word b) { return is_equal(a, b); }
EXPORT(u32, NAME(ne))(word a, word b) { return !is_equal(a, b); }
EXPORT(u32, NAME(lt))(word a, word b) { return is_less(a, b); }
EXPORT(u32, NAME(gt))(word a, word b) { return is_less(b, a); }
EXPORT(u32, NAME(le))(word a, word b) { return is_less_or_equal(a, b); }
EXPORT(u32, NAME(ge))(word a, word b) { return is_less_or_equal(b, a); }

/* IEEE 754-2019, 9.6: minimum and maximum. A NaN goes through; -0 is less than +0. */
INLINE number ordered(word a) { return a ^ ((word)((number)a >> (WIDTH - 1)) >> 1); }
INLINE word nan_of(word a, word b) { return (is_nan(a) ? a : b) | QUIET; }

EXPORT(word, NAME(min))(word a, word b) {
  if (is_unordered(a, b)) return nan_of(a, b);
  return ordered(a) < ordered(b) ? a : b;
}

EXPORT(word, NAME(max))(word a, word b) {
  if (is_unordered(a, b)) return nan_of(a, b);
  return ordered(a) < ordered(b) ? b : a;
}
