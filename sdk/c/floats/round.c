/* IEEE 754, 5.9: roundToIntegralToward.. and TiesToEven, which WebAssembly calls ceil, floor, trunc and nearest. A zero that
   comes out has the sign of the number. */
#include "floats.h"

/* The bits behind the point, of a number from 1 on that has such bits. */
INLINE word behind_point(word a) { return FRACTION >> (exponent_of(a) - BIAS); }

/* A number that has no bits behind the point, an infinity or a NaN. */
INLINE int is_whole(word a) { return exponent_of(a) >= BIAS + FRACTION_SIZE; }
INLINE word whole(word a) { return is_nan(a) ? a | QUIET : a; }

INLINE int is_below_one(word a) { return exponent_of(a) < BIAS; }
INLINE word one_of(word sign) { return sign | (word)BIAS << FRACTION_SIZE; }

EXPORT(word, NAME(trunc))(word a) {
  if (is_whole(a)) return whole(a);
  return is_below_one(a) ? a & SIGN : a & ~behind_point(a);
}

/* Away from 0 if the sign is that of the direction: adding all bits behind the point carries if one of them is 1. */
INLINE word directed(word a, int is_away) {
  if (is_whole(a)) return whole(a);
  if (is_below_one(a)) return is_away && a << 1 ? one_of(a & SIGN) : a & SIGN;
  word behind = behind_point(a);
  return (is_away ? a + behind : a) & ~behind;
}

EXPORT(word, NAME(ceil))(word a) { return directed(a, (number)a >= 0); }
EXPORT(word, NAME(floor))(word a) { return directed(a, (number)a < 0); }

EXPORT(word, NAME(nearest))(word a) {
  if (is_whole(a)) return whole(a);
  if (is_below_one(a)) return a << 1 > (word)(BIAS - 1) << (FRACTION_SIZE + 1) ? one_of(a & SIGN) : a & SIGN;
  /* The last bit before the point; of 1 it is the lowest one of the exponent, as BIAS is odd. */
  word behind = behind_point(a), is_odd = (a & (behind + 1)) != 0;
  return (a + (behind >> 1) + is_odd) & ~behind;
}
