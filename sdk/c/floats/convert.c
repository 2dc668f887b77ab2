/* IEEE 754, 5.4.1: convertFromInt; 5.4.2: convertFormat, which WebAssembly calls demote and promote. */
#include "floats.h"

/* The number of a sign and a magnitude that is not 0: its bits go to the front, and those that are lost into the last one. */
INLINE word of_magnitude(word sign, u64 magnitude) {
  int zeros = __builtin_clzll(magnitude);
  u64 m = magnitude << zeros;
#if F == 32
  m = m >> 32 | ((u32)m != 0);
#endif
  return packed(sign, BIAS + 63 - zeros, m >> 1 | (m & 1));
}

INLINE word of_signed(i64 value) {
  if (value == 0) return 0;
  return value < 0 ? of_magnitude(SIGN, -(u64)value) : of_magnitude(0, value);
}

INLINE word of_unsigned(u64 value) { return value == 0 ? 0 : of_magnitude(0, value); }

EXPORT(word, NAME(convert_i32_s))(i32 value) { return of_signed(value); }
EXPORT(word, NAME(convert_i32_u))(u32 value) { return of_unsigned(value); }
EXPORT(word, NAME(convert_i64_s))(i64 value) { return of_signed(value); }
EXPORT(word, NAME(convert_i64_u))(u64 value) { return of_unsigned(value); }

#if F == 32
/* To binary32. A NaN keeps the bits in front. A subnormal number is far below those of binary32, and becomes 0 too. */
EXPORT(u32, f32_demote_f64)(u64 a) {
  u32 sign = a >> 32 & SIGN, exponent = a >> 52 & 2047;
  u64 m = a & (((u64)1 << 52) - 1);
  if (exponent == 2047) return sign | (m ? CANONICAL | (u32)(m >> 29) : INFINITY);
  return packed(sign, (i32)exponent - 1023 + BIAS, ONE << TOP | (u32)(m >> 22) | (m << 42 != 0));
}
#else
/* From binary32, which loses nothing. */
EXPORT(u64, f64_promote_f32)(u32 a) {
  u64 sign = (u64)(a >> 31) << 63, exponent = a >> 23 & 255, m = a & ((1 << 23) - 1);
  if (exponent == 255) return sign | (m ? CANONICAL | m << 29 : INFINITY);
  if (exponent == 0) {
    if (m == 0) return sign;
    int shift = __builtin_clzll(m) - 40;
    m = m << shift & ((1 << 23) - 1);
    exponent = 1 - shift;
  }
  return sign | (exponent + 1023 - 127) << 52 | m << 29;
}
#endif
