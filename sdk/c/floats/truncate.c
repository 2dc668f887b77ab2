/* IEEE 754, 5.8: convertToIntegerTowardZero. Out of range WebAssembly's `trunc` traps, and `trunc_sat` gives the number at
   that end, and 0 for a NaN. */
#include "floats.h"

/* The magnitude of a number of less than 2^64, toward 0. */
INLINE u64 magnitude(word a) {
  number e = exponent_of(a) - BIAS;
  if (e < 0) return 0;
  u64 m = (a & FRACTION) | HIDDEN;
  return e < FRACTION_SIZE ? m >> (FRACTION_SIZE - e) : m << (e - FRACTION_SIZE);
}

/* Whether a number is inside a range from -`least` up to `most`, and if so its magnitude. */
INLINE int is_inside(word a, u64 least, u64 most, u64 *found) {
  if (exponent_of(a) >= BIAS + 64) return 0;
  *found = magnitude(a);
  return *found <= ((number)a < 0 ? least : most);
}

INLINE u64 with_sign(word a, u64 found) { return (number)a < 0 ? -found : found; }

INLINE u64 trapping(word a, u64 least, u64 most) {
  u64 found = 0;
  if (!is_inside(a, least, most, &found)) TRAP();
  return with_sign(a, found);
}

INLINE u64 saturating(word a, u64 least, u64 most) {
  u64 found;
  if (is_inside(a, least, most, &found)) return with_sign(a, found);
  if (is_nan(a)) return 0;
  return (number)a < 0 ? -least : most;
}

#define EDGE_32 ((u64)1 << 31)
#define EDGE_64 ((u64)1 << 63)

EXPORT(u32, NAMED(i32_trunc, _s))(word a) { return trapping(a, EDGE_32, EDGE_32 - 1); }
EXPORT(u32, NAMED(i32_trunc, _u))(word a) { return trapping(a, 0, UINT32_MAX); }
EXPORT(u64, NAMED(i64_trunc, _s))(word a) { return trapping(a, EDGE_64, EDGE_64 - 1); }
EXPORT(u64, NAMED(i64_trunc, _u))(word a) { return trapping(a, 0, UINT64_MAX); }
EXPORT(u32, NAMED(i32_trunc_sat, _s))(word a) { return saturating(a, EDGE_32, EDGE_32 - 1); }
EXPORT(u32, NAMED(i32_trunc_sat, _u))(word a) { return saturating(a, 0, UINT32_MAX); }
EXPORT(u64, NAMED(i64_trunc_sat, _s))(word a) { return saturating(a, EDGE_64, EDGE_64 - 1); }
EXPORT(u64, NAMED(i64_trunc_sat, _u))(word a) { return saturating(a, 0, UINT64_MAX); }
