/* The formats binary32 and binary64 of IEEE 754, by integers alone: each file here is compiled with -DF=32 and with -DF=64,
   and has the operations of f32 and of f64 in WebAssembly. A float is a `word` of its bits.

   A finite number that is not 0 is taken as an exponent `e`, as it is encoded, and a significand `m` whose first bit is bit
   TOP; below those of the format, m has GUARD bits, the lowest of which is 1 if anything below it is not 0. Numbers are
   rounded to the nearest one, and to the one that is even if two are as near.

   An operation with a NaN gives one of its NaNs, made quiet; a NaN of other operands is the canonical one, and positive. */
#ifndef FLOATS_H
#define FLOATS_H
#include <stdint.h>

typedef uint32_t u32;
typedef uint64_t u64;
typedef int32_t i32;
typedef int64_t i64;

#if F == 64
typedef u64 word;
typedef i64 number; /* a word with a sign */
#define NAME(operation) f64_##operation
#define NAMED(before, after) before##_f64##after
#define LEADING_ZEROS __builtin_clzll
enum { WIDTH = 64, FRACTION_SIZE = 52, BIAS = 1023, MOST = 2047 };
#else
typedef u32 word;
typedef i32 number;
#define NAME(operation) f32_##operation
#define NAMED(before, after) before##_f32##after
#define LEADING_ZEROS __builtin_clz
enum { WIDTH = 32, FRACTION_SIZE = 23, BIAS = 127, MOST = 255 };
#endif

#define ONE ((word)1)
#define SIGN (ONE << (WIDTH - 1))
#define HIDDEN (ONE << FRACTION_SIZE) /* the first bit of a significand, which is not encoded */
#define FRACTION (HIDDEN - 1)
#define INFINITY ((word)MOST << FRACTION_SIZE)
#define QUIET (HIDDEN >> 1)
#define CANONICAL (INFINITY | QUIET)
enum { TOP = WIDTH - 2, GUARD = TOP - FRACTION_SIZE };

#define EXPORT(type, name) EXPORT_AS(type, name)
#ifdef __wasm__
#define EXPORT_AS(type, name) __attribute__((export_name(#name))) type name
#else
#define EXPORT_AS(type, name) type name
#endif
#define INLINE static inline __attribute__((always_inline))

/* A turn of the shim is an instruction, whichever: less is done on one way than by choosing between two results. */
#define RARELY(condition) __builtin_expect(condition, 0)
#define KEEP_BRANCH(value) __asm__("" : "+r"(value))

#ifdef __wasm__
#define TRAP() __builtin_trap()
#else
extern int has_trapped; /* of the test that runs this code on another processor */
#define TRAP() (has_trapped = 1)
#endif

/* The exponent as it is encoded: 0 of zeros and subnormal numbers, MOST of infinities and NaNs. */
INLINE number exponent_of(word a) { return a >> FRACTION_SIZE & MOST; }

/* Shifting the sign out leaves an order of magnitudes, in which NaNs are above infinity. */
INLINE int is_nan(word a) { return a << 1 > INFINITY << 1; }

INLINE int is_normal(number exponent) { return (word)exponent - 1 < MOST - 1; }

/* The significand of a normal number, its first bit at bit TOP. */
INLINE word significand_of(word a) { return ((a & FRACTION) | HIDDEN) << GUARD; }

/* The significand of a finite number that is not 0; its exponent is 0 or less if it is subnormal. */
INLINE word normalized(word a, number *e) {
  *e = exponent_of(a);
  if (*e) return significand_of(a);
  word m = a & FRACTION;
  int shift = LEADING_ZEROS(m) - 1;
  *e = GUARD + 1 - shift;
  return m << shift;
}

/* A shift to the right that keeps in the lowest bit whether anything was lost; 0 < count < WIDTH. */
INLINE word shifted(word m, word count) { return m >> count | (m << (WIDTH - count) != 0); }

/* A significand without its guard bits, to nearest, ties to even. It may become HIDDEN * 2. */
INLINE word rounded(word m) { return (m + ((ONE << (GUARD - 1)) - 1) + (m >> GUARD & 1)) >> GUARD; }

/* The number of a sign, an exponent and a significand. The first bit of the significand adds 1 to the exponent, and so does
   one that rounding makes twice as large, which also gives infinity. Beyond the exponents are infinity and, with fewer bits
   and rounded only once, subnormal numbers. */
INLINE word packed(word sign, number e, word m) {
  if (is_normal(e)) return sign + ((word)(e - 1) << FRACTION_SIZE) + rounded(m);
  if (e > 0) return sign | INFINITY;
  word count = 1 - e;
  return sign | rounded(count < WIDTH ? shifted(m, count) : 1);
}

#endif
