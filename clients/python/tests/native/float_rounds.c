/* The float operations of sdk/c/floats, compiled for this processor, against the processor's own.

     float_rounds rounds COUNT SEED    operands near ties, limits, subnormal numbers, NaNs and equal ones
     float_rounds all                  every f32 through the operations that have one operand

   The operations of the processor are those of its compiler for float and double, which IEEE 754 defines. Two rules are
   WebAssembly's: a NaN of a NaN is that one made quiet, and a NaN of other operands is the canonical one, here positive. */
#include <math.h>
#include <stdint.h>
#include <stdio.h>
#include <stdlib.h>
#include <string.h>

typedef uint32_t u32;
typedef uint64_t u64;
typedef int32_t i32;
typedef int64_t i64;

int has_trapped;
static u64 wrong;

static float f32_of(u32 bits) { float x; memcpy(&x, &bits, 4); return x; }
static double f64_of(u64 bits) { double x; memcpy(&x, &bits, 8); return x; }
static u32 bits_of_f32(float x) { u32 bits; memcpy(&bits, &x, 4); return bits; }
static u64 bits_of_f64(double x) { u64 bits; memcpy(&bits, &x, 8); return bits; }

static void said(const char *name, u64 a, u64 b, u64 found, u64 expected) {
  if (wrong++ < 20)
    printf("%s of %016llx and %016llx is %016llx, and not %016llx\n", name, (unsigned long long)a, (unsigned long long)b,
           (unsigned long long)found, (unsigned long long)expected);
}
#define CHECK(name, a, b, found, expected) do { \
    u64 found_ = (found), expected_ = (expected); \
    if (found_ != expected_) said(name, a, b, found_, expected_); \
  } while (0)

#define DECLARED(F, W) \
  W f##F##_add(W, W), f##F##_sub(W, W), f##F##_mul(W, W), f##F##_div(W, W), f##F##_min(W, W), f##F##_max(W, W); \
  W f##F##_sqrt(W), f##F##_ceil(W), f##F##_floor(W), f##F##_trunc(W), f##F##_nearest(W), f##F##_abs(W), f##F##_neg(W); \
  W f##F##_copysign(W, W); \
  u32 f##F##_eq(W, W), f##F##_ne(W, W), f##F##_lt(W, W), f##F##_gt(W, W), f##F##_le(W, W), f##F##_ge(W, W); \
  u32 i32_trunc_f##F##_s(W), i32_trunc_f##F##_u(W), i32_trunc_sat_f##F##_s(W), i32_trunc_sat_f##F##_u(W); \
  u64 i64_trunc_f##F##_s(W), i64_trunc_f##F##_u(W), i64_trunc_sat_f##F##_s(W), i64_trunc_sat_f##F##_u(W); \
  W f##F##_convert_i32_s(i32), f##F##_convert_i32_u(u32), f##F##_convert_i64_s(i64), f##F##_convert_i64_u(u64);
DECLARED(32, u32)
DECLARED(64, u64)
u32 f32_demote_f64(u64);
u64 f64_promote_f32(u32);

/* What the functions that follow are for both formats: W the word, R the type of the processor. */
#define CANONICAL_32 0x7fc00000u
#define CANONICAL_64 0x7ff8000000000000u
#define QUIET_32 0x00400000u
#define QUIET_64 0x0008000000000000u

#define OPERATIONS(F, W, R, I, SQRT, CEIL, FLOOR, TRUNC, NEAREST) \
  static W result_##F(R x, W a, W b, W minus) { \
    if (!isnan(x)) return bits_of_f##F(x); \
    if (isnan(f##F##_of(a)) && isnan(f##F##_of(b))) return 0; \
    if (isnan(f##F##_of(a))) return a | QUIET_##F; \
    if (isnan(f##F##_of(b))) return (b ^ minus) | QUIET_##F; \
    return CANONICAL_##F; \
  } \
  static void check_##F(const char *name, W a, W b, W found, R x, W minus) { \
    W expected = result_##F(x, a, b, minus); \
    if (expected == 0 && isnan(x)) { /* of two NaNs it is one of them */ \
      if (found == (a | QUIET_##F)) return; \
      expected = (b ^ minus) | QUIET_##F; \
    } \
    if (found != expected) said(name, a, b, found, expected); \
  } \
  static R least_##F(R x, R y, W a, W b) { \
    return isnan(x) || isnan(y) ? NAN : x < y ? x : y < x ? y : f##F##_of(a | (x == 0 ? b : 0)); \
  } \
  static R most_##F(R x, R y, W a, W b) { \
    return isnan(x) || isnan(y) ? NAN : x > y ? x : y > x ? y : f##F##_of(a & (x == 0 ? b : ~(W)0)); \
  } \
  static void binary_##F(W a, W b) { \
    volatile R x = f##F##_of(a), y = f##F##_of(b); \
    check_##F("f" #F ".add", a, b, f##F##_add(a, b), x + y, 0); \
    check_##F("f" #F ".sub", a, b, f##F##_sub(a, b), x - y, (W)1 << (F - 1)); \
    check_##F("f" #F ".mul", a, b, f##F##_mul(a, b), x * y, 0); \
    check_##F("f" #F ".div", a, b, f##F##_div(a, b), x / y, 0); \
    check_##F("f" #F ".min", a, b, f##F##_min(a, b), least_##F(x, y, a, b), 0); \
    check_##F("f" #F ".max", a, b, f##F##_max(a, b), most_##F(x, y, a, b), 0); \
    CHECK("f" #F ".eq", a, b, f##F##_eq(a, b), x == y); \
    CHECK("f" #F ".ne", a, b, f##F##_ne(a, b), x != y); \
    CHECK("f" #F ".lt", a, b, f##F##_lt(a, b), x < y); \
    CHECK("f" #F ".gt", a, b, f##F##_gt(a, b), x > y); \
    CHECK("f" #F ".le", a, b, f##F##_le(a, b), x <= y); \
    CHECK("f" #F ".ge", a, b, f##F##_ge(a, b), x >= y); \
    CHECK("f" #F ".copysign", a, b, f##F##_copysign(a, b), \
          (a & ~((W)1 << (F - 1))) | (signbit(y) ? (W)1 << (F - 1) : 0)); \
  } \
  static void to_integers_##F(W a) { \
    double x = f##F##_of(a); /* of an f32 too it is the same number */ \
    int in_i32 = x > -2147483649.0 && x < 2147483648.0, in_u32 = x > -1 && x < 4294967296.0; \
    int in_i64 = x >= -9223372036854775808.0 && x < 9223372036854775808.0, in_u64 = x > -1 && x < 18446744073709551616.0; \
    TRUNCATION(F, i32, _s, u32, i32, in_i32, INT32_MIN, INT32_MAX) \
    TRUNCATION(F, i32, _u, u32, u32, in_u32, 0, UINT32_MAX) \
    TRUNCATION(F, i64, _s, u64, i64, in_i64, INT64_MIN, INT64_MAX) \
    TRUNCATION(F, i64, _u, u64, u64, in_u64, 0, UINT64_MAX) \
  } \
  static void unary_##F(W a) { \
    R x = f##F##_of(a); \
    check_##F("f" #F ".sqrt", a, 0, f##F##_sqrt(a), SQRT(x), 0); \
    check_##F("f" #F ".ceil", a, 0, f##F##_ceil(a), CEIL(x), 0); \
    check_##F("f" #F ".floor", a, 0, f##F##_floor(a), FLOOR(x), 0); \
    check_##F("f" #F ".trunc", a, 0, f##F##_trunc(a), TRUNC(x), 0); \
    check_##F("f" #F ".nearest", a, 0, f##F##_nearest(a), NEAREST(x), 0); \
    CHECK("f" #F ".abs", a, 0, f##F##_abs(a), a & ~((W)1 << (F - 1))); \
    CHECK("f" #F ".neg", a, 0, f##F##_neg(a), a ^ ((W)1 << (F - 1))); \
    to_integers_##F(a); \
  } \
  static void from_integers_##F(u64 n) { \
    CHECK("f" #F ".convert_i32_s", n, 0, f##F##_convert_i32_s(n), bits_of_f##F((R)(i32)n)); \
    CHECK("f" #F ".convert_i32_u", n, 0, f##F##_convert_i32_u(n), bits_of_f##F((R)(u32)n)); \
    CHECK("f" #F ".convert_i64_s", n, 0, f##F##_convert_i64_s(n), bits_of_f##F((R)(i64)n)); \
    CHECK("f" #F ".convert_i64_u", n, 0, f##F##_convert_i64_u(n), bits_of_f##F((R)n)); \
  }

#define TRUNCATION(F, TO, SIGNED, U, T, is_in, least, most) do { \
    U expected = is_in ? (U)(T)x : isnan(x) ? 0 : x < 0 ? (U)(T)(least) : (U)(T)(most), found; \
    CHECK(#TO ".trunc_sat_f" #F #SIGNED, a, 0, TO##_trunc_sat_f##F##SIGNED(a), expected); \
    has_trapped = 0; \
    found = TO##_trunc_f##F##SIGNED(a); \
    CHECK(#TO ".trunc_f" #F #SIGNED " traps", a, 0, has_trapped, !(is_in)); \
    if (!has_trapped) CHECK(#TO ".trunc_f" #F #SIGNED, a, 0, found, expected); \
  } while (0);

OPERATIONS(32, u32, float, i32, sqrtf, ceilf, floorf, truncf, rintf)
OPERATIONS(64, u64, double, i64, sqrt, ceil, floor, trunc, rint)

static void check_promotion(u32 a) {
  u64 expected = isnan(f32_of(a)) ? (u64)(a >> 31) << 63 | CANONICAL_64 | (u64)(a & 0x7fffff) << 29 : bits_of_f64(f32_of(a));
  CHECK("f64.promote_f32", a, 0, f64_promote_f32(a), expected);
}

static void check_demotion(u64 a) {
  u32 expected = isnan(f64_of(a)) ? (u32)(a >> 63) << 31 | CANONICAL_32 | (u32)(a >> 29 & 0x7fffff) : bits_of_f32(f64_of(a));
  CHECK("f32.demote_f64", a, 0, f32_demote_f64(a), expected);
}

/* Random numbers by xorshift. */
static u64 state;
static u64 any(void) {
  state ^= state << 13;
  state ^= state >> 7;
  return state ^= state << 17;
}
static u64 below(u64 limit) { return (any() >> 20) % limit; }

/* A fraction of `size` bits: any; one with few bits in front, or behind; or near one of those. */
static u64 some_fraction(int size) {
  u64 all = ((u64)1 << size) - 1, some = any() & all;
  switch (below(6)) {
    case 0: return some & all << below(size + 1);
    case 1: return (some | all >> below(size + 1)) & all;
    case 2: return some >> below(size + 1);
    case 3: return ((u64)1 << below(size)) + below(5) - 2 & all;
    default: return some;
  }
}

/* A float of `size` bits of fraction and `most` as the largest exponent: of any exponent, near 1 and the integers' limits,
   near the ends, and 0, infinity or a NaN. */
static u64 some_float(int size, int most) {
  int bias = most / 2;
  u64 exponent;
  switch (below(8)) {
    case 0: exponent = below(3); break;
    case 1: exponent = most - below(4); break;
    case 2: exponent = bias + below(70) - 3; break;
    case 3: exponent = bias / 2 + below(3) - 1 + (any() & 1 ? bias : 0); break;
    case 4: exponent = bias + below(2 * size) - size; break;
    case 5: exponent = below(size + 2); break;
    default: exponent = below(most + 1);
  }
  u64 found = exponent << size | (below(40) ? some_fraction(size) : 0);
  if (below(20) == 0) found &= (u64)most << size;
  return found | (any() & 1) << (size == 52 ? 63 : 31);
}

/* Two floats; the second one may be the first, have its exponent nearly, or be near it, with any sign. */
static void two_floats(int size, int most, u64 *a, u64 *b) {
  u64 sign = (u64)1 << (size == 52 ? 63 : 31), magnitudes = sign - 1;
  *a = some_float(size, most);
  *b = some_float(size, most);
  switch (below(5)) {
    case 0: *b = (*a + below(7) - 3) & magnitudes; break;
    case 1: {
      i64 exponent = (i64)(*a >> size & most) + (i64)below(2 * size + 8) - size - 4;
      if (exponent >= 0 && exponent < most) *b = (u64)exponent << size | some_fraction(size);
      break;
    }
    default: return;
  }
  if (any() & 1) *b |= sign;
}

static void round_of_all(void) {
  u64 a, b;
  two_floats(52, 2047, &a, &b);
  binary_64(a, b);
  unary_64(a);
  check_demotion(below(3) ? a : (a & ~((u64)0x7ff << 52)) | (896 - 25 + below(281)) << 52);
  two_floats(23, 255, &a, &b);
  binary_32(a, b);
  unary_32(a);
  check_promotion(a);
  u64 n = any() >> below(64);
  if (any() & 1) n &= ~(u64)0 << below(64);
  if (below(4) == 0) n += below(5) - 2;
  if (any() & 1) n = -n;
  from_integers_32(n);
  from_integers_64(n);
}

int main(int count, char **words) {
  if (count == 4 && strcmp(words[1], "rounds") == 0) {
    u64 rounds = strtoull(words[2], 0, 10);
    state = strtoull(words[3], 0, 10) * 0x9e3779b97f4a7c15 | 1;
    for (int i = 0; i < 20; i++) any();
    for (u64 i = 0; i < rounds; i++) round_of_all();
  } else if (count == 2 && strcmp(words[1], "all") == 0) {
    u32 a = 0;
    do {
      unary_32(a);
      check_promotion(a);
      from_integers_32((u64)a * 0x100000001);
      check_demotion((u64)(a & 0x80000000) << 32 | ((u64)(a & 0x7fffffff) << 29) + ((u64)896 << 52));
    } while (++a);
  } else {
    fprintf(stderr, "usage: float_rounds rounds COUNT SEED | float_rounds all\n");
    return 2;
  }
  printf("%llu wrong\n", (unsigned long long)wrong);
  return wrong != 0;
}
