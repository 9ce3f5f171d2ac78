/* Random operations of `runtime.c` beside the processor's own: `beside COUNT SEED`. Prints how many were tried, and the first that
   differ; results that are NaN have to be NaN in both, made of the operands' or canonical. */
#include "runtime.c"

#include <math.h>
#include <stdio.h>
#include <stdlib.h>
#include <string.h>

static u64 state;

static u64 drawn(void) {
  state += 0x9e3779b97f4a7c15;
  u64 x = state;
  x = (x ^ x >> 30) * 0xbf58476d1ce4e5b9;
  x = (x ^ x >> 27) * 0x94d049bb133111eb;
  return x ^ x >> 31;
}

/* Bits of which many stand at an edge: zeros, infinities, NaN, subnormals, integers, exponents near one another. */
static u64 bits(int width) {
  int fraction = width == 64 ? 52 : 23, bias = width == 64 ? 1023 : 127, most = 2 * bias + 1;
  u64 low = drawn() & ((1ull << fraction) - 1), sign = (drawn() & 1) << (width - 1);
  switch (drawn() % 8) {
    case 0: return sign | (u64)(drawn() % 2 ? most : 0) << fraction | (drawn() % 2 ? low : drawn() % 4);
    case 1: return sign | (u64)(bias + drawn() % 70 - 3) << fraction | low;
    case 2: return sign | (u64)(bias + drawn() % 4 - 2) << fraction | (low & ~0ull << drawn() % fraction);
    case 3: return sign | (u64)(drawn() % (fraction + 4)) << fraction | low;
    case 4: return sign | (u64)(bias + drawn() % 66) << fraction | (low & ~0ull << drawn() % fraction);
    case 5: return sign | (u64)(most - 1 - drawn() % 3) << fraction | (((1ull << fraction) - 1) & ~(drawn() % 2));
    default: return drawn() >> (64 - width);
  }
}

static float f32(u64 x) {
  u32 low = (u32)x;
  float it;
  memcpy(&it, &low, 4);
  return it;
}
static double f64(u64 x) {
  double it;
  memcpy(&it, &x, 8);
  return it;
}
static u64 of32(float x) {
  u32 it;
  memcpy(&it, &x, 4);
  return it;
}
static u64 of64(double x) {
  u64 it;
  memcpy(&it, &x, 8);
  return it;
}

static int wrong;
static u64 tried;

static void same(const char *name, u64 a, u64 b, u64 got, u64 wanted, int width) {
  tried++;
  if (got == wanted) return;
  u64 magnitude = width == 64 ? ~0ull >> 1 : 0x7fffffff, infinity = width == 64 ? 2047ull << 52 : 255u << 23;
  u64 quiet = width == 64 ? 1ull << 51 : 1u << 22;
  if (width && (got & magnitude) > infinity && (wanted & magnitude) > infinity && (got & quiet)) return;
  if (wrong++ < 20) printf("%s(%llx, %llx): %llx, the processor %llx\n", name, a, b, got, wanted);
}


#define CASES(w, s, of, T, suffix)                                                                                          \
  static void of##_cases(u64 a, u64 b) {                                                                                    \
    T x = w(a), y = w(b);                                                                                                   \
    same(#w ".add", a, b, w##_add(a, b), of(x + y), s);                                                                     \
    same(#w ".sub", a, b, w##_sub(a, b), of(x - y), s);                                                                     \
    same(#w ".mul", a, b, w##_mul(a, b), of(x * y), s);                                                                     \
    same(#w ".div", a, b, w##_div(a, b), of(x / y), s);                                                                     \
    same(#w ".sqrt", a, 0, w##_sqrt(a), of(sqrt##suffix(x)), s);                                                            \
    same(#w ".floor", a, 0, w##_floor(a), of(floor##suffix(x)), s);                                                         \
    same(#w ".ceil", a, 0, w##_ceil(a), of(ceil##suffix(x)), s);                                                            \
    same(#w ".trunc", a, 0, w##_trunc(a), of(trunc##suffix(x)), s);                                                         \
    same(#w ".nearest", a, 0, w##_nearest(a), of(rint##suffix(x)), s);                                                      \
    same(#w ".copysign", a, b, w##_copysign(a, b), of(copysign##suffix(x, y)), 0);                                          \
    same(#w ".eq", a, b, w##_eq(a, b), x == y, 0);                                                                          \
    same(#w ".lt", a, b, w##_lt(a, b), x < y, 0);                                                                           \
    same(#w ".le", a, b, w##_le(a, b), x <= y, 0);                                                                          \
    same(#w ".gt", a, b, w##_gt(a, b), x > y, 0);                                                                           \
    same(#w ".ge", a, b, w##_ge(a, b), x >= y, 0);                                                                          \
    if (x != x || y != y || x != y) { /* which zero C gives is open */                                                      \
      T least = x != x || y != y ? x + y : x < y ? x : y, most = x != x || y != y ? x + y : x < y ? y : x;                  \
      same(#w ".min", a, b, w##_min(a, b), of(least), s);                                                                   \
      same(#w ".max", a, b, w##_max(a, b), of(most), s);                                                                    \
    }                                                                                                                       \
    same(#w ".convert_i32_s", a, 0, w##_convert_i32_s((u32)a), of((T)(int)a), s);                                           \
    same(#w ".convert_i32_u", a, 0, w##_convert_i32_u((u32)a), of((T)(u32)a), s);                                           \
    same(#w ".convert_i64_s", a, 0, w##_convert_i64_s(a), of((T)(long long)a), s);                                          \
    same(#w ".convert_i64_u", a, 0, w##_convert_i64_u(a), of((T)a), s);                                                     \
    same(#w ".to_i32_s", a, 0, w##_trunc_sat_i32_s(a),                                                                      \
         x != x ? 0 : x <= -0x1p31 ? 0x80000000u : x >= 0x1p31 ? 0x7fffffff : (u32)(int)x, 0);                              \
    same(#w ".to_i32_u", a, 0, w##_trunc_sat_i32_u(a), !(x > 0) ? 0 : x >= 0x1p32 ? ~0u : (u32)x, 0);                       \
    same(#w ".to_i64_s", a, 0, w##_trunc_sat_i64_s(a),                                                                      \
         x != x ? 0 : x <= -0x1p63 ? 1ull << 63 : x >= 0x1p63 ? ~0ull >> 1 : (u64)(long long)x, 0);                         \
    same(#w ".to_i64_u", a, 0, w##_trunc_sat_i64_u(a), !(x > 0) ? 0 : x >= 0x1p64 ? ~0ull : (u64)x, 0);                     \
    if (x > -0x1p31 && x < 0x1p31) same(#w ".trapping_i32_s", a, 0, w##_trunc_i32_s(a), (u32)(int)x, 0);                    \
    if (x > -1 && x < 0x1p32) same(#w ".trapping_i32_u", a, 0, w##_trunc_i32_u(a), (u32)x, 0);                              \
    if (x >= -0x1p63 && x < 0x1p63) same(#w ".trapping_i64_s", a, 0, w##_trunc_i64_s(a), (u64)(long long)x, 0);             \
    if (x > -1 && x < 0x1p64) same(#w ".trapping_i64_u", a, 0, w##_trunc_i64_u(a), x <= 0 ? 0 : (u64)x, 0);                 \
  }

CASES(f32, 32, of32, float, f)
CASES(f64, 64, of64, double, )

int main(int count, char **words) {
  u64 turns = count > 1 ? strtoull(words[1], 0, 10) : 300000;
  state = count > 2 ? strtoull(words[2], 0, 10) : 1;
  for (u64 i = 0; i < turns; i++) {
    u64 a = bits(32), b = drawn() % 8 ? bits(32) : a ^ (drawn() & 3);
    of32_cases(a, b);
    same("f64.promote_f32", a, 0, f64_promote_f32((u32)a), of64((double)f32(a)), 64);
    a = bits(64), b = drawn() % 8 ? bits(64) : a ^ (drawn() & 3);
    of64_cases(a, b);
    if (drawn() % 2) a = of64((double)f32(bits(32))) + drawn() % 5 - 2;
    same("f32.demote_f64", a, 0, f32_demote_f64(a), of32((float)f64(a)), 32);
  }
  printf("%llu operations, %d differ\n", tried, wrong);
  return wrong > 0;
}
