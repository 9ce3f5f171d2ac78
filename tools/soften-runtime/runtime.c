/* What float instructions of WebAssembly 1.0 do, over the bits of floats: f32 as u32, f64 as u64.

   `tools/soften` takes these functions into a module. They use no memory, no global and no table: `build` checks that.
   Where the standard leaves the bits of a NaN open, the result is the first operand that is one, made quiet, or else the
   positive canonical NaN. A conversion of a NaN to an integer traps as `unreachable`, one of a number out of range as
   `integer overflow`. */

typedef unsigned int u32;
typedef unsigned long long u64;

#ifdef __wasm__
/* The only instruction of integers that traps so is the least number divided by -1, which C leaves undefined. */
static inline void trap_overflow(void) {
  __asm__ volatile("i32.const -2147483648\n i32.const -1\n i32.div_s\n drop" ::: "memory");
}
#else
static inline void trap_overflow(void) { __builtin_trap(); }
#endif

/* The upper half of a product, with its lowest bit set where the lower half isn't 0. */
static u32 high32(u32 a, u32 b) {
  u64 product = (u64)a * b;
  return (u32)(product >> 32) | ((u32)product != 0);
}

static u64 high64(u64 a, u64 b) {
  u64 a0 = (u32)a, a1 = a >> 32, b0 = (u32)b, b1 = b >> 32;
  u64 low = a0 * b0, one = a1 * b0 + (low >> 32), two = a0 * b1 + (u32)one;
  return (a1 * b1 + (one >> 32) + (two >> 32)) | ((two << 32 | (u32)low) != 0);
}

/* The root towards 0 of a number from 2^62 on, by Newton's steps from above. */
static u64 root_of(u64 x) {
  u64 root = (x >> 33) + 0x80000001;
  for (int i = 0; i < 4; i++) root = (root + x / root) >> 1;
  return root > x / root ? root - 1 : root;
}

/* The root of a significand of 24 or 25 bits with its leading bit at 30, and its lowest bit set where it isn't whole. */
static u32 f32_root(u32 bits) {
  u64 x = (u64)bits << 39, root = root_of(x);
  return (u32)(root >> 1 | (root & 1) | (root * root != x));
}

/* The root of a significand of 53 or 54 bits with its leading bit at 62: 32 bits by Newton, and 23 more by one division. */
static u64 f64_root(u64 bits) {
  u64 x = bits << 10, root = root_of(x), rest = (x - root * root) << 22;
  u64 low = rest / root, whole = (root << 23) + low;
  long long left = (long long)((rest - low * root) << 24) - (long long)(low * low);
  if (left < 0) {
    whole--;
    left += 2 * (long long)whole + 1;
  }
  return whole << 8 | (left != 0);
}

#define WIDTH 32
#define U u32
#define S int
#define N(name) f32_##name
#define FRACTION 23
#define EXPONENTS 255
#define BIAS 127
#define DIGITS 3
#define CLZ __builtin_clz
#define HIGH high32
#include "float.h"
#undef WIDTH
#undef U
#undef S
#undef N
#undef FRACTION
#undef EXPONENTS
#undef BIAS
#undef DIGITS
#undef CLZ
#undef HIGH

#define WIDTH 64
#define U u64
#define S long long
#define N(name) f64_##name
#define FRACTION 52
#define EXPONENTS 2047
#define BIAS 1023
#define DIGITS 5
#define CLZ __builtin_clzll
#define HIGH high64
#include "float.h"

u64 f64_promote_f32(u32 a) {
  u64 sign = (u64)(a >> 31) << 63, rest = a & 0x7fffffff;
  if (!rest) return sign;
  if (rest >= 0x7f800000) return sign | 0x7ffull << 52 | rest << 29 | (rest > 0x7f800000 ? 1ull << 51 : 0);
  int exponent;
  u64 bits = f32_significand((u32)rest, &exponent);
  return sign | ((u64)(exponent + 1023 - 127 - 1) << 52) + (bits << 29);
}

u32 f32_demote_f64(u64 a) {
  u32 sign = (u32)(a >> 63) << 31;
  u64 rest = a & 0x7fffffffffffffff;
  if (rest > 0x7ffull << 52) return sign | 0x7fc00000 | ((u32)(rest >> 29) & 0x7fffff);
  int exponent = (int)(rest >> 52);
  /* the least f64 with an implied leading bit is far below every f32 */
  if (!exponent) return sign;
  if (exponent == 2047) return sign | 0x7f800000;
  u64 bits = (rest & 0xfffffffffffffull) | 1ull << 52;
  return f32_rounded(sign, exponent - 1023 + 127, (u32)(bits >> 22) | ((bits & 0x3fffff) != 0));
}
