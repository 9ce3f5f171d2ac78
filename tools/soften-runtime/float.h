/* The functions of one width of floats over its bits; `runtime.c` includes this once for 32 bits and once for 64.

   An unpacked number is a sign, a biased exponent and a significand with its leading bit at LEAD, so that GUARD bits stand below
   the last one that a float keeps. Lost bits are gathered in the lowest one ("sticky"): it only has to tell whether any was 1. */

#define SIGN ((U)1 << (WIDTH - 1))
#define MAGNITUDE (SIGN - 1)
#define HIDDEN ((U)1 << FRACTION)
#define INFINITY_BITS ((U)EXPONENTS << FRACTION)
#define QUIET (HIDDEN >> 1)
#define NAN_BITS (INFINITY_BITS | QUIET)
#define LEAD (WIDTH - 2)
#define GUARD (LEAD - FRACTION)

static int N(exponent)(U x) { return (int)(x >> FRACTION) & EXPONENTS; }
static int N(is_nan)(U x) { return (x & MAGNITUDE) > INFINITY_BITS; }

/* A NaN for an operation with a NaN among its operands: the first one, quiet. */
static U N(nan_of)(U a, U b) { return (N(is_nan)(a) ? a : b) | QUIET; }

static U N(shifted_right)(U x, int count) {
  if (count == 0) return x;
  if (count >= WIDTH) return x != 0;
  return x >> count | (U)(x << (WIDTH - count) != 0);
}

/* The significand of a finite number that isn't 0 with its leading bit at FRACTION, and its exponent. */
static U N(significand)(U x, int *exponent) {
  U bits = x & (HIDDEN - 1);
  *exponent = N(exponent)(x);
  if (*exponent) return bits | HIDDEN;
  int up = CLZ(bits) - (WIDTH - 1 - FRACTION);
  *exponent = 1 - up;
  return bits << up;
}

/* Rounds to nearest, ties to even. The leading bit of `bits` is at LEAD. */
static U N(rounded)(U sign, int exponent, U bits) {
  if (exponent >= EXPONENTS) return sign | INFINITY_BITS;
  U base = 0;
  if (exponent <= 0) bits = N(shifted_right)(bits, 1 - exponent);
  else base = (U)(exponent - 1) << FRACTION;
  U lost = bits & (((U)1 << GUARD) - 1), half = (U)1 << (GUARD - 1);
  bits >>= GUARD;
  if (lost > half || (lost == half && (bits & 1))) bits++;
  return sign | (base + bits);
}

U N(add)(U a, U b) {
  U x = a & MAGNITUDE, y = b & MAGNITUDE;
  if (x - 1 >= INFINITY_BITS - 1 || y - 1 >= INFINITY_BITS - 1) {
    if (x > INFINITY_BITS || y > INFINITY_BITS) return N(nan_of)(a, b);
    if (x == INFINITY_BITS) return y == INFINITY_BITS && a != b ? NAN_BITS : a;
    if (y == INFINITY_BITS) return b;
    if (y) return x ? a : b;
    return x ? a : a & b;
  }
  if (x < y) {
    U t = a;
    a = b;
    b = t;
  }
  int e = N(exponent)(a), f = N(exponent)(b);
  U p = a & (HIDDEN - 1), q = b & (HIDDEN - 1);
  if (e) p |= HIDDEN;
  else e = 1;
  if (f) q |= HIDDEN;
  else f = 1;
  p <<= GUARD;
  q = N(shifted_right)(q << GUARD, e - f);
  U sum = (a ^ b) & SIGN ? p - q : p + q;
  if (!sum) return 0;
  if (sum & SIGN) return N(rounded)(a & SIGN, e + 1, N(shifted_right)(sum, 1));
  int up = CLZ(sum) - 1;
  return N(rounded)(a & SIGN, e - up, sum << up);
}

U N(sub)(U a, U b) {
  if (N(is_nan)(b)) return N(nan_of)(a, b);
  return N(add)(a, b ^ SIGN);
}

U N(mul)(U a, U b) {
  U x = a & MAGNITUDE, y = b & MAGNITUDE, sign = (a ^ b) & SIGN;
  if (x - 1 >= INFINITY_BITS - 1 || y - 1 >= INFINITY_BITS - 1) {
    if (x > INFINITY_BITS || y > INFINITY_BITS) return N(nan_of)(a, b);
    if (x == INFINITY_BITS) return y ? sign | x : NAN_BITS;
    if (y == INFINITY_BITS) return x ? sign | y : NAN_BITS;
    return sign;
  }
  int e, f;
  U p = N(significand)(x, &e) << (GUARD + 1), q = N(significand)(y, &f) << (GUARD + 1);
  U product = HIGH(p, q);
  e += f - BIAS;
  if (product & SIGN) return N(rounded)(sign, e + 1, N(shifted_right)(product, 1));
  return N(rounded)(sign, e, product);
}

U N(div)(U a, U b) {
  U x = a & MAGNITUDE, y = b & MAGNITUDE, sign = (a ^ b) & SIGN;
  if (x - 1 >= INFINITY_BITS - 1 || y - 1 >= INFINITY_BITS - 1) {
    if (x > INFINITY_BITS || y > INFINITY_BITS) return N(nan_of)(a, b);
    if (x == INFINITY_BITS) return y == INFINITY_BITS ? NAN_BITS : sign | x;
    if (y == INFINITY_BITS) return sign;
    if (y) return sign;
    return x ? sign | INFINITY_BITS : NAN_BITS;
  }
  int e, f;
  U p = N(significand)(x, &e), q = N(significand)(y, &f);
  e += BIAS - f;
  if (p < q) {
    p <<= 1;
    e--;
  }
  /* DIGITS digits of GUARD + 1 bits each after the leading 1 */
  U rest = p - q, quotient = 1;
  for (int i = 0; i < DIGITS; i++) {
    rest <<= GUARD + 1;
    quotient = quotient << (GUARD + 1) | rest / q;
    rest %= q;
  }
  quotient = quotient << (LEAD - DIGITS * (GUARD + 1)) | (rest != 0);
  return N(rounded)(sign, e, quotient);
}

U N(sqrt)(U a) {
  if (N(is_nan)(a)) return a | QUIET;
  if (!(a & MAGNITUDE)) return a;
  if (a & SIGN) return NAN_BITS;
  if (a == INFINITY_BITS) return a;
  int e;
  U bits = N(significand)(a, &e);
  e -= BIAS;
  if (e & 1) {
    bits <<= 1;
    e--;
  }
  return N(rounded)(0, e / 2 + BIAS, N(root)(bits));
}

U N(trunc)(U a) {
  int e = N(exponent)(a) - BIAS;
  if (e >= FRACTION) return N(is_nan)(a) ? a | QUIET : a;
  if (e < 0) return a & SIGN;
  return a & ~((HIDDEN >> e) - 1);
}

/* The next integer away from 0 where a isn't one. */
static U N(outward)(U a) {
  U whole = N(trunc)(a);
  if (whole == a || N(is_nan)(a)) return whole;
  if (!(whole & MAGNITUDE)) return whole | (U)BIAS << FRACTION;
  return whole + (HIDDEN >> (N(exponent)(a) - BIAS));
}

U N(floor)(U a) { return a & SIGN ? N(outward)(a) : N(trunc)(a); }
U N(ceil)(U a) { return a & SIGN ? N(trunc)(a) : N(outward)(a); }

U N(nearest)(U a) {
  int e = N(exponent)(a) - BIAS;
  if (e >= FRACTION || e < -1) return N(trunc)(a);
  if (e == -1) return a & (HIDDEN - 1) ? (a & SIGN) | (U)BIAS << FRACTION : a & SIGN;
  U unit = HIDDEN >> e, lost = a & (unit - 1), whole = a - lost;
  /* the bit of `unit` is the integer's last one; that of 1 is the exponent's, which is 1 as well */
  return lost > unit >> 1 || (lost == unit >> 1 && (whole & unit)) ? whole + unit : whole;
}

int N(eq)(U a, U b) {
  if (N(is_nan)(a) || N(is_nan)(b)) return 0;
  return a == b || !((a | b) & MAGNITUDE);
}

int N(lt)(U a, U b) {
  if (N(is_nan)(a) || N(is_nan)(b) || !((a | b) & MAGNITUDE)) return 0;
  return a & b & SIGN ? a > b : (S)a < (S)b;
}

int N(le)(U a, U b) {
  if (N(is_nan)(a) || N(is_nan)(b)) return 0;
  if (!((a | b) & MAGNITUDE)) return 1;
  return a & b & SIGN ? a >= b : (S)a <= (S)b;
}

int N(gt)(U a, U b) { return N(lt)(b, a); }
int N(ge)(U a, U b) { return N(le)(b, a); }

U N(min)(U a, U b) {
  if (N(is_nan)(a) || N(is_nan)(b)) return N(nan_of)(a, b);
  if (!((a | b) & MAGNITUDE)) return a | b;
  return N(lt)(a, b) ? a : b;
}

U N(max)(U a, U b) {
  if (N(is_nan)(a) || N(is_nan)(b)) return N(nan_of)(a, b);
  if (!((a | b) & MAGNITUDE)) return a & b;
  return N(lt)(a, b) ? b : a;
}

U N(copysign)(U a, U b) { return (a & MAGNITUDE) | (b & SIGN); }

static U N(of_magnitude)(U sign, u64 x) {
  if (!x) return sign;
  int up = __builtin_clzll(x);
  int exponent = BIAS + 63 - up;
  x <<= up;
  /* the leading bit stands at 63, and comes to LEAD */
  int down = 63 - LEAD;
  return N(rounded)(sign, exponent, (U)(x >> down | ((x & (((u64)1 << down) - 1)) != 0)));
}

U N(convert_i32_s)(u32 x) { return x >> 31 ? N(of_magnitude)(SIGN, -x) : N(of_magnitude)(0, x); }
U N(convert_i32_u)(u32 x) { return N(of_magnitude)(0, x); }
U N(convert_i64_s)(u64 x) { return x >> 63 ? N(of_magnitude)(SIGN, -x) : N(of_magnitude)(0, x); }
U N(convert_i64_u)(u64 x) { return N(of_magnitude)(0, x); }

/* The magnitude towards 0, where it is below 2^64. */
static u64 N(magnitude)(U a) {
  int e = N(exponent)(a) - BIAS;
  if (e < 0) return 0;
  u64 bits = (a & (HIDDEN - 1)) | HIDDEN;
  return e >= FRACTION ? bits << (e - FRACTION) : bits >> (FRACTION - e);
}

/* Whether the number towards 0 has another value in an integer of that many bits. */
static int N(is_outside)(U a, int bits, int is_signed) {
  int e = N(exponent)(a) - BIAS;
  if (e < 0) return 0;
  if (e >= 64) return 1;
  u64 x = N(magnitude)(a), most = is_signed ? ((u64)1 << (bits - 1)) - 1 : bits == 64 ? ~(u64)0 : ((u64)1 << bits) - 1;
  return a & SIGN ? x > (is_signed ? most + 1 : 0) : x > most;
}

static u64 N(to_integer)(U a, int bits, int is_signed) {
  if (N(is_nan)(a)) __builtin_trap();
  if (N(is_outside)(a, bits, is_signed)) trap_overflow();
  u64 x = N(magnitude)(a);
  return a & SIGN ? -x : x;
}

static u64 N(to_saturated)(U a, int bits, int is_signed) {
  if (N(is_nan)(a)) return 0;
  if (N(is_outside)(a, bits, is_signed)) {
    u64 least = is_signed ? -((u64)1 << (bits - 1)) : 0;
    return a & SIGN ? least : is_signed ? ~least : ~(u64)0;
  }
  u64 x = N(magnitude)(a);
  return a & SIGN ? -x : x;
}

u32 N(trunc_i32_s)(U a) { return (u32)N(to_integer)(a, 32, 1); }
u32 N(trunc_i32_u)(U a) { return (u32)N(to_integer)(a, 32, 0); }
u64 N(trunc_i64_s)(U a) { return N(to_integer)(a, 64, 1); }
u64 N(trunc_i64_u)(U a) { return N(to_integer)(a, 64, 0); }
u32 N(trunc_sat_i32_s)(U a) { return (u32)N(to_saturated)(a, 32, 1); }
u32 N(trunc_sat_i32_u)(U a) { return (u32)N(to_saturated)(a, 32, 0); }
u64 N(trunc_sat_i64_s)(U a) { return N(to_saturated)(a, 64, 1); }
u64 N(trunc_sat_i64_u)(U a) { return N(to_saturated)(a, 64, 0); }

#undef SIGN
#undef MAGNITUDE
#undef HIDDEN
#undef INFINITY_BITS
#undef QUIET
#undef NAN_BITS
#undef LEAD
#undef GUARD
