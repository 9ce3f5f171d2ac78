/* An oracle for the operators on floats, by MPFR, and the numbers that they are tried on.
 *
 *     operators draw NAME COUNT SEED     writes so many operands of the operator, drawn, and for a conversion with traps such as have none
 *     operators traps NAME COUNT SEED    the same, and such as trap
 *     operators answer NAME              reads operands, and writes what the operator gives, or a byte for each trap: 1 invalid, 2 overflow
 *
 * NAME is that of the text format, as f64.add. A number is its bits, little endian, 4 or 8 bytes. A NaN that is computed is the positive
 * canonical one. What only moves bits is computed on bits. bench/operators calls it. */
#include <inttypes.h>
#include <stdint.h>
#include <stdio.h>
#include <stdlib.h>
#include <string.h>
/* (after stdint.h, for its numbers of 64 bits) */
#include <mpfr.h>

enum kind { I32, I64, F32, F64 };
static const char *const KINDS[4] = {"i32", "i64", "f32", "f64"};
static const size_t SIZES[4] = {4, 8, 4, 8};

struct operator {
  char name[32];              /* without its type */
  enum kind gives, takes;
  int operands, is_signed, saturates, traps;
};

static enum kind kind_of(const char *text) {
  for (int n = 0; n < 4; n++)
    if (!strncmp(text, KINDS[n], 3))
      return (enum kind)n;
  exit(2);
}

static struct operator parsed(const char *name) {
  struct operator it = {"", kind_of(name), kind_of(name), 1, 0, 0, 0};
  const char *own = name + 4, *from = strstr(own, "_f") ? strstr(own, "_f") : strstr(own, "_i");
  snprintf(it.name, sizeof it.name, "%.*s", from ? (int)(from - own) : (int)strlen(own), own);
  it.is_signed = name[strlen(name) - 1] == 's';
  if (from)
    it.takes = kind_of(from + 1);
  it.saturates = !strcmp(it.name, "trunc_sat");
  it.traps = from && !strcmp(it.name, "trunc");
  static const char *const two[] = {"add", "sub", "mul", "div", "min", "max", "copysign", "eq", "ne", "lt", "gt", "le", "ge"};
  for (size_t n = 0; n < sizeof two / sizeof *two; n++)
    if (!strcmp(it.name, two[n])) {
      it.operands = 2;
      it.gives = n < 7 ? it.takes : I32;
    }
  return it;
}

/* Numbers. */

static uint64_t state;

static uint64_t drawn(void) {
  uint64_t z = state += 0x9E3779B97F4A7C15u;
  z = (z ^ (z >> 30)) * 0xBF58476D1CE4E5B9u;
  z = (z ^ (z >> 27)) * 0x94D049BB133111EBu;
  return z ^ (z >> 31);
}

static int low_of(enum kind kind) { return kind == F32 ? 23 : 52; }
static uint64_t exponents(enum kind kind) { return kind == F32 ? 255 : 2047; }
static uint64_t top(enum kind kind) { return (uint64_t)1 << (kind == F32 || kind == I32 ? 31 : 63); }

static uint64_t small(enum kind kind, uint64_t bits) {
  return kind == F32 || kind == I32 ? bits & 0xFFFFFFFF : bits;
}

/* A float with an exponent near another one, of any size, at an edge, near a whole number or a power of two, or drawn bits. */
static uint64_t drawn_float(enum kind kind, uint64_t other) {
  const int low = low_of(kind);
  const uint64_t most = exponents(kind), part = ((uint64_t)1 << low) - 1, sign = drawn() & 1 ? top(kind) : 0;
  static const uint64_t sizes[] = {0, 1, 23, 24, 31, 32, 52, 53, 62, 63, 64};
  switch (drawn() % 8) {
  case 0: return small(kind, drawn());
  case 1: return small(kind, (other & (most << low)) + ((drawn() % 5 - 2) << low) + (drawn() & part)) | sign;
  case 2: return (drawn() & part) | sign;
  case 3: return sign | (drawn() % 3 == 0 ? 0 : drawn() % 2 ? most << low : (most << low) - 1);
  case 4: return sign | most << low | (drawn() & part);
  case 5: return ((most / 2 + sizes[drawn() % 11]) << low | (drawn() % 2 ? drawn() & part : (drawn() % 5 - 2) & part)) | sign;
  case 6: return ((most / 2 + drawn() % 70) << low | (drawn() & part & ~(part >> (drawn() % (uint64_t)(low + 1))))) | sign;
  default: return small(kind, (other ^ (drawn() % 3)) ^ (drawn() & 1 ? top(kind) : 0));
  }
}

static uint64_t drawn_number(enum kind kind, uint64_t other) {
  if (kind == F32 || kind == F64)
    return drawn_float(kind, other);
  const uint64_t bits = drawn() >> drawn() % 64;
  return small(kind, drawn() % 2 ? bits : -bits);
}

static void put(uint64_t bits, enum kind kind) { fwrite(&bits, SIZES[kind], 1, stdout); }

/* What MPFR says. */

static mpfr_t X, Y, R;

static int is_nan(enum kind kind, uint64_t bits) { return (bits & (top(kind) - 1)) > exponents(kind) << low_of(kind); }
static uint64_t canonical(enum kind kind) { return exponents(kind) << low_of(kind) | (uint64_t)1 << (low_of(kind) - 1); }

static void set(mpfr_t to, enum kind kind, uint64_t bits) {
  const int low = low_of(kind), bias = (int)(exponents(kind) / 2);
  const uint64_t part = bits & (((uint64_t)1 << low) - 1), exponent = (bits & (top(kind) - 1)) >> low;
  if (is_nan(kind, bits))
    mpfr_set_nan(to);
  else if (exponent == exponents(kind))
    mpfr_set_inf(to, 1);
  else
    mpfr_set_uj_2exp(to, exponent ? part | (uint64_t)1 << low : part, (exponent ? (int)exponent : 1) - bias - low, MPFR_RNDN);
  if (bits & top(kind))
    mpfr_neg(to, to, MPFR_RNDN);
}

/* The bits of R, which was rounded to the format's precision, by this ternary value. */
static uint64_t bits_of(enum kind kind, int ternary) {
  const int low = low_of(kind), bias = (int)(exponents(kind) / 2);
  if (mpfr_nan_p(R))
    return canonical(kind);
  const mpfr_exp_t least = mpfr_get_emin(), most = mpfr_get_emax();
  mpfr_set_emin(2 - bias - low);
  mpfr_set_emax(bias + 1);
  ternary = mpfr_check_range(R, ternary, MPFR_RNDN);
  mpfr_subnormalize(R, ternary, MPFR_RNDN);
  mpfr_set_emin(least);
  mpfr_set_emax(most);
  const uint64_t sign = mpfr_signbit(R) ? top(kind) : 0;
  if (mpfr_inf_p(R))
    return sign | exponents(kind) << low;
  if (mpfr_zero_p(R))
    return sign;
  const mpfr_exp_t exponent = mpfr_get_exp(R); /* R is 0.1.. times 2 to it */
  const mpfr_exp_t unit = exponent - 1 < 1 - bias ? 1 - bias - low : exponent - 1 - low;
  mpfr_abs(R, R, MPFR_RNDN);
  mpfr_mul_2si(R, R, -(long)unit, MPFR_RNDN);
  const uint64_t part = mpfr_get_uj(R, MPFR_RNDN);
  return sign | (exponent - 1 < 1 - bias ? part : ((uint64_t)(exponent - 1 + bias) << low | (part & (((uint64_t)1 << low) - 1))));
}

static int is(const struct operator *it, const char *name) { return !strcmp(it->name, name); }

static uint64_t compared(const struct operator *it) {
  if (is(it, "eq"))
    return mpfr_equal_p(X, Y) != 0;
  if (is(it, "ne"))
    return !mpfr_equal_p(X, Y);
  if (is(it, "lt"))
    return mpfr_less_p(X, Y) != 0;
  if (is(it, "gt"))
    return mpfr_greater_p(X, Y) != 0;
  return is(it, "le") ? mpfr_lessequal_p(X, Y) != 0 : mpfr_greaterequal_p(X, Y) != 0;
}

static uint64_t chosen(const struct operator *it, uint64_t x, uint64_t y) {
  if (mpfr_nan_p(X) || mpfr_nan_p(Y))
    return canonical(it->gives);
  const int is_min = is(it, "min");
  if (mpfr_zero_p(X) && mpfr_zero_p(Y))
    return is_min ? x | y : x & y;
  return (mpfr_cmp(X, Y) < 0) == is_min ? x : y;
}

static int arithmetic(const struct operator *it) {
  if (is(it, "add"))
    return mpfr_add(R, X, Y, MPFR_RNDN);
  if (is(it, "sub"))
    return mpfr_sub(R, X, Y, MPFR_RNDN);
  if (is(it, "mul"))
    return mpfr_mul(R, X, Y, MPFR_RNDN);
  if (is(it, "div"))
    return mpfr_div(R, X, Y, MPFR_RNDN);
  if (is(it, "sqrt"))
    return mpfr_sqrt(R, X, MPFR_RNDN);
  if (is(it, "ceil"))
    return mpfr_ceil(R, X), 0;
  if (is(it, "floor"))
    return mpfr_floor(R, X), 0;
  if (is(it, "nearest"))
    return mpfr_roundeven(R, X), 0;
  if (is(it, "trunc"))
    return mpfr_trunc(R, X), 0;
  return mpfr_set(R, X, MPFR_RNDN); /* promote, demote */
}

/* The whole part of X within the type: 0, or 1 where X is a NaN, or 2 where it is out of range, and *bits the nearest then. */
static int truncated(const struct operator *it, uint64_t *bits) {
  const int width = it->gives == I32 ? 32 : 64;
  *bits = 0;
  if (mpfr_nan_p(X))
    return 1;
  const uint64_t greatest = it->is_signed ? top(it->gives) - 1 : width == 32 ? 0xFFFFFFFF : UINT64_MAX;
  const uint64_t least = it->is_signed ? -(uint64_t)top(it->gives) : 0;
  if (mpfr_inf_p(X)) {
    *bits = mpfr_signbit(X) ? least : greatest;
    return 2;
  }
  mpfr_trunc(R, X);
  mpfr_set_uj(Y, greatest, MPFR_RNDN);
  if (mpfr_cmp(R, Y) > 0)
    return *bits = greatest, 2;
  if (it->is_signed)
    mpfr_set_sj(Y, (int64_t)least, MPFR_RNDN);
  else
    mpfr_set_zero(Y, 1);
  if (mpfr_cmp(R, Y) < 0)
    return *bits = least, 2;
  *bits = it->is_signed ? (uint64_t)mpfr_get_sj(R, MPFR_RNDN) : mpfr_get_uj(R, MPFR_RNDN);
  return 0;
}

/* What the operator gives; 0, or why it traps. */
static int computed(const struct operator *it, uint64_t x, uint64_t y, uint64_t *bits) {
  const uint64_t sign = top(it->takes);
  if (it->takes == I32 || it->takes == I64) {
    const int64_t value = it->takes == I32 ? (int32_t)x : (int64_t)x;
    *bits = bits_of(it->gives, it->is_signed ? mpfr_set_sj(R, value, MPFR_RNDN) : mpfr_set_uj(R, x, MPFR_RNDN));
    return 0;
  }
  set(X, it->takes, x);
  if (it->operands == 2)
    set(Y, it->takes, y);
  if (it->gives == I32 || it->gives == I64) {
    if (it->operands == 2)
      return *bits = compared(it), 0;
    const int why = truncated(it, bits);
    return it->saturates ? 0 : why;
  }
  if (is(it, "abs"))
    *bits = x & (sign - 1);
  else if (is(it, "neg"))
    *bits = x ^ sign;
  else if (is(it, "copysign"))
    *bits = (x & (sign - 1)) | (y & sign);
  else if (is(it, "min") || is(it, "max"))
    *bits = chosen(it, x, y);
  else
    *bits = bits_of(it->gives, arithmetic(it));
  return 0;
}

static void draw(const struct operator *it, uint64_t count, int wants_traps) {
  uint64_t x = 0, y = 0, bits;
  while (count) {
    x = drawn_number(it->takes, x);
    y = it->operands == 2 ? drawn_number(it->takes, x) : 0;
    if (it->traps && (computed(it, x, y, &bits) != 0) != wants_traps)
      continue;
    put(x, it->takes);
    if (it->operands == 2)
      put(y, it->takes);
    count--;
  }
}

static void answer(const struct operator *it) {
  uint64_t x = 0, y = 0, bits;
  while (fread(&x, SIZES[it->takes], 1, stdin) == 1) {
    if (it->operands == 2 && fread(&y, SIZES[it->takes], 1, stdin) != 1)
      exit(2);
    const int why = computed(it, x, y, &bits);
    if (why)
      putchar(why);
    else
      put(bits, it->gives);
  }
}

int main(int argc, char **argv) {
  if (argc < 3)
    return 2;
  const struct operator it = parsed(argv[2]);
  const mpfr_prec_t precision = it.gives == F32 ? 24 : it.gives == F64 ? 53 : 64;
  mpfr_inits2(64, X, Y, (mpfr_ptr)0);
  mpfr_init2(R, precision);
  if (!strcmp(argv[1], "answer") && argc == 3)
    answer(&it);
  else if (argc == 5) {
    state = strtoull(argv[4], NULL, 10);
    draw(&it, strtoull(argv[3], NULL, 10), !strcmp(argv[1], "traps"));
  } else
    return 2;
  return fflush(stdout) || ferror(stdout);
}
