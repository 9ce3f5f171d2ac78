/* What a guest with floats computes in a host whose floating-point mode is another one.
 *
 *     modes MODULE MODE
 *
 * MODE is `standard`, `own` (that in which the process starts: another one by -ffast-math), `up`, `down`, `zero` (where it rounds
 * to), `flush` (no subnormal numbers) or `raise` (each exception ends the process). The bytes that the guest writes are written. The
 * status is 1 where the host's own mode is another one, or computes otherwise, behind a call than before it. bench/embed calls it. */
#define _GNU_SOURCE
#include <fenv.h>
#include <sandbox.h>
#include <stdio.h>
#include <string.h>
#include <xmmintrin.h>

static int set(const char *name) {
  const unsigned rounds[4] = {FE_TONEAREST, FE_DOWNWARD, FE_UPWARD, FE_TOWARDZERO};
  static const char *const names[4] = {"standard", "down", "up", "zero"};
  for (int n = 0; n < 4; n++)
    if (!strcmp(name, names[n]))
      return (n == 0 ? fesetenv(FE_DFL_ENV) : 0) || fesetround((int)rounds[n]);
  if (!strcmp(name, "flush"))
    _mm_setcsr(_mm_getcsr() | 0x8040);
  else if (!strcmp(name, "raise"))
    return feenableexcept(FE_DIVBYZERO | FE_INVALID | FE_OVERFLOW | FE_UNDERFLOW) == -1;
  else
    return strcmp(name, "own");
  return 0;
}

/* Numbers whose sum, product and quotient are others in each mode. */
static volatile double third = 3, least = 2.2250738585072014e-308;

static void computes(double found[2]) {
  found[0] = 1 / third;
  found[1] = least / 4;
}

/* The mode, its flags left out: the host's own computing sets them. */
static unsigned mode(void) { return _mm_getcsr() & ~0x3Fu; }

int main(int argc, char **argv) {
  static uint8_t bytes[65536], said[65536];
  static const sandbox_bytes name = {(const uint8_t *)"guest", 5}, none = {(const uint8_t *)"", 0};
  static const sandbox_preopen root = {{(const uint8_t *)"/", 1}, {(const uint8_t *)"/", 1}};
  const sandbox_supplies supplies = {&name, 1, &none, 0, &root, 0, 0, none, {16, 0, 0, {0}}, none};
  const sandbox_volume volume = {SANDBOX_VOLUME_FRESH, (const uint8_t(*)[512]) "", 0};
  FILE *file = argc == 3 ? fopen(argv[1], "rb") : NULL;
  if (!file || set(argv[2]))
    return 2;
  size_t length = fread(bytes, 1, sizeof bytes, file);
  fclose(file);
  sandbox_module *module = NULL;
  sandbox_session *session = NULL;
  sandbox_told told = {0};
  sandbox_why why = {0};
  const unsigned own = mode();
  const int is_raised = !strcmp(argv[2], "raise");
  double before[2] = {0}, after[2] = {0};
  if (!is_raised)
    computes(before);
  if (sandbox_load_with(&module, bytes, length, 1, &why) || sandbox_open_loaded(&session, &module, &supplies, &volume))
    return 2;
  do
    if (sandbox_resume(&session, 10000000, &told) || mode() != own)
      return 1;
  while (told.kind == SANDBOX_CALLED);
  if (!is_raised)
    computes(after);
  length = sandbox_output(&session, 1, 0, said, sizeof said);
  fwrite(said, 1, length, stdout);
  return told.kind != SANDBOX_EXITED || told.code || memcmp(before, after, sizeof before) || sandbox_close(&session);
}
