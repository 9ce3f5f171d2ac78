/*
 * Where a guest's fuel goes, made by the host's own resumes: a line for each stack of functions, the outermost first, with the units
 * that were taken there. flamegraph.pl and speedscope read these lines; the numbers sum up to the units of the run.
 *
 *     make && ./folded UNITS MODULE [WORD]... >stacks
 *
 * UNITS are how many the guest is given at a time, each time those of one stack: 1 is exact, 9973 nearly free. (It is a prime, since
 * a loop of a length that divides it would be met at one instruction each time.)
 */
#define HOST "folded"
#include "stacks.h"

int main(int argc, char **argv) {
  uint64_t every = argc > 1 ? strtoull(argv[1], NULL, 10) : 0;
  if (!every || argc < 3) {
    fprintf(stderr, "folded UNITS MODULE [WORD]...\n");
    return 2;
  }
  sandbox_bytes module = file(argv[2]), none = bytes_of(""), *words = malloc(argc * sizeof *words);
  if (!words)
    fail("memory", SANDBOX_OUT_OF_MEMORY);
  for (int n = 2; n < argc; n++)
    words[n - 2] = bytes_of(argv[n]);
  const sandbox_preopen root = {bytes_of("/"), bytes_of("/")};
  const sandbox_supplies given = {words, argc - 2, &none, 0, &root, 1, 0, none, {0}, none};
  const sandbox_volume fresh = {.kind = SANDBOX_VOLUME_FRESH, .sectors = (const uint8_t(*)[512])module.at};
  sandbox_session *session = NULL;
  sandbox_why why = {0};
  sandbox_told told = {0};
  check("open", sandbox_open(&session, module.at, module.length, &given, &fresh, &why));
  check("resume", sandbox_resume(&session, 0, &told)); /* to the first instruction that takes a unit */
  while (told.kind & SANDBOX_GOES_ON) {
    char *stack = stack_of(&session, module);
    uint64_t before = told.used;
    do
      check("resume", sandbox_resume(&session, before + every - told.used, &told));
    while (told.kind == SANDBOX_CALLED);
    add(stack, told.used - before);
  }
  print_lines(stdout);
  check("close", sandbox_close(&session));
  free(words), free((void *)module.at);
  return 0;
}
