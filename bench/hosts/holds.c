/* What a session holds at most: a guest is run to its end, or until its units are used, within limits, and then its volume and its
 * module go through finish and close. Of it are told the bytes that were asked of malloc at once, by count, and those that were
 * resident at once, by the system; the status is 1 where either is more than sandbox_most_held says.
 *
 *     holds MODULE PAGES VALUES OUTPUT SECTORS SLOTS KIND UNITS
 *
 * bench/embed builds and calls it, with the linker's --wrap of malloc, realloc and free. */
#define _GNU_SOURCE
#include <malloc.h>
#include <sandbox.h>
#include <stdio.h>
#include <stdlib.h>
#include <string.h>

void *__real_malloc(size_t size);
void *__real_realloc(void *at, size_t size);
void __real_free(void *at);
static size_t asked, most_asked;

static void *given(void *at) {
  asked += at ? malloc_usable_size(at) : 0;
  most_asked = asked > most_asked ? asked : most_asked;
  return at;
}

void *__wrap_malloc(size_t size) { return given(__real_malloc(size)); }

void *__wrap_realloc(void *at, size_t size) {
  size_t before = at ? malloc_usable_size(at) : 0;
  void *moved = __real_realloc(at, size);
  if (moved)
    asked -= before;
  return moved ? given(moved) : NULL;
}

void __wrap_free(void *at) {
  asked -= at ? malloc_usable_size(at) : 0;
  __real_free(at);
}

/* Of /proc/self/status the bytes of a line, as VmHWM: the most that were resident at once. */
static size_t status(const char *name) {
  char line[256];
  size_t kib = 0;
  FILE *file = fopen("/proc/self/status", "r");
  while (file && fgets(line, sizeof line, file))
    if (!strncmp(line, name, strlen(name)))
      kib = strtoul(line + strlen(name) + 1, NULL, 10);
  if (file)
    fclose(file);
  return kib * 1024;
}

int main(int argc, char **argv) {
  static uint8_t module[1 << 23], sectors[300000][512]; /* what isn't written takes no memory */
  FILE *file = argc == 9 ? fopen(argv[1], "rb") : NULL;
  if (!file)
    return 2;
  size_t length = fread(module, 1, sizeof module, file), count = strtoul(argv[5], NULL, 10), operations = 0;
  fclose(file);
  static const sandbox_bytes name = {(const uint8_t *)"guest", 5}, none = {(const uint8_t *)"", 0};
  static const sandbox_preopen root = {{(const uint8_t *)"/", 1}, {(const uint8_t *)"/", 1}};
  const sandbox_limits limits = {strtoul(argv[2], NULL, 10), strtoul(argv[3], NULL, 10), strtoull(argv[4], NULL, 10), {0}};
  const sandbox_supplies supplies = {&name, 1, &none, 0, &root, 1, 0, none, limits, none};
  const sandbox_volume volume = {strtoul(argv[7], NULL, 10), (const uint8_t(*)[512])sectors, count};
  const int is_huge = volume.kind & SANDBOX_VOLUME_HUGE, is_recorded = volume.kind & SANDBOX_VOLUME_RECORDED;
  if (count && (is_huge ? sandbox_format_huge : sandbox_format)(sectors, count, strtoul(argv[6], NULL, 10)))
    return 2;
  sandbox_session *session = NULL;
  sandbox_told told = {0};
  sandbox_why why = {0};
  uint64_t units = strtoull(argv[8], NULL, 10);
  size_t before = asked, resident = status("VmRSS");
  most_asked = asked;
  if (sandbox_open(&session, module, length, &supplies, &volume, &why))
    return 2;
  do
    if (sandbox_resume(&session, units - told.used, &told))
      return 2;
  while (told.kind == SANDBOX_CALLED);
  size_t out = sandbox_output(&session, 1, 0, module, 0), err = sandbox_output(&session, 2, 0, module, 0);
  uint32_t full = sandbox_full(&session, 1) + 2 * sandbox_full(&session, 2);
  if (sandbox_finish(&session))
    return 2;
  if (is_recorded) {
    sandbox_operation operation;
    while (!sandbox_operation_at(&session, operations, &operation) && operation.kind != SANDBOX_NO_OPERATION)
      operations++;
  }
  uint64_t most = (is_huge ? sandbox_most_held_huge : sandbox_most_held)(&limits, length, count ? count : 202, operations);
  size_t held = most_asked - before, peak = status("VmHWM"), held_resident = peak > resident ? peak - resident : 0;
  int is_ended = sandbox_close(&session) == SANDBOX_OK && !session && asked == before;
  printf("kind %u, %llu units, %zu and %zu bytes written, full %u, %zu operations: %zu asked, %zu resident, of at most %llu%s\n", told.kind, (unsigned long long)told.used, out, err, full,
         operations, held, held_resident, (unsigned long long)most, is_ended ? "" : "; not all is given back");
  return !is_ended || held > most || held_resident > most;
}
