/*
 * Pauses of a run at which a host asks for the functions at work: what they cost is counted from outside, by the calls of
 * `frames_at_pause` (bench/frame-cost).
 *
 *     frames MODULE UNITS PAUSES DEPTH
 *
 * It resumes by UNITS, PAUSES times, and asks for the DEPTH innermost functions each time. It prints how many it was told of, and the
 * sum of their offsets.
 */
#include <sandbox.h>
#include <stdio.h>
#include <stdlib.h>

enum { MOST = 64 };

__attribute__((noinline)) static size_t frames_at_pause(sandbox_session **session, sandbox_frame *frames, size_t depth) {
  size_t told = 0;
  while (told < depth && sandbox_frame_at(session, told, &frames[told]) == SANDBOX_OK)
    told++;
  return told;
}

static void check(const char *what, uint32_t answer) {
  if (answer) {
    fprintf(stderr, "frames: %s: %u\n", what, answer);
    exit(1);
  }
}

int main(int argc, char **argv) {
  FILE *opened = argc == 5 ? fopen(argv[1], "rb") : NULL;
  if (!opened || fseek(opened, 0, SEEK_END)) {
    fprintf(stderr, "frames MODULE UNITS PAUSES DEPTH\n");
    return 2;
  }
  const uint64_t units = strtoull(argv[2], NULL, 10), pauses = strtoull(argv[3], NULL, 10), depth = strtoull(argv[4], NULL, 10);
  const size_t length = ftell(opened);
  uint8_t *module = malloc(length + 1);
  rewind(opened);
  check("module", !module || depth > MOST || fread(module, 1, length, opened) != length);
  const sandbox_bytes word = {(const uint8_t *)"frames", 6}, none = {(const uint8_t *)"", 0};
  const sandbox_supplies given = {.args = &word, .args_count = 1, .input = none};
  const sandbox_volume fresh = {.kind = SANDBOX_VOLUME_FRESH, .sectors = (const uint8_t(*)[512])module};
  sandbox_session *session = NULL;
  sandbox_why why = {0};
  sandbox_told told = {0};
  sandbox_frame frames[MOST];
  uint64_t all = 0, offsets = 0;
  check("open", sandbox_open(&session, module, length, &given, &fresh, &why));
  for (uint64_t n = 0; n < pauses; n++) {
    check("resume", sandbox_resume(&session, units, &told));
    check("a pause", told.kind != SANDBOX_SPENT);
    const size_t found = frames_at_pause(&session, frames, depth);
    all += found;
    for (size_t at = 0; at < found; at++)
      offsets += frames[at].offset;
  }
  printf("%llu frames, offsets %llu\n", (unsigned long long)all, (unsigned long long)offsets);
  check("close", sandbox_close(&session));
  free(module);
  return 0;
}
