/*
 * A session that is recorded: its module, what it is given, its volume, each resume, and what was told (docs/REPLAY.md). The
 * functions are called as those of sandbox.h, with a file before: what they answer and tell is what those do. A file that can't be
 * written is seen by ferror, and changes no session.
 */
#ifndef RECORDING_H
#define RECORDING_H
#include <inttypes.h>
#include <sandbox.h>
#include <stdio.h>
#include <stdlib.h>

#define RECORDING_HEAD "sandbox-recording 1"

static inline void recording_bytes(FILE *to, const char *word, sandbox_bytes bytes) {
  fprintf(to, "%s %zu\n", word, bytes.length);
  fwrite(bytes.at, 1, bytes.length, to);
  fputc('\n', to);
}

static inline uint64_t recording_sum(const uint8_t *at, size_t length) {
  uint64_t sum = 0xcbf29ce484222325u;
  for (size_t n = 0; n < length; n++)
    sum = (sum ^ at[n]) * 0x100000001b3u;
  return sum;
}

/* What is recorded of an opening before its answer: the module, what the guest is given, and the volume. */
static inline void recording_given(FILE *to, sandbox_bytes module, const sandbox_supplies *given, const sandbox_volume *volume) {
  recording_bytes(to, "module", module);
  for (size_t n = 0; n < given->args_count; n++)
    recording_bytes(to, "arg", given->args[n]);
  for (size_t n = 0; n < given->env_count; n++)
    recording_bytes(to, "env", given->env[n]);
  for (size_t n = 0; n < given->preopens_count; n++) {
    recording_bytes(to, "name", given->preopens[n].guest_name);
    recording_bytes(to, "path", given->preopens[n].path);
  }
  fprintf(to, "moment %" PRIu64 "\n", given->moment);
  recording_bytes(to, "random", given->random);
  fprintf(to, "limits %" PRIu32 " %" PRIu32 " %" PRIu64 "\n", given->limits.pages, given->limits.values, given->limits.output);
  recording_bytes(to, "input", given->input);
  fprintf(to, "volume %" PRIu32 " %zu\n", volume->kind, volume->sectors_count * 512);
  fwrite(volume->sectors, 512, volume->sectors_count, to);
  fputc('\n', to);
}

static inline uint32_t recording_open(FILE *to, sandbox_session **session, const uint8_t *module, size_t module_length,
                                      const sandbox_supplies *given, const sandbox_volume *volume, sandbox_why *why) {
  fprintf(to, RECORDING_HEAD "\nversion %" PRIu32 "\n", sandbox_version());
  recording_given(to, (sandbox_bytes){module, module_length}, given, volume);
  uint32_t answer = sandbox_open(session, module, module_length, given, volume, why);
  fprintf(to, "opened %" PRIu32 "\n", answer);
  fflush(to);
  return answer;
}

static inline uint32_t recording_resume(FILE *to, sandbox_session **session, uint64_t units, sandbox_told *told) {
  uint32_t answer = sandbox_resume(session, units, told);
  if (answer == SANDBOX_OK)
    fprintf(to, "resume %" PRIu64 " %" PRIu32 " %" PRIu32 " %" PRIu32 " %" PRIu64 "\n", units, told->kind, told->code, told->call, told->used);
  fflush(to); /* so that the recording of a host that is killed has all that it did */
  return answer;
}

/* What a session has written, or left of its volume: its length and its sum. Its bytes are copied, as long as there is memory. */
static inline void recording_left(FILE *to, sandbox_session **session) {
  uint8_t none[512];
  for (uint32_t descriptor = 1; descriptor <= 2; descriptor++) {
    size_t length = sandbox_output(session, descriptor, 0, none, 0);
    uint8_t *room = malloc(length + 1);
    if (room) {
      sandbox_output(session, descriptor, 0, room, length);
      fprintf(to, "written %" PRIu32 " %zu %016" PRIx64 "\n", descriptor, length, recording_sum(room, length));
    }
    free(room);
  }
  size_t count = sandbox_volume_out(session, &none, 0);
  uint8_t(*room)[512] = malloc(count * 512 + 1);
  if (room) {
    sandbox_volume_out(session, room, count);
    fprintf(to, "left %zu %016" PRIx64 "\n", count * 512, recording_sum((const uint8_t *)room, count * 512));
  }
  free(room);
}

static inline uint32_t recording_finish(FILE *to, sandbox_session **session) {
  uint32_t answer = sandbox_finish(session);
  if (answer == SANDBOX_OK || answer == SANDBOX_DEVICE_FAILED) {
    fprintf(to, "finish %" PRIu32 "\n", answer);
    recording_left(to, session);
  }
  fflush(to);
  return answer;
}
#endif
