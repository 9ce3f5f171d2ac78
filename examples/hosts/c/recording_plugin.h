/*
 * An instance that is recorded: its module, what it is given, its volume, each call, and what was told (docs/REPLAY.md). The functions
 * are called as those of sandbox_plugin.h, with a file before: what they answer and tell is what those do. The module is loaded for
 * this one instance, since a recording has one module.
 */
#ifndef RECORDING_PLUGIN_H
#define RECORDING_PLUGIN_H
#include "recording.h"
#include <sandbox_plugin.h>

#define RECORDING_PLUGIN_HEAD "sandbox-recording 2"
#define RECORDING_FED_HEAD "sandbox-recording 3"

enum { RECORDING_VALUES = 16 };

/* The end of a record: how many numbers there are, and these. */
static inline void recording_numbers(FILE *to, const uint64_t *numbers, size_t count) {
  fprintf(to, " %zu", count);
  for (size_t n = 0; n < count; n++)
    fprintf(to, " %" PRIu64, numbers[n]);
}

static inline uint32_t recording_instance_by(FILE *to, sandbox_session **instance, sandbox_plugin **plugin, sandbox_bytes module, uint32_t floats,
                                             const sandbox_supplies *given, const sandbox_volume *volume, sandbox_why *why, int goes_on) {
  fprintf(to, "%s\nversion %" PRIu32 "\nfloats %" PRIu32 "\n", goes_on ? RECORDING_FED_HEAD : RECORDING_PLUGIN_HEAD, sandbox_version(), floats);
  recording_given(to, module, given, volume);
  uint32_t answer = goes_on ? sandbox_plugin_load_fed(plugin, module.at, module.length, &given->limits, floats, why)
                            : sandbox_plugin_load(plugin, module.at, module.length, &given->limits, floats, why);
  if (answer == SANDBOX_OK)
    answer = sandbox_instance_open(instance, plugin, given, volume);
  fprintf(to, "opened %" PRIu32 "\n", answer);
  fflush(to);
  return answer;
}

/* sandbox_plugin_load, and where that answers 0, sandbox_instance_open. */
static inline uint32_t recording_instance_open(FILE *to, sandbox_session **instance, sandbox_plugin **plugin, sandbox_bytes module, uint32_t floats,
                                               const sandbox_supplies *given, const sandbox_volume *volume, sandbox_why *why) {
  return recording_instance_by(to, instance, plugin, module, floats, given, volume, why, 0);
}

/* sandbox_plugin_load_fed, and where that answers 0, sandbox_instance_open. */
static inline uint32_t recording_instance_open_fed(FILE *to, sandbox_session **instance, sandbox_plugin **plugin, sandbox_bytes module, uint32_t floats,
                                                   const sandbox_supplies *given, const sandbox_volume *volume, sandbox_why *why) {
  return recording_instance_by(to, instance, plugin, module, floats, given, volume, why, 1);
}

static inline uint32_t recording_invoke(FILE *to, sandbox_session **instance, sandbox_bytes name, const uint64_t *arguments, size_t count) {
  uint32_t answer = sandbox_invoke(instance, name.at, name.length, arguments, count);
  fprintf(to, "invoke %" PRIu32, answer);
  recording_numbers(to, arguments, count);
  fprintf(to, " %zu\n", name.length);
  fwrite(name.at, 1, name.length, to);
  fputc('\n', to);
  fflush(to);
  return answer;
}

/* With what there is to hand over: arguments where the host is asked, a result where a function has returned. */
static inline uint32_t recording_go(FILE *to, sandbox_session **instance, uint64_t units, sandbox_told *told) {
  uint64_t values[RECORDING_VALUES];
  uint32_t answer = sandbox_go(instance, units, told);
  if (answer == SANDBOX_OK) {
    int hands_over = told->kind == SANDBOX_ASKED || told->kind == SANDBOX_RETURNED;
    size_t count = hands_over ? sandbox_values(instance, values, RECORDING_VALUES) : 0;
    fprintf(to, "go %" PRIu64 " %" PRIu32 " %" PRIu32 " %" PRIu32 " %" PRIu64, units, told->kind, told->code, told->call, told->used);
    recording_numbers(to, values, count);
    fputc('\n', to);
  }
  fflush(to); /* so that the recording of a host that is killed has all that it did */
  return answer;
}

static inline uint32_t recording_answer(FILE *to, sandbox_session **instance, const uint64_t *results, size_t count) {
  uint32_t answer = sandbox_answer(instance, results, count);
  fprintf(to, "answer %" PRIu32, answer);
  recording_numbers(to, results, count);
  fputc('\n', to);
  fflush(to);
  return answer;
}

static inline uint32_t recording_write(FILE *to, sandbox_session **instance, uint32_t address, sandbox_bytes bytes) {
  uint32_t answer = sandbox_memory_write(instance, address, bytes.at, bytes.length);
  fprintf(to, "write %" PRIu32 " %" PRIu32 " %zu\n", answer, address, bytes.length);
  fwrite(bytes.at, 1, bytes.length, to);
  fputc('\n', to);
  fflush(to);
  return answer;
}

static inline uint32_t recording_feed(FILE *to, sandbox_session **instance, sandbox_bytes bytes) {
  uint32_t answer = sandbox_feed(instance, bytes.at, bytes.length);
  fprintf(to, "feed %" PRIu32 " %zu\n", answer, bytes.length);
  fwrite(bytes.at, 1, bytes.length, to);
  fputc('\n', to);
  fflush(to);
  return answer;
}

static inline uint32_t recording_feed_end(FILE *to, sandbox_session **instance) {
  uint32_t answer = sandbox_feed_end(instance);
  fprintf(to, "feed_end %" PRIu32 "\n", answer);
  fflush(to);
  return answer;
}

static inline uint32_t recording_abandon(FILE *to, sandbox_session **instance) {
  uint32_t answer = sandbox_abandon(instance);
  fprintf(to, "abandon %" PRIu32 "\n", answer);
  fflush(to);
  return answer;
}

static inline uint32_t recording_instance_finish(FILE *to, sandbox_session **instance) {
  uint32_t answer = sandbox_instance_finish(instance);
  if (answer == SANDBOX_OK || answer == SANDBOX_DEVICE_FAILED) {
    fprintf(to, "finish %" PRIu32 "\n", answer);
    recording_left(to, instance);
  }
  fflush(to);
  return answer;
}
#endif
