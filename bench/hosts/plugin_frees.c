/* A module that its host frees early: at each moment of an instance's life it lets the module go, and uses what is left.
 *
 *     plugin_frees MODULE ROUNDS
 *
 * MODULE is the guest of bench/embed (ASKING). The module's bytes are given back as soon as the header allows it: once it is unloaded and
 * its instances are closed. bench/embed runs it with the compiler's checks of addresses and under valgrind, which sees the library's own
 * accesses, too. The status is 1 where an answer is another. */
#include <sandbox_plugin.h>
#include <stdio.h>
#include <stdlib.h>
#include <string.h>

enum { UNITS = 1000, BEFORE_THE_OPENING = 0, IDLE, INVOKED, ASKED, ANSWERED, STOPPED, ABANDONED, MOMENTS };

static unsigned wrong;

static void want(const char *what, int moment, int holds) {
  if (!holds) {
    fprintf(stderr, "wrong: %s (moment %d)\n", what, moment);
    wrong++;
  }
}

static const sandbox_bytes none = {(const uint8_t *)"", 0};
static uint8_t sectors[1][512];
static const sandbox_volume fresh = {.kind = SANDBOX_VOLUME_FRESH, .sectors = (const uint8_t(*)[512])sectors};
static const sandbox_supplies supplies = {&none, 0, &none, 0, (const sandbox_preopen *)"", 0, 0, none, {.pages = 16}, none};

static int goes(sandbox_session **instance, uint32_t kind) {
  sandbox_told told = {0};
  return sandbox_go(instance, UNITS, &told) == SANDBOX_OK && told.kind == kind;
}

static int enters(sandbox_session **instance, const char *name, const uint64_t *arguments, size_t count) {
  return sandbox_invoke(instance, (const uint8_t *)name, strlen(name), arguments, count) == SANDBOX_OK;
}

/* An instance is brought to a moment of its life. */
static void brought(sandbox_session **instance, int moment) {
  const uint64_t five = 5, ten = 10;
  if (moment == BEFORE_THE_OPENING)
    return;
  want("the opening", moment, goes(instance, SANDBOX_RETURNED));
  if (moment == STOPPED)
    want("it traps", moment, enters(instance, "fail", NULL, 0) && goes(instance, SANDBOX_TRAPPED));
  else if (moment != IDLE)
    want("it is invoked", moment, enters(instance, "ask", &five, 1));
  if (moment == ASKED || moment == ANSWERED || moment == ABANDONED)
    want("it asks", moment, goes(instance, SANDBOX_ASKED));
  if (moment == ANSWERED)
    want("it is answered", moment, sandbox_answer(instance, &ten, 1) == SANDBOX_OK);
  if (moment == ABANDONED)
    want("it is abandoned", moment, sandbox_abandon(instance) == SANDBOX_OK);
}

/* What is left of the instance is used to its end. */
static void used(sandbox_session **instance, int moment) {
  const uint64_t ten = 10, sum[] = {2, 3};
  uint64_t value = 0;
  uint8_t byte = 0;
  if (moment == BEFORE_THE_OPENING)
    want("the opening", moment, goes(instance, SANDBOX_RETURNED));
  if (moment == INVOKED)
    want("it asks", moment, goes(instance, SANDBOX_ASKED));
  if (moment == INVOKED || moment == ASKED) {
    want("its argument", moment, sandbox_values(instance, &value, 1) == 1 && value == 5);
    want("memory is written", moment, sandbox_memory_write(instance, 16, &byte, 1) == SANDBOX_OK);
    want("it is answered", moment, sandbox_answer(instance, &ten, 1) == SANDBOX_OK);
  }
  if (moment == INVOKED || moment == ASKED || moment == ANSWERED)
    want("its result", moment, goes(instance, SANDBOX_RETURNED) && sandbox_values(instance, &value, 1) == 1 && value == 10);
  want("memory is read", moment, sandbox_memory_read(instance, 65535, &byte, 1) == SANDBOX_OK && sandbox_memory_size(instance) == 65536);
  want("a sum", moment, enters(instance, "add", sum, 2) && goes(instance, SANDBOX_RETURNED) && sandbox_values(instance, &value, 1) == 1 && value == 5);
}

/* The module goes at this moment of the first of two instances; the other one is opened by another owner, and closed last. */
static void freed_at(int moment, const uint8_t *module, size_t length) {
  uint8_t *bytes = malloc(length);
  sandbox_plugin *plugin = NULL, *other = NULL;
  sandbox_session *instance = NULL, *last = NULL;
  sandbox_why why;
  if (!bytes)
    exit(2);
  memcpy(bytes, module, length);
  want("load", moment, sandbox_plugin_load(&plugin, bytes, length, &supplies.limits, 0, &why) == SANDBOX_OK);
  want("share", moment, sandbox_plugin_share(&other, &plugin) == SANDBOX_OK);
  want("open", moment, sandbox_instance_open(&instance, &plugin, &supplies, &fresh) == SANDBOX_OK);
  want("open by another", moment, sandbox_instance_open(&last, &other, &supplies, &fresh) == SANDBOX_OK);
  brought(&instance, moment);
  want("unload", moment, sandbox_plugin_unload(&plugin) == SANDBOX_OK && !plugin);
  want("no module to share", moment, sandbox_plugin_share(&plugin, &plugin) == SANDBOX_MISUSE && !plugin);
  want("no module to open", moment, sandbox_instance_open(&instance, &plugin, &supplies, &fresh) == SANDBOX_MISUSE && instance);
  want("no name", moment, sandbox_plugin_name(&plugin, SANDBOX_EXPORT_NAME, 0, NULL, 0) == SIZE_MAX);
  used(&instance, moment);
  want("unload by another", moment, sandbox_plugin_unload(&other) == SANDBOX_OK && sandbox_plugin_unload(&other) == SANDBOX_MISUSE);
  used(&last, BEFORE_THE_OPENING);
  want("finish", moment, sandbox_instance_finish(&instance) == SANDBOX_OK && sandbox_close(&instance) == SANDBOX_OK);
  want("close", moment, sandbox_close(&last) == SANDBOX_OK && sandbox_close(&last) == SANDBOX_MISUSE);
  free(bytes);
}

int main(int count, char **words) {
  FILE *it = count == 3 ? fopen(words[1], "rb") : NULL;
  static uint8_t module[4096];
  const size_t length = it ? fread(module, 1, sizeof module, it) : 0;
  const size_t rounds = count == 3 ? strtoull(words[2], NULL, 10) : 0;
  if (!length || !rounds)
    return 2;
  fclose(it);
  for (size_t n = 0; n < rounds; n++)
    for (int moment = 0; moment < MOMENTS; moment++)
      freed_at(moment, module, length);
  printf("a module that is freed at %d moments of an instance, %zu times each: %u wrong\n", MOMENTS, rounds, wrong);
  return wrong > 0;
}
