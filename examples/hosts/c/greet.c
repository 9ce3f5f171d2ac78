/*
 * A host of a plugin: it writes names into the guest's memory and calls the guest's `greet`, which asks it to say something.
 *
 *     make && ./greet NAME..
 *
 * One call may take 1,000,000 units.
 */
#define HOST "greet"
#include "common.h"
#include <sandbox_plugin.h>

enum { UNITS = 1000000, MOST = 16, TEXT = 256 };

/* Answers `env.say`, the one function that the module imports of a host: prints the text, which lies in the guest's memory. */
static void say(sandbox_session **instance) {
  uint64_t arguments[MOST] = {0};
  uint8_t text[TEXT];
  size_t count = sandbox_values(instance, arguments, MOST), length = count == 2 && arguments[1] < TEXT ? arguments[1] : 0;
  check("read", sandbox_memory_read(instance, (uint32_t)arguments[0], text, length));
  printf("%.*s\n", (int)length, text);
  check("answer", sandbox_answer(instance, arguments, 0));
}

/* Goes on until what runs has returned, and gives its result, or 0. */
static uint64_t run(sandbox_session **instance) {
  static uint64_t used; /* by all calls before this one */
  const uint64_t end = used + UNITS;
  uint64_t result = 0;
  sandbox_told told;
  do {
    check("go", sandbox_go(instance, end - used, &told));
    used = told.used;
    if (told.kind == SANDBOX_ASKED) {
      say(instance);
      used++; /* the answer takes the unit of the guest's call */
    }
  } while (told.kind == SANDBOX_ASKED || told.kind == SANDBOX_CALLED);
  if (told.kind != SANDBOX_RETURNED) {
    fprintf(stderr, HOST ": the plugin ended with kind %u, code %u\n", told.kind, told.code);
    exit(1);
  }
  sandbox_values(instance, &result, 1);
  return result;
}

static uint64_t call(sandbox_session **instance, const char *name, const uint64_t *arguments, size_t count) {
  check(name, sandbox_invoke(instance, (const uint8_t *)name, strlen(name), arguments, count));
  return run(instance);
}

int main(int count, char **words) {
  const sandbox_bytes module = file("../../plugins/greet.wasm"), none = {(const uint8_t *)"", 0};
  const sandbox_volume fresh = {.kind = SANDBOX_VOLUME_FRESH, .sectors = (const uint8_t(*)[512])module.at};
  const sandbox_supplies supplies = {&none, 0, &none, 0, (const sandbox_preopen *)"", 0, 0, none, {.pages = 16}, none};
  sandbox_plugin *plugin = NULL;
  sandbox_session *instance = NULL;
  sandbox_why why;
  check("load", sandbox_plugin_load(&plugin, module.at, module.length, &supplies.limits, 0, &why));
  check("open", sandbox_instance_open(&instance, &plugin, &supplies, &fresh));
  run(&instance); /* the opening */
  for (int n = 1; n < count; n++) {
    const uint64_t length = strlen(words[n]);
    const uint64_t at = call(&instance, "room", &length, 1);
    check("write", sandbox_memory_write(&instance, (uint32_t)at, (const uint8_t *)words[n], length));
    const uint64_t greeted = call(&instance, "greet", (const uint64_t[]){at, length}, 2);
    printf("%u greeted\n", (unsigned)greeted);
  }
  check("close", sandbox_close(&instance));
  check("unload", sandbox_plugin_unload(&plugin));
  free((void *)module.at);
}
