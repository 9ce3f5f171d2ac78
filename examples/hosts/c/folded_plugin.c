/*
 * Where a plugin's fuel goes, over all its calls: the host of greet.c, which goes on by so many units a time and adds them to the stack
 * of functions that it found before. What `greet` answers goes to stderr; a line for each stack to stdout, as of folded.c.
 *
 *     make && ./folded_plugin UNITS NAME.. >stacks
 *
 * By one unit a time the lines are exact, and at any other number they sum up to the units that the instance has used.
 */
#define HOST "folded_plugin"
#include "stacks.h"
#include <sandbox_plugin.h>

enum { MOST = 16, TEXT = 256 };

static sandbox_bytes module;
static uint64_t every, used; /* units a time, and those of all calls so far */

/* Answers `env.say`. The answer takes the unit of the guest's call, at the stack that stands there. */
static void say(sandbox_session **instance) {
  uint64_t arguments[MOST] = {0};
  uint8_t text[TEXT];
  size_t count = sandbox_values(instance, arguments, MOST), length = count == 2 && arguments[1] < TEXT ? arguments[1] : 0;
  check("read", sandbox_memory_read(instance, (uint32_t)arguments[0], text, length));
  fprintf(stderr, "%.*s\n", (int)length, text);
  add(stack_of(instance, module), 1);
  check("answer", sandbox_answer(instance, arguments, 0));
  used++;
}

/* Goes on until what runs has returned, and gives its result, or 0. */
static uint64_t run(sandbox_session **instance) {
  uint64_t result = 0;
  sandbox_told told;
  check("go", sandbox_go(instance, 0, &told)); /* to the first instruction that takes a unit */
  while (told.kind != SANDBOX_RETURNED) {
    if (told.kind == SANDBOX_ASKED)
      say(instance);
    else if (told.kind != SANDBOX_CALLED && told.kind != SANDBOX_SPENT)
      fail("the plugin ended", told.code);
    char *stack = stack_of(instance, module);
    check("go", sandbox_go(instance, every, &told));
    add(stack, told.used - used);
    used = told.used;
  }
  sandbox_values(instance, &result, 1);
  return result;
}

static uint64_t call(sandbox_session **instance, const char *name, const uint64_t *arguments, size_t count) {
  check(name, sandbox_invoke(instance, (const uint8_t *)name, strlen(name), arguments, count));
  return run(instance);
}

int main(int count, char **words) {
  every = count > 1 ? strtoull(words[1], NULL, 10) : 0;
  if (!every) {
    fprintf(stderr, "folded_plugin UNITS NAME..\n");
    return 2;
  }
  module = file("../../plugins/greet.wasm");
  const sandbox_bytes none = bytes_of("");
  const sandbox_volume fresh = {.kind = SANDBOX_VOLUME_FRESH, .sectors = (const uint8_t(*)[512])module.at};
  const sandbox_supplies supplies = {&none, 0, &none, 0, (const sandbox_preopen *)"", 0, 0, none, {.pages = 16}, none};
  sandbox_plugin *plugin = NULL;
  sandbox_session *instance = NULL;
  sandbox_why why;
  check("load", sandbox_plugin_load(&plugin, module.at, module.length, &supplies.limits, 0, &why));
  check("open", sandbox_instance_open(&instance, &plugin, &supplies, &fresh));
  run(&instance); /* the opening */
  for (int n = 2; n < count; n++) {
    const uint64_t length = strlen(words[n]);
    const uint64_t at = call(&instance, "room", &length, 1);
    check("write", sandbox_memory_write(&instance, (uint32_t)at, (const uint8_t *)words[n], length));
    const uint64_t greeted = call(&instance, "greet", (const uint64_t[]){at, length}, 2);
    fprintf(stderr, "%u greeted after %llu units\n", (unsigned)greeted, (unsigned long long)used);
  }
  print_lines(stdout);
  check("close", sandbox_close(&instance));
  check("unload", sandbox_plugin_unload(&plugin));
  free((void *)module.at);
}
