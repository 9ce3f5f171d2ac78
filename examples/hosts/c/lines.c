/*
 * A host of a plugin whose input goes on: what comes on descriptor 0 is handed over as it comes, in whatever pieces, and what the guest
 * makes of a line is shown as soon as the line is there.
 *
 *     make lines && (echo one; sleep 1; echo two) | ./lines
 *
 * One line may take 1,000,000 units.
 */
#define HOST "lines"
#include "common.h"
#include <sandbox_plugin.h>
#include <unistd.h>

enum { UNITS = 1000000, PIECE = 4096 };

/* Waits for bytes of the guest's input and hands them over, or says that no more come. */
static void feed(sandbox_session **instance) {
  uint8_t piece[PIECE];
  const ssize_t length = read(0, piece, sizeof piece);
  if (length > 0)
    check("feed", sandbox_feed(instance, piece, (size_t)length));
  else
    check("feed", sandbox_feed_end(instance));
}

/* Goes on until what runs has returned, and gives its result, or 0. */
static uint64_t run(sandbox_session **instance) {
  static uint64_t used; /* by all calls before this one */
  const uint64_t end = used + UNITS;
  uint64_t result = 0;
  sandbox_told told;
  do {
    check("go", sandbox_go(instance, end - used, &told));
    used = told.used;
    if (told.kind == SANDBOX_STARVED)
      feed(instance);
  } while (told.kind == SANDBOX_STARVED || told.kind == SANDBOX_CALLED);
  if (told.kind != SANDBOX_RETURNED) {
    fprintf(stderr, HOST ": the plugin ended with kind %u, code %u\n", told.kind, told.code);
    exit(1);
  }
  sandbox_values(instance, &result, 1);
  return result;
}

/* Shows what the guest has written since the last time. */
static void show(sandbox_session **instance) {
  static size_t shown;
  uint8_t room[PIECE];
  size_t length;
  while ((length = sandbox_output(instance, 1, shown, room, sizeof room)) > shown) {
    const size_t more = length - shown < sizeof room ? length - shown : sizeof room;
    fwrite(room, 1, more, stdout);
    shown += more;
  }
  fflush(stdout);
}

int main(void) {
  const sandbox_bytes module = file("../../plugins/lines.wasm"), none = {(const uint8_t *)"", 0};
  const sandbox_volume fresh = {.kind = SANDBOX_VOLUME_FRESH, .sectors = (const uint8_t(*)[512])module.at};
  const sandbox_supplies supplies = {&none, 0, &none, 0, (const sandbox_preopen *)"", 0, 0, none, {.pages = 16}, none};
  sandbox_plugin *plugin = NULL;
  sandbox_session *instance = NULL;
  sandbox_why why;
  check("load", sandbox_plugin_load_fed(&plugin, module.at, module.length, &supplies.limits, 0, &why));
  check("open", sandbox_instance_open(&instance, &plugin, &supplies, &fresh));
  run(&instance); /* the opening */
  uint64_t length = 0;
  do {
    check("invoke", sandbox_invoke(&instance, (const uint8_t *)"next", 4, &length, 0));
    length = run(&instance);
    show(&instance);
  } while (length != UINT32_MAX);
  check("close", sandbox_close(&instance));
  check("unload", sandbox_plugin_unload(&plugin));
  free((void *)module.at);
}
