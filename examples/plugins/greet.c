/*
 * A plugin: `greet(name, length)` has its host say a greeting, by `env.say(text, length)`, and gives how many it has greeted so far.
 * `room(length)` gives memory, or 0, where the host writes the name; `greet` frees it.
 */
#include <stdint.h>
#include <stdlib.h>
#include <string.h>

__attribute__((import_module("env"), import_name("say"))) void say(const char *text, size_t length);

static uint32_t greeted;

__attribute__((export_name("room"))) char *room(size_t length) {
  return malloc(length);
}

__attribute__((export_name("greet"))) uint32_t greet(char *name, size_t length) {
  char text[80] = "Hello, ";
  const size_t before = strlen(text), most = sizeof text - before - 1;
  const size_t shown = length < most ? length : most;
  memcpy(text + before, name, shown);
  text[before + shown] = '!';
  free(name);
  say(text, before + shown + 1);
  return ++greeted;
}
