/* What the hosts in C share: how one ends where a call is refused, and texts as bytes. HOST is the name of the host. */
#include <sandbox.h>
#include <stdio.h>
#include <stdlib.h>
#include <string.h>

static inline void fail(const char *what, uint32_t number) {
  uint8_t text[80];
  size_t length = sandbox_text(SANDBOX_TEXT_FAULT, number, text, sizeof text);
  fprintf(stderr, HOST ": %s: %u %.*s\n", what, number, (int)(length < sizeof text ? length : sizeof text), text);
  exit(1);
}

static inline void check(const char *what, uint32_t answer) {
  if (answer != SANDBOX_OK)
    fail(what, answer);
}

static inline sandbox_bytes bytes_of(const char *text) { return (sandbox_bytes){(const uint8_t *)text, strlen(text)}; }

/* All bytes of a file. */
static inline sandbox_bytes file(const char *path) {
  FILE *opened = fopen(path, "rb");
  if (!opened || fseek(opened, 0, SEEK_END))
    fail(path, 0);
  long size = ftell(opened);
  uint8_t *at = malloc(size + 1);
  rewind(opened);
  if (!at || fread(at, 1, size, opened) != (size_t)size)
    fail(path, 0);
  fclose(opened);
  return (sandbox_bytes){at, size};
}
