/* What the hosts share that say where a guest's fuel goes: units by stacks of functions, the outermost first. */
#include "common.h"

typedef struct {
  char *stack;
  uint64_t units;
} line;

static line *lines;
static size_t lines_count;

/* Adds units to a stack, which is met for the first time or again. */
static inline void add(char *stack, uint64_t units) {
  for (size_t n = 0; n < lines_count; n++)
    if (!strcmp(lines[n].stack, stack)) {
      lines[n].units += units;
      free(stack);
      return;
    }
  lines = realloc(lines, (lines_count + 1) * sizeof *lines);
  if (!lines)
    fail("memory", SANDBOX_OUT_OF_MEMORY);
  lines[lines_count++] = (line){stack, units};
}

/* A function's name without what the lines are cut by. */
static inline size_t name_of(sandbox_bytes module, uint32_t function, char *room, size_t length) {
  size_t count = sandbox_function_name(module.at, module.length, function, (uint8_t *)room, length);
  count = count < length ? count : length;
  for (size_t n = 0; n < count; n++)
    if (room[n] <= ' ' || room[n] == ';' || room[n] == 127)
      room[n] = '?';
  return count;
}

/* The functions at work, the outermost first. */
static inline char *stack_of(sandbox_session **session, sandbox_bytes module) {
  enum { NAME = 256 };
  sandbox_frame frame;
  size_t depth = 0, at = 0;
  while (sandbox_frame_at(session, depth, &frame) == SANDBOX_OK)
    depth++;
  char *stack = malloc(depth * (NAME + 1) + 16);
  if (!stack)
    fail("memory", SANDBOX_OUT_OF_MEMORY);
  for (size_t n = depth; n-- > 0; stack[at++] = ';') {
    check("frame_at", sandbox_frame_at(session, n, &frame));
    at += name_of(module, frame.function, stack + at, NAME);
  }
  if (depth)
    stack[--at] = 0;
  else
    strcpy(stack, "[outside]");
  return stack;
}

/* A line for each stack, as they were met. */
static inline void print_lines(FILE *to) {
  for (size_t n = 0; n < lines_count; n++) {
    fprintf(to, "%s %llu\n", lines[n].stack, (unsigned long long)lines[n].units);
    free(lines[n].stack);
  }
  free(lines);
}
