/* Sorts the lines of a file by their bytes, and writes them to another. */
#include <stdio.h>
#include <stdlib.h>
#include <string.h>

static int by_bytes(const void *a, const void *b) {
  return strcmp(*(char *const *)a, *(char *const *)b);
}

static int refuse(const char *what) {
  perror(what);
  return 1;
}

int main(int argc, char **argv) {
  if (argc != 3) {
    fprintf(stderr, "sort FROM TO\n");
    return 2;
  }
  FILE *from = fopen(argv[1], "r");
  if (!from)
    return refuse(argv[1]);
  char **lines = NULL;
  size_t count = 0, room = 0;
  char *line = NULL;
  for (size_t size = 0; getline(&line, &size, from) >= 0;) {
    if (count == room) {
      room = room ? 2 * room : 64;
      lines = realloc(lines, room * sizeof *lines);
      if (!lines)
        return refuse("memory");
    }
    if (!(lines[count++] = strdup(line)))
      return refuse("memory");
  }
  if (ferror(from))
    return refuse(argv[1]);
  if (count)
    qsort(lines, count, sizeof *lines, by_bytes);
  FILE *to = fopen(argv[2], "w");
  if (!to)
    return refuse(argv[2]);
  for (size_t i = 0; i < count; i++)
    fputs(lines[i], to);
  return fclose(to) ? refuse(argv[2]) : 0;
}
