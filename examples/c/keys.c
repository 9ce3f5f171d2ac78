/*
 * A store of keys and values in one file, to which records are appended.
 *
 *     keys FILE put KEY VALUE     adds a record and syncs it
 *     keys FILE get KEY           writes the last value of the key
 *     keys FILE fill TO           adds the records of the numbers below TO that aren't there, and says each on standard
 *                                 output once it is synced
 *     keys FILE has TO            fails unless the records of all numbers below TO are there, in order
 *
 * A record is a line KEY=VALUE. A last line without its end was never synced, and is cut off.
 */
#include <fcntl.h>
#include <stdio.h>
#include <stdlib.h>
#include <string.h>
#include <sys/stat.h>
#include <unistd.h>

static int refuse(const char *what) {
  perror(what);
  return 1;
}

/* All bytes of the file, ended by a NUL. */
static char *contents(int file, size_t *size) {
  struct stat found;
  if (fstat(file, &found))
    return NULL;
  char *bytes = malloc(found.st_size + 1);
  size_t length = 0;
  while (bytes && length < (size_t)found.st_size) {
    ssize_t count = pread(file, bytes + length, found.st_size - length, length);
    if (count <= 0)
      return NULL;
    length += count;
  }
  if (bytes)
    bytes[length] = 0;
  *size = length;
  return bytes;
}

static int append(int file, const char *line) {
  for (size_t left = strlen(line); left;) {
    ssize_t count = write(file, line, left);
    if (count < 0)
      return 1;
    line += count;
    left -= count;
  }
  return fsync(file);
}

static int put(int file, const char *key, const char *value) {
  char line[512];
  if (snprintf(line, sizeof line, "%s=%s\n", key, value) >= (int)sizeof line)
    return 1;
  return append(file, line);
}

static const char *value_of(char *bytes, const char *key) {
  const char *found = NULL;
  size_t length = strlen(key);
  for (char *line = bytes, *end; (end = strchr(line, '\n')); line = end + 1)
    if (!strncmp(line, key, length) && line[length] == '=') {
      found = line + length + 1;
      *end = 0;
      line = end;
    }
  return found;
}

static int fill(int file, const char *bytes, long to) {
  char key[32];
  long from = 0;
  for (; *bytes; bytes++)
    from += *bytes == '\n';
  for (long n = from; n < to; n++) {
    snprintf(key, sizeof key, "k%ld", n);
    if (put(file, key, key))
      return refuse("put");
    printf("%ld\n", n);
    if (fflush(stdout))
      return refuse("standard output");
  }
  return 0;
}

/* Whether the lines begin with those of all numbers below. */
static int has(const char *bytes, long to) {
  char line[64];
  for (long n = 0; n < to; n++) {
    snprintf(line, sizeof line, "k%ld=k%ld\n", n, n);
    if (strncmp(bytes, line, strlen(line))) {
      fprintf(stderr, "%ld is missing\n", n);
      return 1;
    }
    bytes += strlen(line);
  }
  return 0;
}

int main(int argc, char **argv) {
  if (argc < 4) {
    fprintf(stderr, "keys FILE put KEY VALUE | get KEY | fill TO | has TO\n");
    return 2;
  }
  int file = open(argv[1], O_RDWR | O_CREAT | O_APPEND, 0666);
  if (file < 0)
    return refuse(argv[1]);
  size_t size;
  char *bytes = contents(file, &size);
  if (!bytes)
    return refuse(argv[1]);
  char *last = strrchr(bytes, '\n');
  size_t whole = last ? last + 1 - bytes : 0;
  if (whole < size && ftruncate(file, whole))
    return refuse("truncate");
  bytes[whole] = 0;
  if (!strcmp(argv[2], "put") && argc == 5)
    return put(file, argv[3], argv[4]) ? refuse("put") : 0;
  if (!strcmp(argv[2], "fill"))
    return fill(file, bytes, atol(argv[3]));
  if (!strcmp(argv[2], "has"))
    return has(bytes, atol(argv[3]));
  const char *value = value_of(bytes, argv[3]);
  if (!value)
    return 1;
  return puts(value) < 0 || fflush(stdout);
}
