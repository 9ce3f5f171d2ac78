/*
 * Makes many calls of one kind, each synced where it changes something.
 *
 *     calls create COUNT     makes COUNT empty files
 *     calls write COUNT      writes 16,384 bytes into each
 *     calls again COUNT      writes 16,384 other bytes into the first 200 in turn COUNT times, and then reads them
 *     calls touch COUNT      writes one byte into the first of them COUNT times
 *     calls read COUNT       reads one whole COUNT times, the first 200 in turn
 *     calls rename COUNT     gives each another name
 *     calls none 0           does nothing
 *
 * Files are opened by their names in the directory that the guest was given, and closed after each call. The status is 1
 * where a call fails or other bytes are read, of which eight are looked at. Built by
 *
 *     clang --target=wasm32-wasi -mcpu=mvp -O2 -Wall -Wextra -Wl,--strip-all calls.c -o calls.wasm
 *
 * with Debian's packages clang, lld, wasi-libc and libclang-rt-14-dev-wasm32.
 */
#include <fcntl.h>
#include <stdio.h>
#include <stdlib.h>
#include <string.h>
#include <unistd.h>

enum { PIECE = 16384, FILES = 200 };

static char bytes[PIECE];

/* The letter and the number. */
static const char *name_of(char letter, long number, char *name) {
  char digits[16];
  int count = 0;
  do
    digits[count++] = (char)('0' + number % 10);
  while (number /= 10);
  char *end = name;
  for (*end++ = letter; count;)
    *end++ = digits[--count];
  *end = 0;
  return name;
}

static int create(int directory, long number) {
  char name[24];
  int file = openat(directory, name_of('f', number, name), O_WRONLY | O_CREAT | O_EXCL, 0666);
  return file < 0 || fsync(file) || close(file);
}

static int put(int directory, long number, long value, long count) {
  char name[24];
  int file = openat(directory, name_of('f', number, name), O_WRONLY);
  memset(bytes, (int)(value & 127), count);
  return file < 0 || pwrite(file, bytes, count, 0) != count || fsync(file) || close(file);
}

static int get(int directory, long number, long value) {
  char name[24];
  int file = openat(directory, name_of('f', number, name), O_RDONLY);
  if (file < 0 || pread(file, bytes, PIECE, 0) != PIECE || close(file))
    return 1;
  for (int i = 1; i < PIECE; i += PIECE / 8)
    if (bytes[i] != (char)(value & 127))
      return 1;
  return 0;
}

static int give_name(int directory, long number) {
  char old[24], new[24];
  return renameat(directory, name_of('f', number, old), directory, name_of('g', number, new)) || fsync(directory);
}

int main(int argc, char **argv) {
  if (argc != 3)
    return 2;
  long count = atol(argv[2]);
  int directory = open(".", O_RDONLY | O_DIRECTORY);
  if (directory < 0)
    return 1;
  for (long number = 0; number < count; number++) {
    int failed = 2;
    if (!strcmp(argv[1], "read"))
      failed = get(directory, number % FILES, number % FILES);
    else if (!strcmp(argv[1], "create"))
      failed = create(directory, number);
    else if (!strcmp(argv[1], "write"))
      failed = put(directory, number, number, PIECE);
    else if (!strcmp(argv[1], "again"))
      failed = put(directory, number % FILES, number + 1, PIECE) || get(directory, number % FILES, number + 1);
    else if (!strcmp(argv[1], "touch"))
      failed = put(directory, 0, 0, 1);
    else if (!strcmp(argv[1], "rename"))
      failed = give_name(directory, number);
    if (failed)
      return failed;
  }
  return 0;
}
