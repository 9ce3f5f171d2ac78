/*
 * Makes files, gives them other names and removes them, beside many that are there.
 *
 *     names DIRECTORIES COUNT ROUNDS
 *
 * In each round it makes COUNT files, renames each into another directory, looks each up and removes it. File k stands in directory
 * `d` and k % DIRECTORIES, and its name is a number in hexadecimal that follows no order. Before each of the four, and at the end of
 * the round, it writes one letter to standard output and waits for a byte of standard input, so that others can take the time: n for
 * nothing, which comes first, m, r, l, u, and a dot. The status is 1 where a call fails.
 * Built by
 *
 *     clang --target=wasm32-wasi -mcpu=mvp -O2 -Wall -Wextra -Wl,--strip-all names.c -o names.wasm
 *
 * with Debian's packages clang, lld, wasi-libc and libclang-rt-14-dev-wasm32.
 */
#include <fcntl.h>
#include <stdint.h>
#include <stdio.h>
#include <stdlib.h>
#include <sys/stat.h>
#include <unistd.h>

static long directories;

/* d, the number of the directory, a slash, a letter and eight digits of a hash. */
static const char *path_of(char letter, uint32_t number, char *path) {
  char digits[12], *end = path;
  int count = 0;
  long directory = (long)(number % (uint32_t)directories);
  do
    digits[count++] = (char)('0' + directory % 10);
  while (directory /= 10);
  for (*end++ = 'd'; count;)
    *end++ = digits[--count];
  *end++ = '/';
  *end++ = letter;
  uint32_t hash = number * 2654435761u;
  for (int k = 28; k >= 0; k -= 4)
    *end++ = "0123456789abcdef"[hash >> k & 15];
  *end = 0;
  return path;
}

static int one(char what, uint32_t number) {
  char old[32], new[32];
  path_of('m', number, old);
  path_of('r', number + 1, new);
  if (what == 'm') {
    int file = open(old, O_WRONLY | O_CREAT | O_EXCL, 0666);
    return file < 0 || close(file);
  }
  if (what == 'r')
    return rename(old, new);
  if (what == 'l') {
    struct stat found;
    return stat(new, &found) || !S_ISREG(found.st_mode);
  }
  return unlink(new);
}

/* Says what comes next, and waits. */
static int waits(const char *what) {
  char byte;
  return write(1, what, 1) != 1 || read(0, &byte, 1) != 1;
}

int main(int argc, char **argv) {
  if (argc != 4)
    return 2;
  directories = atol(argv[1]);
  long count = atol(argv[2]), rounds = atol(argv[3]);
  for (long round = 0; round < rounds; round++) {
    for (const char *what = "nmrlu"; *what; what++) {
      if (waits(what))
        return 1;
      for (long k = 0; *what != 'n' && k < count; k++)
        if (one(*what, (uint32_t)(round * count + k)))
          return 1;
    }
    if (waits("."))
      return 1;
  }
  return 0;
}
