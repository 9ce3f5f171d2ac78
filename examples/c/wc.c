/* Counts the lines, words and bytes of standard input. */
#include <ctype.h>
#include <stdio.h>

int main(void) {
  unsigned long lines = 0, words = 0, bytes = 0;
  int inside = 0;
  for (int c; (c = getchar()) != EOF; bytes++) {
    lines += c == '\n';
    words += !isspace(c) && !inside;
    inside = !isspace(c);
  }
  if (ferror(stdin)) {
    perror("standard input");
    return 1;
  }
  printf("%lu %lu %lu\n", lines, words, bytes);
  return fflush(stdout) != 0;
}
