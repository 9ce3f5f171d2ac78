/*
 * A plugin: answers each line of its input with a line, as soon as it has read it.
 *
 *     add A B    A + B
 *     mul A B    A * B
 *     spin       no answer, ever
 */
#include <stdio.h>
#include <stdlib.h>
#include <string.h>

int main(void) {
  char line[256];
  while (fgets(line, sizeof line, stdin)) {
    char *rest = strchr(line, ' ');
    long a = rest ? strtol(rest, &rest, 10) : 0, b = rest ? strtol(rest, NULL, 10) : 0;
    if (!strncmp(line, "add ", 4))
      printf("%ld\n", a + b);
    else if (!strncmp(line, "mul ", 4))
      printf("%ld\n", a * b);
    else if (!strncmp(line, "spin", 4))
      for (volatile int i = 0;; i = !i)
        ;
    else
      puts("?");
    if (fflush(stdout))
      return 1;
  }
  return ferror(stdin) != 0;
}
