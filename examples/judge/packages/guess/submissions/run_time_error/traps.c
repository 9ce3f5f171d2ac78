/* It traps after the first answer */
#include <stdio.h>
int main(void) {
  char said[16] = "";
  printf("500\n");
  fflush(stdout);
  if (scanf("%15s", said) == 1)
    __builtin_trap();
  return 0;
}
