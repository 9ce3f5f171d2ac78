/* It thinks without end after the first answer */
#include <stdio.h>
int main(void) {
  char said[16] = "";
  printf("500\n");
  fflush(stdout);
  for (volatile int i = scanf("%15s", said); i; i |= 1)
    ;
  return 0;
}
