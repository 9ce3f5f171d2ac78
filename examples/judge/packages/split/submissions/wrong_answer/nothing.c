#include <stdio.h>
int main(void) {
  int n;
  scanf("%d", &n);
  printf("nothing\n");
  return 0;
}
