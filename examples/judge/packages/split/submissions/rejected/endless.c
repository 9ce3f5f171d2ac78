#include <stdio.h>
int main(void) {
  int n;
  scanf("%d", &n);
  for (;;) printf("1 ");
  return 0;
}
