#include <stdio.h>
int main(void) {
  double n;
  scanf("%lf", &n);
  printf("%.6e\n", n / 3);
  return 0;
}
