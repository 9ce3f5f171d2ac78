/* right in `small`, wrong in `large` */
#include <stdio.h>
int main(void) {
  long long a, b;
  return scanf("%lld %lld", &a, &b) == 2 ? printf("%d\n", (int)(a + b)) < 0 : 1;
}
