/* wrong in `small` and a trap in `large`: the first failure is the verdict, and `large` isn't run */
#include <stdio.h>
#include <stdlib.h>
int main(void) {
  long long a, b;
  if (scanf("%lld %lld", &a, &b) != 2)
    return 1;
  if (a > 1000)
    abort();
  return printf("%lld\n", a + (b < 0 ? -b : b) + (a < 0)) < 0;
}
