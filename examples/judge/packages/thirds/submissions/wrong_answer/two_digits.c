#include <stdio.h>
int main(void) {
  long long n;
  scanf("%lld", &n);
  printf("%lld.%02lld\n", n / 3, n % 3 * 100 / 3);
  return 0;
}
