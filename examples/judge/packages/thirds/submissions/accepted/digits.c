#include <stdio.h>
int main(void) {
  long long n;
  scanf("%lld", &n);
  printf("%lld.%04lld\n", n / 3, n % 3 * 10000 / 3);
  return 0;
}
