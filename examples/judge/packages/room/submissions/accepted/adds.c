#include <stdio.h>
int main(void) {
  long long n;
  volatile long long sum = 0;
  scanf("%lld", &n);
  for (long long at = 0; at < n; at++)
    sum += at;
  printf("%lld\n", sum);
  return 0;
}
