#include <stdio.h>
int main(void) {
  long long a, b, all = 0;
  while (scanf("%lld %lld", &a, &b) == 2) {
    printf("%lld\n", a + b);
    fflush(stdout);
    all += a + b;
  }
  return printf("%lld\n", all), 0;
}
