#include <stdio.h>
int main(void) {
  long long n;
  scanf("%lld", &n);
  printf("%lld/3\n", n);
  return 0;
}
