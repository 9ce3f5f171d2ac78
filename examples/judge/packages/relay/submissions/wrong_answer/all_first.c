/* It wants all pairs before it says a sum */
#include <stdio.h>
int main(void) {
  long long a, b, sums[1000];
  int count = 0;
  while (count < 1000 && scanf("%lld %lld", &a, &b) == 2)
    sums[count++] = a + b;
  for (int i = 0; i < count; i++)
    printf("%lld\n", sums[i]);
  return 0;
}
