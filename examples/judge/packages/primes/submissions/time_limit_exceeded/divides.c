#include <stdio.h>
int main(void) {
  int n, count = 0;
  scanf("%d", &n);
  for (int p = 2; p <= n; p++) {
    int q = 2;
    while (q < p && p % q)
      q++;
    count += q == p;
  }
  printf("%d\n", count);
  return 0;
}
