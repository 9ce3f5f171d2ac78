#include <stdio.h>
int main(void) {
  int n;
  scanf("%d", &n);
  for (int k = 1; k <= n; k++) {
    for (int at = 0; at < n; at++)
      putchar(at < n - k ? ' ' : 'a');
    putchar('\n');
  }
  return 0;
}
