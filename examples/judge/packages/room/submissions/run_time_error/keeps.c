/* keeps all numbers, 8 MB of them: malloc gives nothing */
#include <stdio.h>
#include <stdlib.h>
int main(void) {
  long long n, sum = 0;
  scanf("%lld", &n);
  long long *all = malloc(n * sizeof *all);
  if (!all)
    abort();
  for (long long at = 0; at < n; at++)
    all[at] = at;
  for (long long at = 0; at < n; at++)
    sum += all[at];
  printf("%lld\n", sum);
  return 0;
}
