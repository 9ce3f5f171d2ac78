/* asks for 8 MB before it runs: such a module doesn't start */
#include <stdio.h>
static volatile long long all[1000000];
int main(void) {
  all[7] = 1;
  printf("%lld\n", all[8]);
  return 0;
}
