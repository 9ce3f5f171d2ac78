/* Its sums wait in a buffer */
#include <stdio.h>
int main(void) {
  static char room[1 << 16];
  long long a, b, all = 0;
  setvbuf(stdout, room, _IOFBF, sizeof room);
  while (scanf("%lld %lld", &a, &b) == 2) {
    printf("%lld\n", a + b);
    all += a + b;
  }
  return printf("%lld\n", all), 0;
}
