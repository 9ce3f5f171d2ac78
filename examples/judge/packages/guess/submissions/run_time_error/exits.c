/* Right, and then exit 3 */
#include <stdio.h>
int main(void) {
  char said[16] = "";
  for (int low = 1, high = 1000, middle; said[0] != 'c';) {
    printf("%d\n", middle = (low + high) / 2);
    fflush(stdout);
    if (scanf("%15s", said) != 1)
      return 1;
    if (said[0] == 'h')
      low = middle + 1;
    else
      high = middle - 1;
  }
  return 3;
}
