/* Both wait: it listens before it says anything */
#include <stdio.h>
int main(void) {
  char said[16];
  return scanf("%15s", said) == 1, 0;
}
