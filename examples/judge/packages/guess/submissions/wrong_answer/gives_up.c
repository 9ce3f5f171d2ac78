#include <stdio.h>
int main(void) {
  return printf("500\n"), 0;
}
