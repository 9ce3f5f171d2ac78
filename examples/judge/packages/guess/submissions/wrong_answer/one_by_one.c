/* More than ten guesses */
#include <stdio.h>
int main(void) {
  char said[16] = "";
  for (int guess = 1; said[0] != 'c' && guess < 1000; guess++) {
    printf("%d\n", guess);
    fflush(stdout);
    if (scanf("%15s", said) != 1)
      return 0;
  }
  return 0;
}
