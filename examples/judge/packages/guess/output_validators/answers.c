/* INPUT ANSWER FOLDER most N: says `lower`, `higher` or `correct` of each number that is guessed, of which there are at most N */
#include <stdio.h>
#include <stdlib.h>
#include <string.h>
int main(int argc, char **argv) {
  int secret, guess, count = 0;
  FILE *input = fopen(argv[1], "r");
  if (argc != 6 || strcmp(argv[4], "most") || !input || fscanf(input, "%d", &secret) != 1)
    return 1;
  while (count++ < atoi(argv[5]) && scanf("%d", &guess) == 1) {
    puts(guess == secret ? "correct" : guess < secret ? "higher" : "lower");
    fflush(stdout);
    if (guess == secret)
      return scanf("%d", &guess) == 1 ? 43 : 42;
  }
  return 43;
}
