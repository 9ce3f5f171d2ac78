/* INPUT ANSWER FOLDER: hands out each pair once the sum of the one before has come; at the end a dot, and the sum of all sums is to come */
#include <stdio.h>
int main(int argc, char **argv) {
  long long count, a, b, said, all;
  FILE *input = argc > 3 ? fopen(argv[1], "r") : NULL, *answer = argc > 3 ? fopen(argv[2], "r") : NULL;
  if (!input || !answer || fscanf(input, "%lld", &count) != 1 || fscanf(answer, "%lld", &all) != 1)
    return 1;
  while (count-- && fscanf(input, "%lld %lld", &a, &b) == 2) {
    printf("%lld %lld\n", a, b);
    fflush(stdout);
    if (scanf("%lld", &said) != 1 || said != a + b)
      return 43;
  }
  puts(".");
  fflush(stdout);
  return scanf("%lld", &said) == 1 && said == all ? 42 : 43;
}
