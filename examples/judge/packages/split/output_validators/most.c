/* INPUT ANSWER FOLDER most N: no more than N numbers. On standard output it may say anything */
#include <stdio.h>
#include <stdlib.h>
#include <string.h>
int main(int argc, char **argv) {
  long long it, count = 0;
  if (argc != 6 || strcmp(argv[4], "most"))
    return 1;
  while (scanf("%lld", &it) == 1)
    count++;
  return printf("%lld numbers\n", count), count <= atoi(argv[5]) ? 42 : 43;
}
