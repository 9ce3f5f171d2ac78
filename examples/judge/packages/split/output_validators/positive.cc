// INPUT ANSWER FOLDER [FLAGS]: numbers of at least 1 whose sum is that of the input. It reads them as floats.
#include <cstdio>
#include <iostream>

int main(int argc, char **argv) {
  double want, sum = 0, it;
  std::FILE *input = argc < 4 ? nullptr : std::fopen(argv[1], "r");
  if (!input || std::fscanf(input, "%lf", &want) != 1)
    return 1;
  while (std::cin >> it) {
    if (it < 1)
      return 43;
    sum += it;
  }
  return std::cin.eof() && sum == want ? 42 : 43;
}
