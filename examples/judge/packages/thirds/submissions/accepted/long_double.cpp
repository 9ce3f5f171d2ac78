#include <cstdio>
#include <iostream>

int main() {
  long double n;
  std::cin >> n;
  std::printf("%.9Lf\n", n / 3);
}
