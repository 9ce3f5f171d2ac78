#include <iostream>
#include <string>

int main() {
  int low = 1, high = 1000;
  for (std::string said; said != "correct";) {
    int middle = (low + high) / 2;
    std::cout << middle << std::endl;
    if (!(std::cin >> said))
      return 1;
    (said == "higher" ? low : high) = said == "higher" ? middle + 1 : middle - 1;
  }
}
