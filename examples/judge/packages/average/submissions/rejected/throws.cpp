// Exceptions aren't compiled: the module that they want isn't one of WebAssembly 1.0.
#include <iostream>
#include <stdexcept>

int main() {
  try {
    throw std::runtime_error("none");
  } catch (const std::exception &it) {
    std::cout << it.what() << '\n';
  }
}
