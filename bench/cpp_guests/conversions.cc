// Numbers to strings and back.
#include <iostream>
#include <string>

int main() {
    for (double x : {0.0, 1.0 / 3, -2.5e10, 1e-7, 123456.789})
        std::cout << std::to_string(x) << ' ' << std::stod(std::to_string(x)) << '\n';
    for (long long n : {0LL, -1LL, 9223372036854775807LL})
        std::cout << std::to_string(n) << ' ' << std::stoll(std::to_string(n)) << '\n';
    size_t used = 0;
    std::cout << std::stoi("ff", &used, 16) << ' ' << used << ' ' << std::stof("2.75x", &used) << ' ' << used << '\n';
}
