// Numbers out of standard input, by `>>`, and their sums in several formats.
#include <iomanip>
#include <iostream>

int main() {
    double value, sum = 0, most = 0;
    int count = 0;
    while (std::cin >> value) {
        sum += value;
        most = count++ == 0 || value > most ? value : most;
    }
    std::cout << count << ' ' << sum << ' ' << most << '\n'
              << std::fixed << std::setprecision(3) << sum / count << ' ' << std::scientific << most << '\n'
              << std::hex << std::showbase << 255 << ' ' << std::setw(8) << std::setfill('*') << std::dec << 42 << '\n';
}
