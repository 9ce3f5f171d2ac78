// The engine `mt19937`, whose numbers the standard says, and pi by chance.
#include <iostream>
#include <random>

int main() {
    std::mt19937 engine;
    engine.discard(9999);
    std::cout << engine() << '\n';
    std::mt19937_64 wide(5);
    std::cout << wide() << '\n';
    int inside = 0;
    for (int i = 0; i < 100000; i++) {
        const double x = engine() / 4294967296.0, y = engine() / 4294967296.0;
        inside += x * x + y * y < 1;
    }
    std::cout << inside / 25000.0 << '\n';
}
