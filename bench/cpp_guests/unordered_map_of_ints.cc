// A hash map that grows, loses entries and is looked up.
#include <iostream>
#include <unordered_map>

int main() {
    std::unordered_map<int, long long> squares;
    for (int i = 0; i < 20000; i++)
        squares[i * 7919 % 65536] = 1LL * i * i;
    for (int i = 0; i < 65536; i += 3)
        squares.erase(i);
    long long sum = 0;
    for (int i = 0; i < 65536; i++) {
        auto found = squares.find(i);
        sum += found == squares.end() ? 0 : found->second % 1000;
    }
    std::cout << squares.size() << ' ' << sum << ' ' << (squares.load_factor() <= squares.max_load_factor()) << '\n';
}
