// Tuples compared, taken apart and sorted.
#include <algorithm>
#include <iostream>
#include <string>
#include <tuple>
#include <vector>

int main() {
    std::vector<std::tuple<double, std::string, int>> all;
    for (int i = 0; i < 60; i++)
        all.emplace_back(i * 37 % 11 / 4.0, std::string(1, 'a' + i * 7 % 26), i);
    std::sort(all.rbegin(), all.rend());
    for (size_t i = 0; i < all.size(); i += 6) {
        const auto &[weight, name, number] = all[i];
        std::cout << weight << name << number << ' ';
    }
    std::cout << '\n' << std::get<1>(std::min(all.front(), all.back())) << '\n';
}
