// Reads lines `NAME SCORE`, and prints each name with the mean of its scores, the best first. It is written as for any judge:
// nothing here is for the sandbox, and `std::unordered_map` and `std::cout` bring floats with them.
#include <algorithm>
#include <iomanip>
#include <iostream>
#include <string>
#include <unordered_map>
#include <utility>
#include <vector>

struct Scores {
    double sum = 0;
    int count = 0;

    double mean() const { return sum / count; }
};

int main() {
    std::unordered_map<std::string, Scores> by_name;
    std::string name;
    double score;
    while (std::cin >> name >> score) {
        by_name[name].sum += score;
        by_name[name].count++;
    }
    std::vector<std::pair<std::string, Scores>> all(by_name.begin(), by_name.end());
    std::sort(all.begin(), all.end(), [](const auto &a, const auto &b) {
        return a.second.mean() != b.second.mean() ? a.second.mean() > b.second.mean() : a.first < b.first;
    });
    std::cout << std::fixed << std::setprecision(2);
    for (const auto &it : all)
        std::cout << it.first << ' ' << it.second.mean() << '\n';
}
