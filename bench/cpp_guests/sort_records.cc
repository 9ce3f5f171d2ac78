// Records sorted by two keys, then stably by one.
#include <algorithm>
#include <iostream>
#include <string>
#include <vector>

struct Record {
    std::string name;
    int group;
    double weight;
};

int main() {
    std::vector<Record> all;
    unsigned state = 12345;
    for (int i = 0; i < 500; i++) {
        state = state * 1664525 + 1013904223;
        all.push_back({"n" + std::to_string(state % 997), int(state >> 24) % 7, (state >> 8) % 10000 / 16.0});
    }
    std::sort(all.begin(), all.end(), [](const Record &a, const Record &b) { return a.name != b.name ? a.name < b.name : a.weight < b.weight; });
    std::stable_sort(all.begin(), all.end(), [](const Record &a, const Record &b) { return a.group < b.group; });
    for (size_t i = 0; i < all.size(); i += 25)
        std::cout << all[i].group << ' ' << all[i].name << ' ' << all[i].weight << '\n';
    auto middle = all.begin() + all.size() / 2;
    std::nth_element(all.begin(), middle, all.end(), [](const Record &a, const Record &b) { return a.weight < b.weight; });
    std::cout << middle->weight << '\n';
}
