// Shortest ways in a graph with weights, by a priority queue.
#include <functional>
#include <iostream>
#include <limits>
#include <queue>
#include <utility>
#include <vector>

int main() {
    const int count = 400;
    std::vector<std::vector<std::pair<int, double>>> edges(count);
    unsigned state = 7;
    for (int i = 0; i < 4000; i++) {
        state = state * 1103515245 + 12345;
        const int a = (state >> 16) % count;
        state = state * 1103515245 + 12345;
        edges[a].push_back({int((state >> 16) % count), 0.25 + (state >> 20) % 64 / 8.0});
    }
    std::vector<double> far(count, std::numeric_limits<double>::infinity());
    std::priority_queue<std::pair<double, int>, std::vector<std::pair<double, int>>, std::greater<>> next;
    next.push({far[0] = 0, 0});
    while (!next.empty()) {
        const auto [way, at] = next.top();
        next.pop();
        if (way > far[at])
            continue;
        for (const auto &[to, weight] : edges[at])
            if (way + weight < far[to])
                next.push({far[to] = way + weight, to});
    }
    double sum = 0;
    int reached = 0;
    for (double it : far)
        if (it < std::numeric_limits<double>::infinity()) {
            sum += it;
            reached++;
        }
    std::cout << reached << ' ' << sum << ' ' << far[count - 1] << '\n';
}
