// All orders of eight cities, and the shortest tour.
#include <algorithm>
#include <cmath>
#include <iostream>
#include <numeric>
#include <vector>

int main() {
    const double x[] = {0, 3, 6, 7, 1, 4, 2, 8}, y[] = {0, 4, 1, 5, 7, 8, 2, 3};
    std::vector<int> order(7);
    std::iota(order.begin(), order.end(), 1);
    double best = 1e9;
    std::vector<int> tour;
    do {
        double way = 0;
        int at = 0;
        for (int to : order) {
            way += std::hypot(x[at] - x[to], y[at] - y[to]);
            at = to;
        }
        way += std::hypot(x[at], y[at]);
        if (way < best - 1e-9) {
            best = way;
            tour = order;
        }
    } while (std::next_permutation(order.begin(), order.end()));
    std::cout << best << ' ' << std::accumulate(tour.begin(), tour.end(), 0, [](int a, int b) { return a * 8 + b; }) << '\n';
}
