// The greatest of each window, by a deque.
#include <deque>
#include <iostream>
#include <vector>

int main() {
    std::vector<double> values;
    unsigned state = 99;
    for (int i = 0; i < 5000; i++) {
        state = state * 1664525 + 1013904223;
        values.push_back((state >> 12) / 4096.0);
    }
    std::deque<int> best;
    double sum = 0;
    for (int i = 0; i < int(values.size()); i++) {
        while (!best.empty() && values[best.back()] <= values[i])
            best.pop_back();
        best.push_back(i);
        if (best.front() <= i - 50)
            best.pop_front();
        sum += values[best.front()];
    }
    std::cout.precision(12);
    std::cout << sum << ' ' << best.size() << '\n';
}
