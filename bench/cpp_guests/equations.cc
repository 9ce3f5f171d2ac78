// Linear equations solved, with pivots, and rows as `valarray`.
#include <algorithm>
#include <cmath>
#include <iomanip>
#include <iostream>
#include <valarray>
#include <vector>

int main() {
    const size_t count = 40;
    std::vector<std::valarray<double>> rows(count, std::valarray<double>(count + 1));
    for (size_t i = 0; i < count; i++)
        for (size_t k = 0; k <= count; k++)
            rows[i][k] = 1.0 / (1 + (i * 17 + k * 31) % 53) + (i == k ? 2 : 0);
    for (size_t i = 0; i < count; i++) {
        const auto is_less = [i](auto &a, auto &b) { return std::fabs(a[i]) < std::fabs(b[i]); };
        std::iter_swap(rows.begin() + i, std::max_element(rows.begin() + i, rows.end(), is_less));
        const double pivot = rows[i][i];
        rows[i] /= pivot;
        for (size_t k = 0; k < count; k++)
            if (k != i) {
                const double times = rows[k][i];
                rows[k] -= rows[i] * times;
            }
    }
    double sum = 0;
    for (const auto &it : rows)
        sum += it[count];
    std::cout << std::setprecision(12) << sum << ' ' << rows[0][count] << '\n';
}
