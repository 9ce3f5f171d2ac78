// A Fourier transform of complex numbers, there and back.
#include <cmath>
#include <complex>
#include <iomanip>
#include <iostream>
#include <vector>

using Numbers = std::vector<std::complex<double>>;

void transform(Numbers &all, double sign) {
    const size_t count = all.size();
    if (count == 1)
        return;
    Numbers even(count / 2), odd(count / 2);
    for (size_t i = 0; i < count / 2; i++) {
        even[i] = all[2 * i];
        odd[i] = all[2 * i + 1];
    }
    transform(even, sign);
    transform(odd, sign);
    for (size_t i = 0; i < count / 2; i++) {
        const auto turned = std::polar(1.0, sign * 2 * M_PI * i / count) * odd[i];
        all[i] = even[i] + turned;
        all[i + count / 2] = even[i] - turned;
    }
}

int main() {
    Numbers all(256);
    for (size_t i = 0; i < all.size(); i++)
        all[i] = {std::sin(i * 0.3) + 0.5 * std::cos(i * 1.1), 0};
    transform(all, -1);
    size_t strongest = 0;
    for (size_t i = 1; i < all.size() / 2; i++)
        strongest = std::abs(all[i]) > std::abs(all[strongest]) ? i : strongest;
    std::cout << strongest << ' ' << std::setprecision(9) << std::abs(all[strongest]) << '\n';
    transform(all, 1);
    double wrong = 0;
    for (size_t i = 0; i < all.size(); i++)
        wrong = std::max(wrong, std::abs(all[i].real() / all.size() - (std::sin(i * 0.3) + 0.5 * std::cos(i * 1.1))));
    std::cout << (wrong < 1e-12) << '\n';
}
