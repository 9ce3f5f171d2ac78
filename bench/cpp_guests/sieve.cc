// Primes by a bitset, and a sum of their inverses.
#include <bitset>
#include <iostream>

std::bitset<200000> is_composite;

int main() {
    double inverses = 0;
    int count = 0;
    for (size_t i = 2; i < is_composite.size(); i++) {
        if (is_composite[i])
            continue;
        count++;
        inverses += 1.0 / i;
        for (unsigned long long k = 1ULL * i * i; k < is_composite.size(); k += i)
            is_composite.set(k);
    }
    std::cout << count << ' ' << is_composite.count() << ' ' << inverses << ' ' << std::bitset<12>(count).to_string() << '\n';
}
