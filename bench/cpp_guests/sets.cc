// Sets, multisets, and what they have in common.
#include <algorithm>
#include <iostream>
#include <iterator>
#include <set>
#include <vector>

int main() {
    std::set<int> twos, threes;
    std::multiset<int> digits;
    for (int i = 0; i < 100; i++) {
        twos.insert(i * 2);
        threes.insert(i * 3);
        digits.insert(i * i % 10);
    }
    std::vector<int> both, either;
    std::set_intersection(twos.begin(), twos.end(), threes.begin(), threes.end(), std::back_inserter(both));
    std::set_union(twos.begin(), twos.end(), threes.begin(), threes.end(), std::back_inserter(either));
    std::copy(both.begin(), both.begin() + 10, std::ostream_iterator<int>(std::cout, " "));
    std::cout << '\n' << both.size() << ' ' << either.size() << ' ' << digits.count(6) << ' ' << *twos.upper_bound(51) << '\n';
}
