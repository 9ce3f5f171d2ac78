// How often each word stands in standard input, in the order of words.
#include <iostream>
#include <map>
#include <string>

int main() {
    std::map<std::string, int> counts;
    for (std::string word; std::cin >> word;)
        counts[word]++;
    for (const auto &[word, count] : counts)
        std::cout << word << ' ' << count << '\n';
    std::cout << counts.lower_bound("m")->first << '\n';
}
