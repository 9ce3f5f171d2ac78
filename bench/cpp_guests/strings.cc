// Searching, cutting, replacing and comparing of strings.
#include <algorithm>
#include <cctype>
#include <iostream>
#include <string>

int main() {
    std::string text;
    for (std::string line; std::getline(std::cin, line);)
        text += line + "\n";
    for (size_t at = 0; (at = text.find("the", at)) != std::string::npos; at += 3)
        text.replace(at, 3, "THE");
    std::cout << text << text.size() << ' ' << text.rfind("THE") << ' ' << text.find_first_of("xyz") << '\n';
    std::string back(text.rbegin(), text.rend());
    std::transform(back.begin(), back.end(), back.begin(), [](unsigned char c) { return std::toupper(c); });
    std::cout << back.substr(0, 20) << '\n' << std::count(back.begin(), back.end(), 'E') << ' ' << back.compare(text) << '\n';
}
