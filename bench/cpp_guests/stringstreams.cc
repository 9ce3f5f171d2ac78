// Lines of numbers between commas, by string streams.
#include <iomanip>
#include <iostream>
#include <sstream>
#include <string>
#include <vector>

int main() {
    std::ostringstream made;
    for (int i = 0; i < 20; i++)
        made << i << ',' << i * 0.5 << ',' << "name " << char('a' + i) << '\n';
    std::istringstream lines(made.str());
    double sum = 0;
    std::vector<std::string> names;
    for (std::string line; std::getline(lines, line);) {
        std::istringstream parts(line);
        std::string number, half, name;
        std::getline(parts, number, ',');
        std::getline(parts, half, ',');
        std::getline(parts, name);
        double value;
        std::istringstream(half) >> value;
        sum += value * std::stoi(number);
        names.push_back(name);
    }
    std::cout << std::setprecision(10) << sum << ' ' << names.back() << ' ' << names.size() << '\n';
}
