// Functions as values, kept in a map and composed.
#include <cmath>
#include <functional>
#include <iostream>
#include <map>
#include <string>

using Function = std::function<double(double)>;

Function after(Function f, Function g) {
    return [f, g](double x) { return f(g(x)); };
}

int main() {
    std::map<std::string, Function> known;
    known["root"] = [](double x) { return std::sqrt(x); };
    known["half"] = std::bind(std::multiplies<double>(), std::placeholders::_1, 0.5);
    double step = 1;
    known["count"] = [&step](double x) { return x + step++; };
    known["both"] = after(known["root"], after(known["half"], known["count"]));
    for (int i = 0; i < 5; i++)
        for (const auto &[name, f] : known)
            std::cout << name << ' ' << f(2 * i) << (name == "root" ? '\n' : ' ');
}
