// Values of several types: `variant`, `optional`, `any`.
#include <any>
#include <iostream>
#include <optional>
#include <string>
#include <type_traits>
#include <variant>
#include <vector>

using Value = std::variant<int, double, std::string>;

std::optional<double> number_of(const Value &value) {
    if (const auto *it = std::get_if<int>(&value))
        return *it;
    if (const auto *it = std::get_if<double>(&value))
        return *it;
    return std::nullopt;
}

int main() {
    std::vector<Value> all = {1, 2.5, "text", 40, "more", -0.125};
    double sum = 0;
    for (const auto &it : all) {
        sum += number_of(it).value_or(100);
        std::visit([](const auto &inner) { std::cout << sizeof(inner) / sizeof(inner) << ':' << inner << ' '; }, it);
    }
    std::any box = sum;
    std::cout << '\n' << *std::any_cast<double>(&box) << ' ' << (std::any_cast<int>(&box) == nullptr) << '\n';
}
