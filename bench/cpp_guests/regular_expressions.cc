// Dates and addresses out of text, by regular expressions.
#include <iostream>
#include <regex>
#include <string>

int main() {
    const std::string text = "2026-11-29 ann@example.org wrote 3.5 pages; 1999-01-02 bob@test.example 10.25";
    const std::regex date("([0-9]{4})-([0-9]{2})-([0-9]{2})"), address("[a-z]+@([a-z]+[.])+[a-z]+"), number("[0-9]+[.][0-9]+");
    for (std::sregex_iterator it(text.begin(), text.end(), date), end; it != end; ++it)
        std::cout << (*it)[3] << '.' << (*it)[2] << '.' << (*it)[1] << '\n';
    for (std::sregex_iterator it(text.begin(), text.end(), address), end; it != end; ++it)
        std::cout << it->str() << ' ' << it->position() << '\n';
    std::cout << std::regex_replace(text, number, "<$&>") << '\n' << std::regex_match("2026-11-29", date) << '\n';
}
