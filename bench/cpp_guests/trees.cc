// A tree of shared pointers, with virtual functions: sums and products as they are written.
#include <iostream>
#include <memory>

struct Term {
    virtual ~Term() = default;
    virtual double value(double x) const = 0;
    virtual void print(std::ostream &out) const = 0;
};

using Shared = std::shared_ptr<const Term>;

struct Number : Term {
    double number;
    explicit Number(double number) : number(number) {}
    double value(double) const override { return number; }
    void print(std::ostream &out) const override { out << number; }
};

struct Variable : Term {
    double value(double x) const override { return x; }
    void print(std::ostream &out) const override { out << 'x'; }
};

struct Pair : Term {
    char sign;
    Shared left, right;
    Pair(char sign, Shared left, Shared right) : sign(sign), left(std::move(left)), right(std::move(right)) {}
    double value(double x) const override {
        const double a = left->value(x), b = right->value(x);
        return sign == '+' ? a + b : sign == '*' ? a * b : a / b;
    }
    void print(std::ostream &out) const override {
        out << '(';
        left->print(out);
        out << ' ' << sign << ' ';
        right->print(out);
        out << ')';
    }
};

int main() {
    Shared term = std::make_shared<Variable>();
    for (int i = 1; i < 6; i++)
        term = std::make_shared<Pair>("+*/"[i % 3], std::make_shared<Number>(i * 1.5), std::make_shared<Pair>('+', term, term));
    term->print(std::cout);
    std::cout << '\n' << term->value(2) << ' ' << term->value(0) << ' ' << term.use_count() << '\n';
}
