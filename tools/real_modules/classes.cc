// Classes, templates, containers and, where they are on, exceptions.
#include <algorithm>
#include <map>
#include <memory>
#include <string>
#include <vector>
#include <cstdio>

namespace shapes {
struct Shape {
    virtual ~Shape() = default;
    virtual double area() const = 0;
    virtual std::string name() const { return "shape"; }
};
struct Square : Shape {
    double side;
    explicit Square(double side) : side(side) {}
    double area() const override { return side * side; }
    std::string name() const override { return "square"; }
};
struct Circle : Shape {
    double radius;
    explicit Circle(double radius) : radius(radius) {}
    double area() const override { return 3.14159 * radius * radius; }
};
}

template <class T> T largest(const std::vector<T> &all) {
#if __cpp_exceptions
    if (all.empty()) throw std::string("none");
#endif
    return *std::max_element(all.begin(), all.end());
}

int main(int argc, char **argv) {
    std::vector<std::unique_ptr<shapes::Shape>> all;
    all.push_back(std::make_unique<shapes::Square>(argc));
    all.push_back(std::make_unique<shapes::Circle>(2));
    std::map<std::string, double> areas;
    for (auto &one : all) areas[one->name()] += one->area();
    std::vector<double> found;
    for (auto &[name, area] : areas) found.push_back(area);
    std::sort(found.begin(), found.end(), [](double a, double b) { return a > b; });
#if __cpp_exceptions
    try {
        std::printf("%f\n", largest(found));
        largest(std::vector<int>{});
    } catch (const std::string &what) {
        std::printf("%s\n", what.c_str());
    } catch (...) {
        return 2;
    }
#endif
    std::printf("%f %s\n", largest(found), argv[0]);
    return 0;
}
