// A cache that forgets what was used least recently, of a list and a map into it.
#include <iostream>
#include <list>
#include <unordered_map>
#include <utility>

int main() {
    std::list<std::pair<int, float>> order;
    std::unordered_map<int, decltype(order)::iterator> places;
    int hits = 0;
    unsigned state = 3;
    for (int i = 0; i < 20000; i++) {
        state = state * 1664525 + 1013904223;
        const int key = (state >> 20) * (state >> 24) % 300;
        if (auto found = places.find(key); found != places.end()) {
            hits++;
            order.splice(order.begin(), order, found->second);
            continue;
        }
        order.push_front({key, key / 3.0f});
        places[key] = order.begin();
        if (order.size() > 100) {
            places.erase(order.back().first);
            order.pop_back();
        }
    }
    float sum = 0;
    for (const auto &it : order)
        sum += it.second;
    std::cout << hits << ' ' << order.front().first << ' ' << sum << '\n';
}
