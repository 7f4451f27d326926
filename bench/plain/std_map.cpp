// std_map OPERATION LEN STEPS PASSES: times steps on a `std::map`, a thousand at a time, as
// `timed.rs` does for a `BTreeMap`.
#include <chrono>
#include <cstdint>
#include <cstdio>
#include <cstdlib>
#include <map>
#include <string>
#include <vector>

using Clock = std::chrono::steady_clock;
using Map = std::map<uint64_t, uint64_t>;

static const size_t PIECE = 1000, FAR = 7919;

static uint64_t key(uint64_t n) {
    uint64_t z = n * 0x9e3779b97f4a7c15;
    z = (z ^ (z >> 30)) * 0xbf58476d1ce4e5b9;
    z = (z ^ (z >> 27)) * 0x94d049bb133111eb;
    return z ^ (z >> 31);
}

// What each thousand steps took, in nanoseconds.
struct Laps {
    Clock::time_point begin;
    std::vector<uint64_t> times;

    size_t start() {
        begin = Clock::now();
        return PIECE;
    }

    void lap() {
        auto time = std::chrono::duration_cast<std::chrono::nanoseconds>(Clock::now() - begin);
        times.push_back(time.count());
    }

    size_t step(size_t left) {
        if (left > 1) return left - 1;
        lap();
        return start();
    }
};

// A map, and where its entries are by their numbers.
struct Numbered {
    Map map;
    std::vector<Map::iterator> places;

    uint64_t put(size_t n) {
        places[n] = map.emplace(key(n), n).first;
        return n;
    }

    bool read(size_t n, uint64_t &value) const {
        auto place = map.find(key(n));
        if (place == map.end()) return false;
        value = place->second;
        return true;
    }

    bool take(size_t n, uint64_t &value) {
        auto place = map.find(key(n));
        if (place == map.end()) return false;
        value = place->second;
        map.erase(place);
        return true;
    }
};

// What goes from step to step.
struct Pace {
    size_t len, stride, far;
};

// The steps between two looks at the clock, a function of their own as in `timed.rs`. Each calls
// `step` with its number and with one of a far order; what it answers goes into a checksum.
template <typename Step>
[[gnu::noinline]] static uint64_t piece(Pace &pace, size_t start, size_t end, uint64_t sum,
                                        Step step) {
    size_t len = pace.len, stride = pace.stride, far = pace.far;
    for (size_t n = start; n < end; n++) {
        sum = sum * 31 + step(n, far);
        far += stride;
        if (far >= len) far -= len;
    }
    pace.far = far;
    return sum;
}

template <typename Step>
static uint64_t go(Laps &laps, size_t len, size_t steps, Step step) {
    Pace pace = {len, len == 0 ? 0 : FAR % len, 0};
    uint64_t sum = 0;
    for (size_t done = 0; done < steps; done += PIECE) {
        size_t end = done + PIECE < steps ? done + PIECE : steps;
        laps.start();
        sum = piece(pace, done, end, sum, step);
        laps.lap();
    }
    return sum;
}

[[gnu::noinline]] static uint64_t walk(Laps &laps, const Map &map) {
    uint64_t sum = 0;
    size_t left = laps.start();
    for (auto &entry : map) {
        sum = sum * 31 + entry.second;
        left = laps.step(left);
    }
    return sum;
}

// Fills a map, and carries out so many steps of an operation.
static uint64_t pass(Laps &laps, const std::string &operation, size_t len, size_t steps) {
    Numbered entries;
    entries.places.resize(len, entries.map.end());
    uint64_t sum = 0, value = 0;
    if (operation == "insert") {
        return go(laps, len, steps, [&](size_t n, size_t) { return entries.put(n); });
    }
    for (size_t n = 0; n < len; n++) entries.put(n);
    if (operation == "find") {
        return go(laps, len, steps, [&](size_t, size_t far) {
            return entries.read(far, value) ? value : 0;
        });
    }
    if (operation == "remove") {
        return go(laps, len, steps, [&](size_t, size_t far) {
            return entries.take(far, value) ? value : 0;
        });
    }
    if (operation == "cancel") {
        return go(laps, len, steps, [&](size_t, size_t far) {
            value = entries.places[far]->second;
            entries.map.erase(entries.places[far]);
            return value;
        });
    }
    return operation == "walk" && steps > 0 ? walk(laps, entries.map) : sum;
}

int main(int count, char **words) {
    if (count != 5) return 2;
    size_t len = atol(words[2]), steps = atol(words[3]), passes = atol(words[4]);
    Laps laps;
    uint64_t sum = 0;
    for (size_t n = 0; n < passes; n++) sum = pass(laps, words[1], len, steps);
    for (uint64_t time : laps.times) printf("%lu\n", time);
    printf("%lu\n", sum);
}
