// The plain C++ side: the same rules, written the straightforward way.
#pragma once
#include <array>
#include <cstddef>
#include <cstdint>
#include <string>
#include <string_view>
#include <vector>

namespace plain {

// A table of places, in columns.
struct Table {
    std::vector<int32_t> x, y;
    std::vector<uint64_t> kit;
    size_t places() const { return x.size(); }
};

// A tree over a table, in columns.
struct Tree {
    size_t nodes = 0, listed = 0;
    std::vector<uint8_t> level, count;
    std::vector<uint16_t> start, entries;
    std::vector<int32_t> x_lo, x_hi, y_lo, y_hi;
    std::vector<uint64_t> kits;
};

// Code 0, or a refusal and its place.
struct Verdict {
    uint64_t code = 0, at = 0;
    bool operator==(const Verdict &o) const { return code == o.code && at == o.at; }
};

// What a search gives.
struct Found {
    uint64_t code = 0;
    std::array<uint16_t, 8> places{};
    uint64_t squared = 0;
    uint32_t steps = 0;
    bool known = false;
    bool operator==(const Found &o) const {
        return code == o.code && places == o.places && squared == o.squared && steps == o.steps && known == o.known;
    }
};

// What a sheet comes to.
struct Sheet {
    Verdict verdict;
    Table table;
    uint64_t want = 0;
    uint32_t budget = 0;
};

// How a walk tests a candidate: all pairs, up to the first that is too far apart; all pairs, measured to the largest; or only those of the
// new member, with the largest of the others measured once for each opened member.
enum class Pairs { tested, measured, kept };

Verdict check(const Table &t, const Tree &w);                                                // 11, 12, 21 to 26, in linear work
Tree build(const Table &t);                                                                  // over a table in order
Found search(const Table &t, const Tree &w, uint64_t want, uint32_t allowance, Pairs pairs); // over a tree in order
Sheet read(std::string_view text);                                                           // 51 to 53
std::string reply(std::string_view text, Pairs pairs);                                       // what the program prints

} // namespace plain
