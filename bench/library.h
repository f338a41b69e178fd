// Longhorbi's side: its calls through the C library, on the same tables and trees.
#pragma once
#include "longhorbi.h"
#include "plain.h"

namespace library {

using plain::Found;
using plain::Table;
using plain::Tree;
using plain::Verdict;

// The columns of a table, and of a tree, as the calls take them.
#define LENT(v) (v).data(), (v).size()
#define TABLE(t) LENT((t).x), LENT((t).y), LENT((t).kit)
#define TREE(w)                                                                                                                            \
    LENT((w).level), LENT((w).start), LENT((w).count), LENT((w).x_lo), LENT((w).x_hi), LENT((w).y_lo), LENT((w).y_hi), LENT((w).kits),     \
        LENT((w).entries)

inline Verdict check(const Table &t, const Tree &w) {
    uint64_t a[LONGHORBI_CHECK_WORDS];
    longhorbi_check(TABLE(t), TREE(w), w.nodes, w.listed, a, LONGHORBI_CHECK_WORDS);
    return {a[0], a[1]};
}

inline Found search(const Table &t, const Tree &w, uint64_t want, uint32_t allowance) {
    uint64_t a[LONGHORBI_SEARCH_WORDS];
    longhorbi_search(TABLE(t), TREE(w), w.nodes, w.listed, want, allowance, a, LONGHORBI_SEARCH_WORDS);
    Found f;
    f.code = a[0], f.squared = a[10], f.steps = static_cast<uint32_t>(a[11]), f.known = a[12] == 1;
    for (size_t i = 0; i < 8; i++) f.places[i] = static_cast<uint16_t>(a[2 + i]);
    return f;
}

// A tree with room for every table.
inline Tree room() {
    Tree w;
    w.level.resize(LONGHORBI_MOST_NODES), w.count.resize(LONGHORBI_MOST_NODES), w.start.resize(LONGHORBI_MOST_NODES);
    w.x_lo.resize(LONGHORBI_MOST_NODES), w.x_hi.resize(LONGHORBI_MOST_NODES), w.y_lo.resize(LONGHORBI_MOST_NODES);
    w.y_hi.resize(LONGHORBI_MOST_NODES), w.kits.resize(LONGHORBI_MOST_NODES), w.entries.resize(LONGHORBI_MOST_LISTED);
    return w;
}

inline void build(const Table &t, Tree &w) {
    uint64_t a[LONGHORBI_BUILD_WORDS];
    longhorbi_build(TABLE(t), TREE(w), a, LONGHORBI_BUILD_WORDS);
    w.nodes = a[2], w.listed = a[3];
}

inline std::string write(const Table &t, uint64_t want, uint32_t budget) {
    std::vector<uint8_t> out(LONGHORBI_MOST_SHEET);
    uint64_t a[LONGHORBI_WRITE_WORDS];
    longhorbi_write(TABLE(t), want, budget, LENT(out), a, LONGHORBI_WRITE_WORDS);
    return std::string(out.begin(), out.begin() + static_cast<ptrdiff_t>(a[2]));
}

inline const uint8_t *bytes(const std::string &s) { return reinterpret_cast<const uint8_t *>(s.data()); }

// Reads into columns with room for every table; gives the code, its line, and the place count.
struct Read {
    Verdict verdict;
    size_t places;
    uint64_t want, budget;
};

inline Read read(const std::string &text, Table &t) {
    uint64_t a[LONGHORBI_READ_WORDS];
    longhorbi_read(bytes(text), text.size(), LENT(t.x), LENT(t.y), LENT(t.kit), a, LONGHORBI_READ_WORDS);
    return {{a[0], a[1]}, a[2], a[3], a[4]};
}

inline std::string reply(const std::string &text) {
    uint8_t out[LONGHORBI_MOST_LINES];
    const size_t n = longhorbi_reply(bytes(text), text.size(), out, sizeof out);
    return std::string(out, out + n);
}

} // namespace library
