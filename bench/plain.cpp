#include "plain.h"

#include <algorithm>
#include <charconv>
#include <cmath>

namespace plain {
namespace {

constexpr int32_t farthest = 1000000;
constexpr size_t most_places = 4096, most_nodes = 2048;

struct Box {
    int32_t x_lo, x_hi, y_lo, y_hi;
};

Box place_box(const Table &t, size_t p) { return {t.x[p], t.x[p], t.y[p], t.y[p]}; }
Box node_box(const Tree &w, size_t n) { return {w.x_lo[n], w.x_hi[n], w.y_lo[n], w.y_hi[n]}; }

Box join(const Box &a, const Box &b) {
    return {std::min(a.x_lo, b.x_lo), std::max(a.x_hi, b.x_hi), std::min(a.y_lo, b.y_lo), std::max(a.y_hi, b.y_hi)};
}

int64_t gap(int32_t a_lo, int32_t a_hi, int32_t b_lo, int32_t b_hi) { return std::max(0, std::max(b_lo - a_hi, a_lo - b_hi)); }

// The squared distance of the nearest points of two boxes.
uint64_t apart(const Box &a, const Box &b) {
    const int64_t dx = gap(a.x_lo, a.x_hi, b.x_lo, b.x_hi);
    const int64_t dy = gap(a.y_lo, a.y_hi, b.y_lo, b.y_hi);
    return static_cast<uint64_t>(dx * dx + dy * dy);
}

// --- the check ---

Verdict check_table(const Table &t) {
    const size_t n = t.x.size();
    if (t.y.size() != n || t.kit.size() != n || n > most_places) return {11, 0};
    for (size_t p = 0; p < n; p++)
        if (t.x[p] < -farthest || t.x[p] > farthest || t.y[p] < -farthest || t.y[p] > farthest) return {12, p};
    return {};
}

bool columns_reach(const Tree &w) {
    const size_t n = w.nodes;
    return w.level.size() >= n && w.start.size() >= n && w.count.size() >= n && w.x_lo.size() >= n && w.x_hi.size() >= n &&
           w.y_lo.size() >= n && w.y_hi.size() >= n && w.kits.size() >= n && w.entries.size() >= w.listed;
}

bool counts_go(size_t places, const Tree &w) {
    if (w.nodes > most_nodes || (w.nodes == 0) != (places == 0)) return false;
    return w.listed == (w.nodes == 0 ? 0 : places + w.nodes - 1) && columns_reach(w);
}

Verdict check_runs(const Tree &w) {
    size_t due = 0;
    for (size_t n = 0; n < w.nodes; n++) {
        if (w.level[n] < 1 || w.level[n] > 6 || w.count[n] < 1 || w.count[n] > 16 || w.start[n] != due) return {22, n};
        due += w.count[n];
    }
    if (due != w.listed) return {22, w.nodes};
    return {};
}

bool may_name(size_t places, const Tree &w, size_t n, size_t e) {
    if (w.level[n] == 1) return e < places;
    return e >= 1 && e < w.nodes && w.level[e] + 1 == w.level[n];
}

Verdict check_names(size_t places, const Tree &w) {
    for (size_t n = 0; n < w.nodes; n++)
        for (size_t i = w.start[n], end = i + w.count[n]; i < end; i++)
            if (!may_name(places, w, n, w.entries[i])) return {23, i};
    return {};
}

Verdict check_repeats(const Tree &w) {
    std::array<bool, most_places> place_seen{};
    std::array<bool, most_nodes> node_seen{};
    for (size_t n = 0; n < w.nodes; n++)
        for (size_t i = w.start[n], end = i + w.count[n]; i < end; i++) {
            bool &seen = w.level[n] == 1 ? place_seen[w.entries[i]] : node_seen[w.entries[i]];
            if (seen) return {24, i};
            seen = true;
        }
    return {};
}

Box entry_box(const Table &t, const Tree &w, size_t n, size_t i) {
    return w.level[n] == 1 ? place_box(t, w.entries[i]) : node_box(w, w.entries[i]);
}

uint64_t entry_kit(const Table &t, const Tree &w, size_t n, size_t i) {
    return w.level[n] == 1 ? t.kit[w.entries[i]] : w.kits[w.entries[i]];
}

Box run_box(const Table &t, const Tree &w, size_t n) {
    const size_t first = w.start[n], end = first + w.count[n];
    Box all = entry_box(t, w, n, first);
    for (size_t i = first + 1; i < end; i++) all = join(all, entry_box(t, w, n, i));
    return all;
}

uint64_t run_kit(const Table &t, const Tree &w, size_t n) {
    uint64_t all = 0;
    for (size_t i = w.start[n], end = i + w.count[n]; i < end; i++) all |= entry_kit(t, w, n, i);
    return all;
}

Verdict check_boxes(const Table &t, const Tree &w) {
    for (size_t n = 0; n < w.nodes; n++) {
        const Box due = run_box(t, w, n), said = node_box(w, n);
        if (due.x_lo != said.x_lo || due.x_hi != said.x_hi || due.y_lo != said.y_lo || due.y_hi != said.y_hi) return {25, n};
    }
    return {};
}

Verdict check_kits(const Table &t, const Tree &w) {
    for (size_t n = 0; n < w.nodes; n++)
        if (run_kit(t, w, n) != w.kits[n]) return {26, n};
    return {};
}

// --- the builder ---

// The 21 lowest bits, each followed by a 0.
uint64_t spread_bits(uint64_t v) {
    v = (v | v << 16) & 0x0000ffff0000ffff;
    v = (v | v << 8) & 0x00ff00ff00ff00ff;
    v = (v | v << 4) & 0x0f0f0f0f0f0f0f0f;
    v = (v | v << 2) & 0x3333333333333333;
    return (v | v << 1) & 0x5555555555555555;
}

uint64_t key(int32_t x, int32_t y) {
    return spread_bits(static_cast<uint64_t>(x + farthest)) | spread_bits(static_cast<uint64_t>(y + farthest)) << 1;
}

// The places by key, equal keys by number.
std::vector<uint64_t> sorted_words(const Table &t) {
    std::vector<uint64_t> words(t.places());
    for (size_t p = 0; p < words.size(); p++) words[p] = key(t.x[p], t.y[p]) << 12 | p;
    std::sort(words.begin(), words.end());
    return words;
}

// How many nodes each level has, leaves first.
std::vector<size_t> level_sizes(size_t places) {
    std::vector<size_t> sizes;
    for (size_t n = places; n > 0 && (sizes.empty() || n > 1);) sizes.push_back(n = (n + 15) / 16);
    return sizes;
}

Tree with_room(size_t places, const std::vector<size_t> &sizes) {
    Tree w;
    for (size_t n : sizes) w.nodes += n;
    w.listed = w.nodes == 0 ? 0 : places + w.nodes - 1;
    w.level.resize(w.nodes), w.count.resize(w.nodes), w.start.resize(w.nodes), w.kits.resize(w.nodes);
    w.x_lo.resize(w.nodes), w.x_hi.resize(w.nodes), w.y_lo.resize(w.nodes), w.y_hi.resize(w.nodes);
    w.entries.reserve(w.listed);
    return w;
}

// Levels and runs, root first: sixteen in a row, the last of a level taking the rest.
void lay_runs(Tree &w, size_t places, const std::vector<size_t> &sizes) {
    size_t n = 0, start = 0;
    for (size_t l = sizes.size(); l-- > 0;) {
        size_t below = l == 0 ? places : sizes[l - 1];
        for (size_t k = 0; k < sizes[l]; k++, n++) {
            const size_t count = std::min<size_t>(below, 16);
            w.level[n] = static_cast<uint8_t>(l + 1), w.start[n] = static_cast<uint16_t>(start), w.count[n] = static_cast<uint8_t>(count);
            start += count, below -= count;
        }
    }
}

void set_values(const Table &t, Tree &w, size_t n) {
    const Box b = run_box(t, w, n);
    w.x_lo[n] = b.x_lo, w.x_hi[n] = b.x_hi, w.y_lo[n] = b.y_lo, w.y_hi[n] = b.y_hi;
    w.kits[n] = run_kit(t, w, n);
}

// --- the walk ---

struct Member {
    uint8_t level;
    uint16_t number;
    Box box;
};

class Walk {
  public:
    Walk(const Table &t, const Tree &w, uint64_t want, uint32_t allowance) : t(t), w(w), allowance(allowance) {
        for (uint8_t k = 0; k < 64; k++)
            if (want >> k & 1) kinds[m++] = k;
        std::fill_n(cand, m, Member{w.level[0], 0, node_box(w, 0)});
    }

    Found run(Pairs pairs) {
        if (pairs == Pairs::tested) take_tested();
        else if (pairs == Pairs::measured) take_measured();
        else take_kept(0, 0);
        return {spent ? uint64_t{32} : 0, places, best, steps, known};
    }

  private:
    const Table &t;
    const Tree &w;
    const uint32_t allowance;
    uint32_t steps = 0;
    bool spent = false, known = false;
    uint64_t best = 0;
    std::array<uint16_t, 8> places{};
    size_t m = 0;
    uint8_t kinds[8] = {};
    Member cand[8] = {};

    bool step() {
        if (steps == allowance) spent = true;
        else steps++;
        return !spent;
    }

    bool some_pair_beyond() const {
        for (size_t i = 0; i < m; i++)
            for (size_t j = i + 1; j < m; j++)
                if (apart(cand[i].box, cand[j].box) > best) return true;
        return false;
    }

    bool beyond(size_t i) const {
        for (size_t j = 0; j < m; j++)
            if (j != i && apart(cand[i].box, cand[j].box) > best) return true;
        return false;
    }

    // The largest squared distance of any two members but `without`; of all, where that is m.
    uint64_t diameter(size_t without) const {
        uint64_t most = 0;
        for (size_t i = 0; i < m; i++)
            for (size_t j = i + 1; j < m; j++)
                if (i != without && j != without) most = std::max(most, apart(cand[i].box, cand[j].box));
        return most;
    }

    size_t topmost() const {
        size_t top = 0;
        for (size_t i = 1; i < m; i++)
            if (cand[i].level > cand[top].level) top = i;
        return top;
    }

    void offer(uint64_t squared) {
        std::array<uint16_t, 8> group{};
        for (size_t i = 0; i < m; i++) group[i] = cand[i].number;
        if (known && (squared > best || (squared == best && !(group < places)))) return;
        known = true, best = squared, places = group;
    }

    // Replaces the topmost member by each of its entries that holds its kind, and takes what comes out.
    template <class Take> void open(size_t top, Take take_next) {
        const Member opened = cand[top];
        const bool leaf = opened.level == 1;
        const size_t first = w.start[opened.number], end = first + w.count[opened.number];
        for (size_t i = first; i < end && !spent; i++) {
            const uint16_t e = w.entries[i];
            if ((leaf ? t.kit[e] : w.kits[e]) >> kinds[top] & 1) {
                cand[top] = leaf ? Member{0, e, place_box(t, e)} : Member{w.level[e], e, node_box(w, e)};
                take_next();
            }
        }
        cand[top] = opened;
    }

    // Takes the candidate and all below it.
    void take_tested() {
        if (!step() || (known && some_pair_beyond())) return;
        const size_t top = topmost();
        if (cand[top].level == 0) return offer(diameter(m));
        open(top, [&] { take_tested(); });
    }

    void take_measured() {
        if (!step()) return;
        const uint64_t squared = diameter(m);
        if (known && squared > best) return;
        const size_t top = topmost();
        if (cand[top].level == 0) return offer(squared);
        open(top, [&] { take_measured(); });
    }

    // Here `rest` is the largest squared distance of the pairs without member `fresh`.
    void take_kept(size_t fresh, uint64_t rest) {
        if (!step() || (known && (rest > best || beyond(fresh)))) return;
        const size_t top = topmost();
        if (cand[top].level == 0) return offer(diameter(m));
        const uint64_t kept = diameter(top);
        open(top, [&] { take_kept(top, kept); });
    }
};

// --- the sheet ---

class Reader {
  public:
    explicit Reader(std::string_view text) : rest(text) {}
    uint64_t line = 0, code = 0;
    std::string_view rest;

    // The value of the next line, if the line has the key.
    bool value(std::string_view key, std::string_view &v) {
        line++;
        const size_t n = rest.substr(0, 41).find('\n');
        if (n == std::string_view::npos || rest.substr(0, std::min(n, key.size())) != key) return fail(51);
        v = rest.substr(key.size(), n - key.size());
        rest.remove_prefix(n + 1);
        return true;
    }

    bool word(std::string_view key, std::string_view due) {
        std::string_view v;
        return value(key, v) && (v == due || fail(52));
    }

    bool number(std::string_view key, uint64_t most, uint64_t &n) {
        std::string_view v;
        return value(key, v) && (decimal(v, most, n) || fail(52));
    }

    bool coordinate(std::string_view key, int32_t &z) {
        std::string_view v;
        if (!value(key, v)) return false;
        const bool minus = !v.empty() && v[0] == '-';
        uint64_t n = 0;
        if (!decimal(v.substr(minus), farthest, n) || (minus && n == 0)) return fail(52);
        z = minus ? -static_cast<int32_t>(n) : static_cast<int32_t>(n);
        return true;
    }

    bool bits(std::string_view key, uint64_t &n) {
        std::string_view v;
        if (!value(key, v)) return false;
        if (v.size() != 16) return fail(52);
        n = 0;
        for (char c : v) {
            if (c >= '0' && c <= '9') n = n << 4 | static_cast<uint64_t>(c - '0');
            else if (c >= 'a' && c <= 'f') n = n << 4 | static_cast<uint64_t>(c - 'a' + 10);
            else return fail(52);
        }
        return true;
    }

    bool fail(uint64_t with) {
        code = with;
        return false;
    }

  private:
    static bool decimal(std::string_view v, uint64_t most, uint64_t &n) {
        if (v.empty() || (v[0] == '0' && v.size() > 1)) return false;
        const auto r = std::from_chars(v.data(), v.data() + v.size(), n);
        return r.ec == std::errc{} && r.ptr == v.data() + v.size() && n <= most;
    }
};

bool read_place(Reader &r, uint64_t due, Table &t) {
    uint64_t number = 0, kit = 0;
    int32_t x = 0, y = 0;
    if (!r.number("place=", most_places - 1, number)) return false;
    if (number != due) return r.fail(52);
    if (!r.coordinate("x=", x) || !r.coordinate("y=", y) || !r.bits("kit=", kit)) return false;
    t.x.push_back(x), t.y.push_back(y), t.kit.push_back(kit);
    return true;
}

bool read_sheet(Reader &r, Sheet &s) {
    uint64_t places = 0, budget = 0;
    if (!r.word("sheet=", "1") || !r.number("places=", most_places, places)) return false;
    s.table.x.reserve(places), s.table.y.reserve(places), s.table.kit.reserve(places);
    for (uint64_t p = 0; p < places; p++)
        if (!read_place(r, p, s.table)) return false;
    if (!r.bits("want=", s.want) || !r.number("budget=", UINT32_MAX, budget) || !r.word("end=", "sheet")) return false;
    s.budget = static_cast<uint32_t>(budget);
    r.line++;
    return r.rest.empty() || r.fail(53);
}

// --- the program ---

uint64_t root(uint64_t n) {
    uint64_t r = static_cast<uint64_t>(std::sqrt(static_cast<double>(n)));
    while (r * r > n) r--;
    while ((r + 1) * (r + 1) <= n) r++;
    return r;
}

std::string number_line(const char *key, uint64_t n) { return key + std::to_string(n) + "\n"; }

std::string refusal(const Verdict &v) {
    const char *family = v.code < 11                  ? "query"
                         : v.code < 21                ? "table"
                         : v.code < 31                ? "tree"
                         : v.code < 41                ? "search"
                         : v.code < 51 || v.code > 53 ? "room"
                                                      : "sheet";
    return "answer=refused\n" + number_line("code=", v.code) + "from=" + family + "\n" + number_line("at=", v.at) + "end=answer\n";
}

std::string answer(const Found &f, uint64_t want) {
    if (f.code == 1 || f.code == 2) return refusal({f.code, 0});
    if (f.code == 31) return "answer=none\nsteps=0\nend=answer\n";
    if (f.code == 32) return "answer=spent\n" + number_line("steps=", f.steps) + "end=answer\n";
    std::string out =
        "answer=found\n" + number_line("squared=", f.squared) + number_line("distance=", root(f.squared)) + number_line("steps=", f.steps);
    size_t i = 0;
    for (uint64_t k = 0; k < 64; k++)
        if (want >> k & 1) out += number_line("need=", k) + number_line("place=", f.places[i++]);
    return out + "end=answer\n";
}

} // namespace

Verdict check(const Table &t, const Tree &w) {
    Verdict v = check_table(t);
    if (v.code == 0 && !counts_go(t.places(), w)) v = {21, 0};
    if (v.code == 0) v = check_runs(w);
    if (v.code == 0) v = check_names(t.places(), w);
    if (v.code == 0) v = check_repeats(w);
    if (v.code == 0) v = check_boxes(t, w);
    if (v.code == 0) v = check_kits(t, w);
    return v;
}

Tree build(const Table &t) {
    const std::vector<size_t> sizes = level_sizes(t.places());
    Tree w = with_room(t.places(), sizes);
    lay_runs(w, t.places(), sizes);
    for (size_t n = 1; n < w.nodes; n++) w.entries.push_back(static_cast<uint16_t>(n));
    for (uint64_t word : sorted_words(t)) w.entries.push_back(word & 4095);
    for (size_t n = w.nodes; n-- > 0;) set_values(t, w, n);
    return w;
}

Found search(const Table &t, const Tree &w, uint64_t want, uint32_t allowance, Pairs pairs) {
    Found f;
    const int many = __builtin_popcountll(want);
    f.code = many == 0 ? 1 : many > 8 ? 2 : w.nodes == 0 || (want & ~w.kits[0]) != 0 ? 31 : 0;
    if (f.code != 0) return f;
    return Walk(t, w, want, allowance).run(pairs);
}

Sheet read(std::string_view text) {
    Sheet s;
    Reader r(text);
    if (!read_sheet(r, s)) s.verdict = {r.code, r.line};
    return s;
}

std::string reply(std::string_view text, Pairs pairs) {
    if (text.size() > 65536) return refusal({55, 0});
    const Sheet s = read(text);
    if (s.verdict.code != 0) return refusal(s.verdict);
    return answer(search(s.table, build(s.table), s.want, s.budget, pairs), s.want);
}

} // namespace plain
