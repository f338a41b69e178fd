// Longhorbi beside plain C++: both sides must agree on every case; then their CPU time is measured, and tables are printed.
#include <pthread.h>
#include <time.h>

#include <algorithm>
#include <cmath>
#include <cstdio>
#include <cstdlib>
#include <cstring>
#include <functional>

#include "library.h"

using plain::Found;
using plain::Pairs;
using plain::Table;
using plain::Tree;
using plain::Verdict;

namespace {

constexpr uint32_t allowance = 200000;
const size_t sizes[] = {30, 1000, 4096};
const unsigned kind_counts[] = {16, 64};
const size_t wants[] = {1, 2, 3, 5, 8};
enum class Shape { uniform, clustered, corners };
const Shape shapes[] = {Shape::uniform, Shape::clustered, Shape::corners};
const char *const shape_names[] = {"uniform", "clustered", "corners"};

size_t agreed = 0;

void agree(bool same, const char *what) {
    if (!same) {
        std::printf("bench: the two sides DISAGREE: %s\n", what);
        std::exit(1);
    }
    agreed++;
}

// --- the generator ---

class Random {
  public:
    explicit Random(uint64_t seed) : state(seed) {}
    uint64_t next() {
        uint64_t z = state += 0x9e3779b97f4a7c15;
        z = (z ^ z >> 30) * 0xbf58476d1ce4e5b9;
        z = (z ^ z >> 27) * 0x94d049bb133111eb;
        return z ^ z >> 31;
    }
    uint64_t below(uint64_t n) { return next() % n; }
    int32_t between(int32_t lo, int32_t hi) { return lo + static_cast<int32_t>(below(static_cast<uint64_t>(hi - lo) + 1)); }

  private:
    uint64_t state;
};

int32_t clamped(int64_t z) { return static_cast<int32_t>(std::clamp<int64_t>(z, -1000000, 1000000)); }

void add(Table &t, int64_t x, int64_t y, uint64_t kit) { t.x.push_back(clamped(x)), t.y.push_back(clamped(y)), t.kit.push_back(kit); }

uint64_t some_kinds(Random &r, unsigned kinds) {
    uint64_t kit = 0;
    for (uint64_t k = 1 + r.below(3); k > 0; k--) kit |= uint64_t{1} << r.below(kinds);
    return kit;
}

// uniform: anywhere; clustered: around twelve centres; corners: one kind each, and each kind in one of the four corners.
Table make_table(Random &r, Shape shape, size_t places, unsigned kinds) {
    Table t;
    int32_t cx[12], cy[12];
    for (size_t c = 0; c < 12; c++) cx[c] = r.between(-900000, 900000), cy[c] = r.between(-900000, 900000);
    for (size_t p = 0; p < places; p++) {
        const uint64_t kind = p % kinds, c = r.below(12);
        const int32_t near_x = r.between(-30000, 30000), near_y = r.between(-30000, 30000);
        if (shape == Shape::uniform) add(t, r.between(-1000000, 1000000), r.between(-1000000, 1000000), some_kinds(r, kinds));
        else if (shape == Shape::clustered) add(t, cx[c] + near_x, cy[c] + near_y, some_kinds(r, kinds));
        else add(t, (kind & 1 ? 900000 : -900000) + near_x, (kind & 2 ? 900000 : -900000) + near_y, uint64_t{1} << kind);
    }
    return t;
}

// A want of m kinds that some place holds.
uint64_t make_want(Random &r, uint64_t held, size_t m) {
    uint64_t want = 0;
    while (static_cast<size_t>(__builtin_popcountll(want)) < m) want |= (uint64_t{1} << r.below(64)) & held;
    return want;
}

// --- the clock ---

double cpu_ns() {
    timespec t;
    clock_gettime(CLOCK_PROCESS_CPUTIME_ID, &t);
    return static_cast<double>(t.tv_sec) * 1e9 + static_cast<double>(t.tv_nsec);
}

// The CPU time of a call: as many calls as fill two milliseconds.
double time_of(const std::function<void()> &call) {
    for (size_t calls = 1;; calls *= 2) {
        const double from = cpu_ns();
        for (size_t i = 0; i < calls; i++) call();
        const double took = cpu_ns() - from;
        if (took >= 2e6) return took / static_cast<double>(calls);
    }
}

// The least of fifteen rounds for each call, the calls taking turns.
std::vector<double> times(const std::vector<std::function<void()>> &calls) {
    std::vector<double> least(calls.size(), HUGE_VAL);
    for (int round = 0; round < 15; round++)
        for (size_t i = 0; i < calls.size(); i++) least[i] = std::min(least[i], time_of(calls[i]));
    return least;
}

volatile uint64_t sink;

// --- 1: the search ---

struct Ratios {
    double worst = 0, logs = 0, n = 0;
    void add(double r) { worst = std::max(worst, r), logs += std::log(r), n++; }
    double mean() const { return std::exp(logs / n); }
};

struct SearchTimes {
    double steps, library, tested, measured, kept, check_share;
    bool spent;
};

// Times per step. The library's search checks the tree first: the time of the check alone is taken off.
SearchTimes time_search(const Table &t, const Tree &w, uint64_t want) {
    const Found f = library::search(t, w, want, allowance);
    for (Pairs pairs : {Pairs::tested, Pairs::measured, Pairs::kept}) agree(f == plain::search(t, w, want, allowance, pairs), "the search");
    const auto ns = times({[&] { sink = library::search(t, w, want, allowance).squared; }, [&] { sink = library::check(t, w).code; },
                           [&] { sink = plain::search(t, w, want, allowance, Pairs::tested).squared; },
                           [&] { sink = plain::search(t, w, want, allowance, Pairs::measured).squared; },
                           [&] { sink = plain::search(t, w, want, allowance, Pairs::kept).squared; }});
    const double steps = f.steps;
    return {steps, (ns[0] - ns[1]) / steps, ns[2] / steps, ns[3] / steps, ns[4] / steps, ns[1] / ns[0], f.code == 32};
}

// The columns that all tables of walks end with.
const char *const walk_columns = " steps | Longhorbi | tested | measured | kept | to tested | to measured | to kept |";

void print_walk(const SearchTimes &s) {
    std::printf(" %.0f%s | %.1f | %.1f | %.1f | %.1f | %.2f | %.2f | %.2f |", s.steps, s.spent ? " (spent)" : "", s.library, s.tested,
                s.measured, s.kept, s.library / s.tested, s.library / s.measured, s.library / s.kept);
}

// The ratios to the three walks in C++, over several walks.
struct WalkRatios {
    Ratios tested, measured, kept;
    void add(const SearchTimes &s) { tested.add(s.library / s.tested), measured.add(s.library / s.measured), kept.add(s.library / s.kept); }
};

void print_summary(const std::vector<WalkRatios> &by_m) {
    std::printf(
        "\nBy number of kinds, over the walks of which the check is at most nine tenths: the geometric mean of the ratios, and the worst.\n\n");
    std::printf("| m | walks | to tested | worst | to measured | worst | to kept | worst |\n|---|---|---|---|---|---|---|---|\n");
    for (size_t i = 0; i < by_m.size(); i++) {
        if (by_m[i].tested.n == 0) continue;
        std::printf("| %zu | %.0f |", wants[i], by_m[i].tested.n);
        for (const Ratios *r : {&by_m[i].tested, &by_m[i].measured, &by_m[i].kept}) std::printf(" %.2f | %.2f |", r->mean(), r->worst);
        std::printf("\n");
    }
}

struct Case {
    size_t places;
    unsigned kinds;
    Shape shape;
    Table table;
    Tree tree;
};

// The ratios that have targets.
struct Targets {
    std::vector<WalkRatios> by_m = std::vector<WalkRatios>(std::size(wants));
    Ratios check, build, program;
};

void bench_search(Random &r, const std::vector<Case> &cases, Targets &to) {
    std::printf("\n## The search\n\nThe same walk, ns per step, against three walks in C++: `tested` tests all pairs of each candidate and "
                "leaves at the first that is too far apart; "
                "`measured` takes the largest distance of all pairs; `kept` tests only the pairs of the new member, and measures the "
                "others once for each opened member. The library's "
                "search checks the tree first: the time of its check alone is taken off, and the last column says how much of the whole "
                "that was (where it is most, the numbers "
                "are rough). Allowance %u.\n\n",
                allowance);
    std::printf("| places | kinds | shape | m |%s check |\n|---|---|---|---|---|---|---|---|---|---|---|---|---|\n", walk_columns);
    for (const Case &c : cases)
        for (size_t i = 0; i < std::size(wants); i++) {
            const SearchTimes s = time_search(c.table, c.tree, make_want(r, c.tree.kits[0], wants[i]));
            std::printf("| %zu | %u | %s | %zu |", c.places, c.kinds, shape_names[static_cast<int>(c.shape)], wants[i]);
            print_walk(s);
            std::printf(" %.0f%% |\n", 100 * s.check_share);
            if (s.check_share <= 0.9) to.by_m[i].add(s);
        }
    print_summary(to.by_m);
}

// --- 2, 3, 4: check, builder, reader ---

bool same_tree(const Tree &a, const Tree &b) {
    const auto starts = [](const auto &longer, const auto &v) {
        return longer.size() >= v.size() && std::equal(v.begin(), v.end(), longer.begin());
    };
    return a.nodes == b.nodes && a.listed == b.listed && starts(a.level, b.level) && starts(a.start, b.start) && starts(a.count, b.count) &&
           starts(a.x_lo, b.x_lo) && starts(a.x_hi, b.x_hi) && starts(a.y_lo, b.y_lo) && starts(a.y_hi, b.y_hi) && starts(a.kits, b.kits) &&
           starts(a.entries, b.entries);
}

Table full_columns() {
    Table t;
    t.x.resize(LONGHORBI_MOST_PLACES), t.y.resize(LONGHORBI_MOST_PLACES), t.kit.resize(LONGHORBI_MOST_PLACES);
    return t;
}

void agree_on_reading(const std::string &text, Table &into) {
    const plain::Sheet s = plain::read(text);
    const library::Read l = library::read(text, into);
    agree(l.verdict == s.verdict, "the reader's verdict");
    if (s.verdict.code != 0) return;
    const auto starts = [](const auto &longer, const auto &v) { return std::equal(v.begin(), v.end(), longer.begin()); };
    agree(l.places == s.table.places() && l.want == s.want && l.budget == s.budget && starts(into.x, s.table.x) &&
              starts(into.y, s.table.y) && starts(into.kit, s.table.kit),
          "what was read");
}

// Tables of one kind, with their trees and sheets: calls go round them, so that no side learns one by heart.
struct Batch {
    std::vector<Table> tables;
    std::vector<Tree> trees;
    std::vector<std::string> texts;
    size_t turn = 0;
    size_t next() { return turn = (turn + 1) % tables.size(); }
};

Batch make_batch(Random &r, const Case &c, Tree &room, Table &into) {
    Batch b;
    for (int i = 0; i < 16; i++) {
        const Table t = make_table(r, c.shape, c.places, c.kinds);
        library::build(t, room);
        b.tables.push_back(t), b.trees.push_back(plain::build(t)), b.texts.push_back(library::write(t, 1, allowance));
        agree(same_tree(room, b.trees.back()), "the built tree");
        agree(plain::check(t, b.trees.back()).code == 0 && library::check(t, b.trees.back()).code == 0, "the check");
        agree_on_reading(b.texts.back(), into);
    }
    return b;
}

void bench_parts(Random &r, const std::vector<Case> &cases, Targets &to) {
    std::printf("\n## Check, builder, reader\n\nMicroseconds of a call, going round sixteen tables. The check: all rules, on a good tree. "
                "The builder: against `std::sort` by the same key. "
                "The reader: a good sheet.\n\n");
    std::printf("| places | kinds | shape | check | C++ | ratio | build | C++ | ratio | read | C++ | ratio "
                "|\n|---|---|---|---|---|---|---|---|---|---|---|---|\n");
    Table into = full_columns();
    Tree room = library::room();
    for (const Case &c : cases) {
        Batch b = make_batch(r, c, room, into);
        const auto ns =
            times({[&] {
                       const size_t i = b.next();
                       sink = library::check(b.tables[i], b.trees[i]).code;
                   },
                   [&] {
                       const size_t i = b.next();
                       sink = plain::check(b.tables[i], b.trees[i]).code;
                   },
                   [&] {
                       library::build(b.tables[b.next()], room);
                       sink = room.kits[0];
                   },
                   [&] { sink = plain::build(b.tables[b.next()]).kits[0]; }, [&] { sink = library::read(b.texts[b.next()], into).places; },
                   [&] { sink = plain::read(b.texts[b.next()]).table.places(); }});
        std::printf("| %zu | %u | %s", c.places, c.kinds, shape_names[static_cast<int>(c.shape)]);
        for (size_t i = 0; i < ns.size(); i += 2) std::printf(" | %.2f | %.2f | %.2f", ns[i] / 1e3, ns[i + 1] / 1e3, ns[i] / ns[i + 1]);
        std::printf(" |\n");
        if (c.places == LONGHORBI_MOST_PLACES) to.check.add(ns[0] / ns[1]);
        to.build.add(ns[2] / ns[3]);
    }
}

// --- the whole program ---

// The largest sheet of a table's first places that is not over 65,536 bytes.
std::string full_sheet(const Table &t, uint64_t want, uint32_t budget) {
    size_t low = 0, high = t.places() + 1;
    const auto sheet = [&](size_t n) {
        Table part{{t.x.begin(), t.x.begin() + static_cast<ptrdiff_t>(n)},
                   {t.y.begin(), t.y.begin() + static_cast<ptrdiff_t>(n)},
                   {t.kit.begin(), t.kit.begin() + static_cast<ptrdiff_t>(n)}};
        return library::write(part, want, budget);
    };
    while (low + 1 < high) {
        const size_t mid = (low + high) / 2;
        (sheet(mid).size() <= 65536 ? low : high) = mid;
    }
    return sheet(low);
}

void bench_whole(Random &r, Targets &to) {
    std::printf("\n## The program\n\nFrom the bytes of a full sheet to the bytes of the answer (`longhorbi_reply`), without starting a "
                "process; microseconds of a call. C++: its reader, builder, walk "
                "and printing.\n\n| bytes | places | m | budget | answer | Longhorbi | C++, tested | C++, kept | to tested | to kept "
                "|\n|---|---|---|---|---|---|---|---|---|---|\n");
    const Table t = make_table(r, Shape::uniform, 2000, 64);
    for (uint32_t budget : {0u, 2000u, allowance})
        for (size_t m : wants) {
            const std::string text = full_sheet(t, make_want(r, UINT64_MAX, m), budget);
            const std::string said = library::reply(text);
            agree(said == plain::reply(text, Pairs::tested) && said == plain::reply(text, Pairs::kept), "the reply");
            const auto ns = times({[&] { sink = library::reply(text).size(); }, [&] { sink = plain::reply(text, Pairs::tested).size(); },
                                   [&] { sink = plain::reply(text, Pairs::kept).size(); }});
            std::printf("| %zu | %zu | %zu | %u | %s | %.1f | %.1f | %.1f | %.2f | %.2f |\n", text.size(), plain::read(text).table.places(),
                        m, budget, said.substr(7, said.find('\n') - 7).c_str(), ns[0] / 1e3, ns[1] / 1e3, ns[2] / 1e3, ns[0] / ns[1],
                        ns[0] / ns[2]);
            to.program.add(ns[0] / ns[1]);
        }
}

// --- the targets ---

void print_target(const char *what, double target, const Ratios &r, bool by_worst) {
    const double is = by_worst ? r.worst : r.mean();
    std::printf("| %s | %.1f | %.2f | %.2f | %s |\n", what, target, r.mean(), r.worst, is <= target ? "met" : "NOT met");
}

void print_targets(const Targets &to) {
    std::printf("\n## The targets\n\n'Plain C++, all pairs tested for each candidate' is read as `tested`. A target of the walk is held against "
                "the geometric mean over the walks of its m, the others against the worst ratio.\n\n"
                "| | target | mean | worst | |\n|---|---|---|---|---|\n");
    for (size_t i = 0; i < std::size(wants); i++)
        print_target(("per step, m = " + std::to_string(wants[i])).c_str(), wants[i] == 8 ? 0.7 : 1.0, to.by_m[i].tested, false);
    print_target("check of a good tree of 4,096 places", 3.0, to.check, true);
    print_target("builder", 1.5, to.build, true);
    print_target("program on a full sheet", 1.5, to.program, true);
}

// --- damaged trees and sheets: both sides must refuse alike ---

void damage(Random &r, Tree &w) {
    const size_t n = r.below(w.nodes), i = r.below(w.listed);
    switch (r.below(9)) {
    case 0: w.level[n] = static_cast<uint8_t>(r.below(8)); break;
    case 1: w.count[n] = static_cast<uint8_t>(r.below(18)); break;
    case 2: w.start[n] = static_cast<uint16_t>(w.start[n] + r.below(3)); break;
    case 3: w.entries[i] = static_cast<uint16_t>(r.below(w.listed)); break;
    case 4: w.entries[i] = w.entries[r.below(w.listed)]; break;
    case 5: (r.below(2) ? w.x_lo : w.x_hi)[n]++; break;
    case 6: (r.below(2) ? w.y_lo : w.y_hi)[n]--; break;
    case 7: w.kits[n] ^= uint64_t{1} << r.below(64); break;
    default: (r.below(2) ? w.nodes : w.listed)++; break;
    }
}

void try_damaged(Random &r) {
    const Table t = make_table(r, Shape::uniform, 300, 16);
    const std::string text = library::write(make_table(r, Shape::clustered, 4, 16), 3, 7);
    Table into = full_columns();
    for (int i = 0; i < 3000; i++) {
        Tree w = plain::build(t);
        damage(r, w);
        if (r.below(2)) w.kits[0] ^= 1;
        agree(library::check(t, w) == plain::check(t, w), "the check of a damaged tree");
        std::string s = text;
        s[r.below(s.size())] = "0129af=-\n x"[r.below(11)];
        if (r.below(8) == 0) s.resize(r.below(s.size() + 1));
        if (r.below(8) == 0) s += '\n';
        agree_on_reading(s, into);
        agree(library::reply(s) == plain::reply(s, Pairs::tested), "the reply to a damaged sheet");
    }
}

// --- the depth limit ---

// A foreign tree: a chain of five nodes with runs of one above a leaf, so that a walk goes through all six levels of each member.
Tree chain_above(const Table &t) {
    Tree w;
    const size_t p = t.places();
    w.nodes = 6, w.listed = p + 5;
    for (size_t n = 0; n < 6; n++) {
        w.level.push_back(static_cast<uint8_t>(6 - n)), w.start.push_back(static_cast<uint16_t>(n)),
            w.count.push_back(n < 5 ? 1 : static_cast<uint8_t>(p));
        w.x_lo.push_back(*std::min_element(t.x.begin(), t.x.end())), w.x_hi.push_back(*std::max_element(t.x.begin(), t.x.end()));
        w.y_lo.push_back(*std::min_element(t.y.begin(), t.y.end())), w.y_hi.push_back(*std::max_element(t.y.begin(), t.y.end()));
        w.kits.push_back(0);
        for (uint64_t kit : t.kit) w.kits[n] |= kit;
        if (n < 5) w.entries.push_back(static_cast<uint16_t>(n + 1));
    }
    for (size_t i = 0; i < p; i++) w.entries.push_back(static_cast<uint16_t>(i));
    return w;
}

// How many bytes of stack a call uses: a thread runs it on a painted stack; what an empty thread uses is taken off.
size_t touched(const std::function<void()> &call) {
    constexpr size_t room = 1 << 20;
    void *stack = std::aligned_alloc(4096, room);
    std::memset(stack, 0xa5, room);
    pthread_attr_t attr;
    pthread_attr_init(&attr);
    pthread_attr_setstack(&attr, stack, room);
    pthread_t thread;
    const auto start = [](void *f) -> void * {
        (*static_cast<const std::function<void()> *>(f))();
        return nullptr;
    };
    agree(pthread_create(&thread, &attr, start, const_cast<std::function<void()> *>(&call)) == 0, "the thread");
    pthread_join(thread, nullptr);
    const uint8_t *low = static_cast<uint8_t *>(stack), *p = low;
    while (p < low + room && *p == 0xa5) p++;
    const size_t used = room - static_cast<size_t>(p - low);
    std::free(stack);
    return used;
}

void show_stack(const char *what, const std::function<void()> &call) {
    call();
    const size_t empty = touched([] {});
    std::printf("- %s: %zu bytes of stack\n", what, touched(call) - empty);
}

// A leaf of which each of 8 kinds has so many holders: 1, 2, 4 or 8.
Table few_holders(Random &r, size_t holders) {
    Table t = make_table(r, Shape::uniform, holders == 1 ? 8 : 16, 1);
    for (size_t p = 0; p < t.places(); p++) {
        t.kit[p] = 1 << p % 8;
        if (holders >= 4) t.kit[p] |= 1 << (p + 3) % 8;
        if (holders >= 8) t.kit[p] |= 1 << (p + 1) % 8 | 1 << (p + 6) % 8;
    }
    return t;
}

void bench_depth(Random &r) {
    std::printf("\n## The depth limit\n\nA foreign tree of six levels, five nodes with runs of one above a leaf, and a want of 8 kinds: a "
                "group is 48 replacements deep. All agree; ns per step.\n\n");
    std::printf("| holders of a kind |%s\n|---|---|---|---|---|---|---|---|---|\n", walk_columns);
    for (size_t holders : {1, 2, 4, 8}) {
        const Table t = few_holders(r, holders);
        std::printf("| %zu |", holders);
        print_walk(time_search(t, chain_above(t), 0xff));
        std::printf("\n");
    }
    std::printf("\n");
    const Table t = few_holders(r, 8);
    const Tree w = chain_above(t);
    const std::string text = full_sheet(make_table(r, Shape::uniform, 2000, 64), 0xff, allowance);
    show_stack("`longhorbi_search` at that depth", [&] { sink = library::search(t, w, 0xff, allowance).squared; });
    show_stack("the `tested` walk in C++ at that depth", [&] { sink = plain::search(t, w, 0xff, allowance, Pairs::tested).squared; });
    show_stack("`longhorbi_reply` on a full sheet, m = 8", [&] { sink = library::reply(text).size(); });
}

std::vector<Case> make_cases(Random &r) {
    std::vector<Case> cases;
    for (size_t places : sizes)
        for (unsigned kinds : kind_counts)
            for (Shape shape : shapes) {
                Table t = make_table(r, shape, places, kinds);
                Tree w = plain::build(t);
                cases.push_back({places, kinds, shape, std::move(t), std::move(w)});
            }
    return cases;
}

} // namespace

int main() {
    Random r(20250131);
    const std::vector<Case> cases = make_cases(r);
    try_damaged(r);
    Targets to;
    bench_search(r, cases, to);
    bench_parts(r, cases, to);
    bench_whole(r, to);
    bench_depth(r);
    print_targets(to);
    std::printf("\nThe two sides agreed on all of %zu comparisons.\n", agreed);
    return 0;
}
