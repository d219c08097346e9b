// Boost.Geometry's R*-tree and the trie in plain C++ over the same random points: browses, nears, visits of all and
// counts. crates/views makes the same points and queries. Words: how many points, and `quick` to leave out the browses
// of the R*-tree over all points, which take long. Prints nanoseconds and sums.
#define BUCKET 64
#include "rtree.hpp"
#include "trie.hpp"
typedef bgi::rtree<Tree::V, SPLIT> Index;

// The point that a number determines (splitmix64).
static Point point(u64 number) {
    u64 mixed = number * 0x9e3779b97f4a7c15;
    mixed = (mixed ^ (mixed >> 30)) * 0xbf58476d1ce4e5b9;
    mixed = (mixed ^ (mixed >> 27)) * 0x94d049bb133111eb;
    mixed ^= mixed >> 31;
    return {u32(mixed >> 32), u32(mixed), 0};
}

static u64 steps(u64 k) { return std::max<u64>(20000 / std::max<u64>(k / 8, 1), 1); }

// Runs a query so many times, and prints its time and the sum of what it returned.
template <class F> static void measure(const char *what, u64 k, u64 times, u64 each, F query) {
    u64 sum = 0, t = now();
    for (u64 n = 0; n < times; ++n) sum += query(n);
    t = now() - t;
    printf("%s %lu %.1f ns, sum %lu\n", what, k, double(t) / double(times * each), sum);
    fflush(stdout);
}

static u64 browse(const Index &tree, Point p, u64 k) {
    u64 sum = 0;
    auto it = tree.qbegin(bgi::nearest(Tree::P(p.x, p.y), unsigned(tree.size())));
    for (u64 n = 0; n < k && it != tree.qend(); ++n, ++it) sum += it->second;
    return sum;
}

static u64 nearest(const Index &tree, Point p, u64 k) {
    u64 sum = 0;
    tree.query(bgi::nearest(Tree::P(p.x, p.y), unsigned(k)),
               boost::make_function_output_iterator([&](const Tree::V &e) { sum += e.second; }));
    return sum;
}

// The tree has no count of its own: it meets each point.
static u64 count(const Index &tree, const Box &b) {
    u64 n = 0;
    tree.query(bgi::intersects(bg::model::box<Tree::P>(Tree::P(b.x, b.y), Tree::P(b.a, b.b))),
               boost::make_function_output_iterator([&](const Tree::V &) { ++n; }));
    return n;
}

static u64 visit(const Index &tree) {
    u64 sum = 0;
    for (auto &e : tree) sum += e.second;
    return sum;
}

// The same with the number of points known to the tree when the iterator begins.
static u64 browse_known(const Index &tree, Point p, u64 k) {
    u64 sum = 0;
    for (auto it = tree.qbegin(bgi::nearest(Tree::P(p.x, p.y), unsigned(k))); it != tree.qend(); ++it) sum += it->second;
    return sum;
}

static u64 browse(const Trie &trie, Point p, u64 k) {
    u64 sum = 0;
    Trie::Browse all(trie, p.x, p.y);
    Placed one;
    for (u64 n = 0; n < k && all.next(one); ++n) sum += one.id;
    return sum;
}

static u64 nearest(const Trie &trie, Point p, u64 k) {
    u64 sum = 0;
    std::vector<Placed> found;
    trie.near(p.x, p.y, u32(k), found);
    for (auto &one : found) sum += one.id;
    return sum;
}

// Leaves inside the box are counted without a look at their points. There are no counts of larger subtrees.
static u64 count(const Trie &trie, u32 n, const Box &g, int depth, const Box &w) {
    if (g.x > w.a || g.y > w.b || g.a < w.x || g.b < w.y) return 0;
    if (u32 kid = trie.nodes[n].kid)
        return count(trie, kid, Trie::half(g, depth, 0), depth + 1, w) + count(trie, kid + 1, Trie::half(g, depth, 1), depth + 1, w);
    auto &rows = trie.nodes[n].rows;
    if (w.x <= g.x && g.a <= w.a && w.y <= g.y && g.b <= w.b) return rows.size();
    u64 sum = 0;
    for (auto &p : rows) sum += has(w, p.x, p.y);
    return sum;
}

// A bare scan of the rows, leaf by leaf.
static u64 visit(const Trie &trie, u32 n) {
    if (u32 kid = trie.nodes[n].kid) return visit(trie, kid) + visit(trie, kid + 1);
    u64 sum = 0;
    for (auto &p : trie.nodes[n].rows) sum += p.id;
    return sum;
}

int main(int argc, char **argv) {
    u64 points = argc > 1 ? strtoull(argv[1], nullptr, 10) : 65536;
    bool quick = argc > 2 && !strcmp(argv[2], "quick");
    const u32 top = 0xffffffffu;
    const Box all = {0, 0, top, top}, inner = {1, 1, top - 1, top - 1};
    Index tree;
    Trie trie;
    for (u64 id = 0; id < points; ++id) {
        Point p = point(id), q;
        tree.insert(Tree::value(id, p));
        trie.put(id, p, q);
    }
    measure("trie count", points, 200, 1, [&](u64) { return count(trie, 0, all, 0, inner); });
    measure("trie visit", points, 10, points, [&](u64) { return visit(trie, 0); });
    measure("R*-tree count", points, 20, 1, [&](u64) { return count(tree, inner); });
    measure("R*-tree visit", points, 10, points, [&](u64) { return visit(tree); });
    for (u64 k : {8, 64, 2048}) {
        measure("trie nearest", k, steps(k), 1, [&](u64 n) { return nearest(trie, point(~n), k); });
        measure("trie browse", k, steps(k), 1, [&](u64 n) { return browse(trie, point(~n), k); });
        measure("R*-tree nearest", k, steps(k), 1, [&](u64 n) { return nearest(tree, point(~n), k); });
        measure("R*-tree browse of k", k, steps(k), 1, [&](u64 n) { return browse_known(tree, point(~n), k); });
        if (quick) continue;
        measure("R*-tree browse of all", k, std::max<u64>(steps(k) / 1000, 5), 1, [&](u64 n) { return browse(tree, point(~n), k); });
    }
    return 0;
}
