// What a count of all but a thin edge takes at best: nodes and leaves as `kd_trie` and `bucket_versions` lay them out,
// without proofs and versions, over the points of crates/views. Words: how many points, and how many bytes of other
// memory are taken for each eighth point, as a map by id does (0: none). Prints nanoseconds and sums.
//
// The counts: each row of a leaf that the box cuts is tested; only rows between the keys of the corners of the part
// outside are, as `range_query` does; the same without a search for the first of them; halves that are inside or outside
// aren't touched; and the last two together.
#include "common.hpp"

const u64 OF_X = 0xaaaaaaaaaaaaaaaa, OF_Y = OF_X >> 1;
const u64 FULL = 64;  // rows of a leaf

struct Keyed { u64 key, id; };
struct Bucket { u64 shares, base[2], under[3], room; Keyed *rows; u64 len; };
struct Pair;
struct Node { u64 is_inner; void *at; };
struct Pair { u64 shares, weak; Node half[2]; u64 count; };
static Node root;

static u64 spread(u32 number) {
    u64 n = number;
    n = (n | n << 16) & 0x0000ffff0000ffff;
    n = (n | n << 8) & 0x00ff00ff00ff00ff;
    n = (n | n << 4) & 0x0f0f0f0f0f0f0f0f;
    n = (n | n << 2) & 0x3333333333333333;
    return (n | n << 1) & OF_Y;
}
static u64 key(u32 x, u32 y) { return spread(x) << 1 | spread(y); }
static Pair &pair(const Node &n) { return *static_cast<Pair *>(n.at); }
static Bucket &bucket(const Node &n) { return *static_cast<Bucket *>(n.at); }
static u64 number(const Node &n) { return n.is_inner ? pair(n).count : bucket(n).len; }

static Bucket *leaf(const Keyed *rows, u64 len) {
    auto b = static_cast<Bucket *>(calloc(1, sizeof(Bucket)));
    b->rows = static_cast<Keyed *>(malloc(len * sizeof(Keyed) + 1));
    b->room = b->len = len;
    if (len) memcpy(b->rows, rows, len * sizeof(Keyed));
    return b;
}
static void add(Bucket &b, Keyed row) {
    if (b.len == b.room) {
        b.room = b.room ? 2 * b.room : 4;
        b.rows = static_cast<Keyed *>(realloc(b.rows, b.room * sizeof(Keyed)));
    }
    u64 i = std::lower_bound(b.rows, b.rows + b.len, row, [](Keyed a, Keyed b) { return a.key < b.key; }) - b.rows;
    memmove(b.rows + i + 1, b.rows + i, (b.len++ - i) * sizeof(Keyed));
    b.rows[i] = row;
}
static void put(Keyed row) {
    Node *n = &root;
    int left = 64;
    for (; n->is_inner; n = &pair(*n).half[row.key >> left & 1]) { ++pair(*n).count; --left; }
    Bucket &b = bucket(*n);
    add(b, row);
    if (b.len <= FULL || left == 0) return;
    u64 low = 0;
    while (low < b.len && !(b.rows[low].key >> (left - 1) & 1)) ++low;
    auto p = static_cast<Pair *>(calloc(1, sizeof(Pair)));
    *p = {1, 0, {{0, leaf(b.rows, low)}, {0, leaf(b.rows + low, b.len - low)}}, b.len};
    free(b.rows);
    free(&b);
    *n = {1, p};
}

static bool meets(const Box &a, const Box &b) { return a.x <= b.a && b.x <= a.a && a.y <= b.b && b.y <= a.b; }
static bool inside(const Box &a, const Box &b) { return b.x <= a.x && a.a <= b.a && b.y <= a.y && a.b <= b.b; }
static Box half(Box area, int depth, bool bit) {
    u32 &low = depth & 1 ? area.y : area.x, &high = depth & 1 ? area.b : area.a;
    u32 end = low + (high - low) / 2;
    (bit ? low : high) = bit ? end + 1 : end;
    return area;
}

// The rows of a leaf that are in the box, by one comparison each if the box cuts the leaf on one axis only.
static u64 rows_in(const Bucket &b, const Box &area, const Box &w) {
    bool by_x = w.y <= area.y && area.b <= w.b, by_y = w.x <= area.x && area.a <= w.a;
    u64 x = spread(w.x) << 1, a = spread(w.a) << 1, y = spread(w.y), e = spread(w.b), n = 0;
    u64 mask = by_x ? OF_X : OF_Y, first = by_x ? x : y, span = (by_x ? a : e) - first;
    if (by_x || by_y) {
        for (u64 i = 0; i < b.len; ++i) n += (b.rows[i].key & mask) - first <= span;
        return n;
    }
    for (u64 i = 0; i < b.len; ++i) {
        u64 p = b.rows[i].key & OF_X, q = b.rows[i].key & OF_Y;
        n += (x <= p) & (p <= a) & (y <= q) & (q <= e);
    }
    return n;
}
// The same, but rows beyond the greatest or below the least key of a part outside aren't looked at: they are inside.
static u64 rows_by_ends(const Bucket &b, const Box &area, const Box &w) {
    bool by_x = w.y <= area.y && area.b <= w.b, by_y = w.x <= area.x && area.a <= w.a;
    if (!by_x && !by_y) return rows_in(b, area, w);
    u64 mask = by_x ? OF_X : OF_Y, out = 0;
    if (by_x ? w.x > area.x : w.y > area.y) {
        u64 first = by_x ? spread(w.x) << 1 : spread(w.y), end = by_x ? key(w.x - 1, area.b) : key(area.a, w.y - 1);
        for (u64 i = 0; i < b.len && b.rows[i].key <= end; ++i) out += (b.rows[i].key & mask) < first;
    }
    if (by_x ? w.a < area.a : w.b < area.b) {
        u64 last = by_x ? spread(w.a) << 1 : spread(w.b), begin = by_x ? key(w.a + 1, area.y) : key(area.x, w.b + 1);
        for (u64 i = b.len; i-- > 0 && b.rows[i].key >= begin;) out += (b.rows[i].key & mask) > last;
    }
    return b.len - out;
}

// The same, as `range_query` does it: a search finds the first row that may be outside, and the walk goes forward.
static u64 rows_by_rest(const Bucket &b, const Box &area, const Box &w) {
    bool by_x = w.y <= area.y && area.b <= w.b, by_y = w.x <= area.x && area.a <= w.a;
    if (!by_x && !by_y) return rows_in(b, area, w);
    u32 from = by_x ? w.x : w.y, to = by_x ? w.a : w.b, low = by_x ? area.x : area.y, high = by_x ? area.a : area.b;
    Box rest = area;
    if (low < from && high <= to) (by_x ? rest.a : rest.b) = from - 1;
    else if (from <= low && to < high) (by_x ? rest.x : rest.y) = to + 1;
    else return rows_in(b, area, w);
    u64 mask = by_x ? OF_X : OF_Y, begin = key(rest.x, rest.y), end = key(rest.a, rest.b), out = 0;
    u64 first = begin & mask, span = (end & mask) - first, i = 0;
    if (b.len && b.rows[0].key < begin)
        i = std::lower_bound(b.rows, b.rows + b.len, begin, [](Keyed r, u64 k) { return r.key < k; }) - b.rows;
    for (; i < b.len && b.rows[i].key <= end; ++i) out += (b.rows[i].key & mask) - first <= span;
    return b.len - out;
}

enum Rows { EACH, BY_ENDS, BY_REST };
template <Rows ROWS> static u64 leaf_in(const Node &n, const Box &area, const Box &w) {
    if (ROWS == BY_REST) return rows_by_rest(bucket(n), area, w);
    return ROWS == BY_ENDS ? rows_by_ends(bucket(n), area, w) : rows_in(bucket(n), area, w);
}
template <Rows ROWS> static u64 count(const Node &n, int depth, const Box &area, const Box &w) {
    if (!meets(area, w)) return 0;
    if (inside(area, w)) return number(n);
    if (!n.is_inner) return leaf_in<ROWS>(n, area, w);
    u64 low = count<ROWS>(pair(n).half[0], depth + 1, half(area, depth, 0), w);
    return low + count<ROWS>(pair(n).half[1], depth + 1, half(area, depth, 1), w);
}
// For a node that the box cuts. Of a half that it doesn't cut, the number is the pair's less the other half's.
template <Rows ROWS> static u64 count_cut(const Node &n, int depth, const Box &area, const Box &w) {
    if (!n.is_inner) return leaf_in<ROWS>(n, area, w);
    u64 sum = 0, rest = pair(n).count;
    bool is_rest_in = false, is_rest_out = false;
    for (int bit = 0; bit < 2; ++bit) {
        const Node &kid = pair(n).half[bit];
        Box part = half(area, depth, bit);
        if (inside(part, w)) is_rest_in = true;
        else if (!meets(part, w)) is_rest_out = true;
        else { sum += count_cut<ROWS>(kid, depth + 1, part, w); rest -= number(kid); }
    }
    if (is_rest_in && is_rest_out) return sum + number(pair(n).half[inside(half(area, depth, 1), w)]);
    return is_rest_in ? sum + rest : sum;
}
static u64 scan(const Node &n) {
    if (n.is_inner) return scan(pair(n).half[0]) + scan(pair(n).half[1]);
    u64 sum = 0;
    for (u64 i = 0; i < bucket(n).len; ++i) sum += bucket(n).rows[i].id;
    return sum;
}

template <class F> static void measure(const char *what, u64 times, u64 each, F query) {
    u64 best = ~u64(0), sum = 0;
    for (int turn = 0; turn < 5; ++turn) {
        u64 t = now();
        for (u64 n = 0; n < times; ++n) { sum = query(); asm volatile("" ::: "memory"); }
        best = std::min(best, now() - t);
    }
    printf("%s %.1f ns, sum %lu\n", what, double(best) / double(times * each), sum);
}

int main(int argc, char **argv) {
    u64 points = argc > 1 ? strtoull(argv[1], nullptr, 10) : 65536, other = argc > 2 ? strtoull(argv[2], nullptr, 10) : 400;
    root = {0, leaf(nullptr, 0)};
    for (u64 id = 0; id < points; ++id) {
        u64 mixed = id * 0x9e3779b97f4a7c15;
        mixed = (mixed ^ (mixed >> 30)) * 0xbf58476d1ce4e5b9;
        mixed = (mixed ^ (mixed >> 27)) * 0x94d049bb133111eb;
        mixed ^= mixed >> 31;
        put({key(u32(mixed >> 32), u32(mixed)), id});
        if (other && id % 8 == 0) memset(malloc(other), 1, other);
    }
    const u32 top = 0xffffffffu;
    const Box all = {0, 0, top, top}, inner = {1, 1, top - 1, top - 1};
    measure("scan, a row", 10, points, [&] { return scan(root); });
    measure("count, each row", 1000, 1, [&] { return count<EACH>(root, 0, all, inner); });
    measure("count, the rest", 1000, 1, [&] { return count<BY_REST>(root, 0, all, inner); });
    measure("count, ends", 1000, 1, [&] { return count<BY_ENDS>(root, 0, all, inner); });
    measure("count, cut halves", 1000, 1, [&] { return count_cut<EACH>(root, 0, all, inner); });
    measure("count, cut halves and ends", 1000, 1, [&] { return count_cut<BY_ENDS>(root, 0, all, inner); });
    return 0;
}
