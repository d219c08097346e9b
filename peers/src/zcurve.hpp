// Z-order keys and what an ordered store on (key, id) needs for boxes and nearest points.
#pragma once
#include "common.hpp"
inline u64 spread(u32 v) {
    u64 x = v;
    x = (x | x << 16) & 0x0000ffff0000ffffu;
    x = (x | x << 8) & 0x00ff00ff00ff00ffu;
    x = (x | x << 4) & 0x0f0f0f0f0f0f0f0fu;
    x = (x | x << 2) & 0x3333333333333333u;
    return (x | x << 1) & 0x5555555555555555u;
}
inline u32 gather(u64 x) {
    x &= 0x5555555555555555u;
    x = (x | x >> 1) & 0x3333333333333333u;
    x = (x | x >> 2) & 0x0f0f0f0f0f0f0f0fu;
    x = (x | x >> 4) & 0x00ff00ff00ff00ffu;
    x = (x | x >> 8) & 0x0000ffff0000ffffu;
    return u32(x | x >> 16);
}
inline u64 zkey(u32 x, u32 y) { return spread(x) << 1 | spread(y); }
inline Point zpoint(u64 z) { return {gather(z >> 1), gather(z), 0}; }

struct Range { u64 lo, hi; };
// Boxes as key ranges: from the common prefix of the corners, prefixes that miss the box are
// left out, prefixes inside it are kept, the others are halved, until there are `most` of them.
// Neighbours are joined. What a kept prefix has outside the box is filtered by the caller.
inline void decompose(const Box &w, size_t most, std::vector<Range> &out) {
    struct Cell { u64 lo; int len; bool in; };
    static thread_local std::vector<Cell> cur, nxt;
    u64 a = zkey(w.x, w.y), b = zkey(w.a, w.b);
    int len = a == b ? 64 : __builtin_clzll(a ^ b);
    auto top = [](u64 lo, int l) { return l >= 64 ? lo : lo | (~0ull >> l); };
    cur.clear();
    cur.push_back({len ? a & ~(len >= 64 ? 0 : ~0ull >> len) : 0, len, false});
    for (bool more = true; more && cur.size() < most;) {
        more = false;
        nxt.clear();
        for (auto &c : cur) {
            if (c.in || c.len >= 64) { nxt.push_back(c); continue; }
            for (int bit = 0; bit < 2; ++bit) {
                u64 lo = c.lo | (u64(bit) << (63 - c.len));
                Point p = zpoint(lo), q = zpoint(top(lo, c.len + 1));
                if (p.x > w.a || p.y > w.b || q.x < w.x || q.y < w.y) continue;
                bool in = p.x >= w.x && p.y >= w.y && q.x <= w.a && q.y <= w.b;
                nxt.push_back({lo, c.len + 1, in});
                if (!in) more = true;
            }
        }
        cur.swap(nxt);
    }
    out.clear();
    for (auto &c : cur) {
        u64 hi = top(c.lo, c.len);
        if (!out.empty() && out.back().hi + 1 == c.lo) out.back().hi = hi;
        else out.push_back({c.lo, hi});
    }
    out.front().lo = std::max(out.front().lo, a);
    out.back().hi = std::min(out.back().hi, b);
}
// S has scan(lo, hi, f), ahead(key, n, f) and behind(key, n, f), f taking a Placed.
#ifndef RANGES
#define RANGES 8
#endif
template <class S, class F> void z_inside(S &s, const Box &w, F f) {
    static thread_local std::vector<Range> ranges;
    decompose(w, RANGES, ranges);
    for (auto &r : ranges) s.scan(r.lo, r.hi, [&](const Placed &p) { if (has(w, p.x, p.y)) f(p); });
}
template <class S> u64 z_box(S &s, const Box &w, std::vector<Placed> &v) {
    u64 n = 0;
    s.inside(w, [&](const Placed &p) { if (n++ < MOST) v.push_back(p); });
    return n;
}
// The k rows on either side of the point's key give a radius that holds k points; the box of that
// radius holds the answer.
template <class S> void z_near(S &s, u32 x, u32 y, u32 k, std::vector<Placed> &v) {
    u64 z = zkey(x, y);
    auto add = [&](const Placed &p) { v.push_back(p); };
    s.ahead(z, k, add);
    s.behind(z, k, add);
    rank(v, x, y, k);
    if (v.size() < k) return;  // both sides ended: all there are
    Box w = around(x, y, root_above(dist2(x, y, v.back().x, v.back().y)));
    v.clear();
    s.inside(w, add);
    rank(v, x, y, k);
}
