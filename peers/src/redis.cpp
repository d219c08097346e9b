// Redis GEO over 127.0.0.1. Words: PORT, and how many rows are sent ahead (1: each is answered before the next).
// APPROXIMATE: coordinates become degrees within half a degree round (0, 0), by the bounding box of the input's points; GEO keeps
// 26 bits of 360 degrees an axis, measures on a sphere, and breaks no ties by id. Redis has no nearest k: a script doubles the
// radius of GEOSEARCH until k are in it, from one that the client learns from the answers before.
// A put asks GEOPOS and GEOADD NX, a drop GEOPOS and ZREM, each pair in one go, not as a transaction. Moments are in a hash by id, as 20
// digits: read by HGET beside each GEOPOS, written by HSETNX and HDEL. A move is a script, which compares them, since rows are sent ahead.
#include "common.hpp"
#include <cmath>
#include <hiredis/hiredis.h>
#include <memory>
static const char *const SCRIPT =
    "local n = redis.call('ZCARD', KEYS[1])\n"
    "if n == 0 then return {ARGV[4], {}} end\n"
    "local want = math.min(tonumber(ARGV[3]), n)\n"
    "local r = tonumber(ARGV[4])\n"
    "while true do\n"
    "  local v = redis.call('GEOSEARCH', KEYS[1], 'FROMLONLAT', ARGV[1], ARGV[2], 'BYRADIUS', r, 'm', 'ASC', 'COUNT', ARGV[3], 'WITHCOORD')\n"
    "  if #v >= want or r > 400000 then return {tostring(r), v} end\n"
    "  r = r * 2\n"
    "end\n";
static const char *const MOVE_SCRIPT =  // the old position and moment; nothing is changed where the moment is past the new one
    "local p, m = redis.call('GEOPOS', KEYS[1], ARGV[1])[1], redis.call('HGET', KEYS[2], ARGV[1])\n"
    "if p and m <= ARGV[4] then\n"
    "  redis.call('GEOADD', KEYS[1], 'XX', ARGV[2], ARGV[3], ARGV[1])\n"
    "  redis.call('HSET', KEYS[2], ARGV[1], ARGV[4])\n"
    "end\n"
    "return {p, m}\n";
static const double METRES = 6372797.560856 * M_PI / 180;  // a degree, by Redis's radius
struct Scale {
    double mx = 0, my = 0, s = 1;
    void fit(const std::vector<Row> &rows) {
        double x0 = 1e18, x1 = -1, y0 = 1e18, y1 = -1;
        for (auto &r : rows) {
            if (r.op != PUT && r.op != MOVE) continue;
            x0 = std::min(x0, double(r.x)); x1 = std::max(x1, double(r.x));
            y0 = std::min(y0, double(r.y)); y1 = std::max(y1, double(r.y));
        }
        if (x1 < 0) return;
        mx = (x0 + x1) / 2; my = (y0 + y1) / 2;
        s = std::max(1.0, std::max(x1 - x0, y1 - y0));
    }
    double lon(double x) const { return std::max(-60.0, std::min(60.0, (x - mx) / s)); }
    double lat(double y) const { return std::max(-60.0, std::min(60.0, (y - my) / s)); }
    static u32 whole(double v) { return u32(std::max(0.0, std::min(4294967295.0, std::round(v)))); }
    Point back(double lon, double lat) const { return {whole(lon * s + mx), whole(lat * s + my), 0}; }
};
struct Red : InOrder {
    typedef std::unique_ptr<redisReply, void (*)(void *)> Reply;
    redisContext *c;
    std::string sha, move_sha;
    size_t window, sent = 0;
    double guess = 1000;  // metres for a root of k
    Scale scale;
    Red(int port, size_t window) : window(window) {
        c = redisConnect("127.0.0.1", port);
        if (!c || c->err) { fprintf(stderr, "redis: %s\n", c ? c->errstr : "memory"); exit(7); }
        sha = loaded(SCRIPT);
        move_sha = loaded(MOVE_SCRIPT);
    }
    std::string loaded(const char *script) {
        say({"SCRIPT", "LOAD", script});
        return next()->str;
    }
    Reply next() {
        void *r = nullptr;
        if (redisGetReply(c, &r) != REDIS_OK || ((redisReply *)r)->type == REDIS_REPLY_ERROR) {
            fprintf(stderr, "redis: %s\n", r ? ((redisReply *)r)->str : c->errstr);
            exit(7);
        }
        return Reply((redisReply *)r, freeReplyObject);
    }
    static std::string num(double v) { char t[40]; snprintf(t, sizeof t, "%.10f", v); return t; }
    static std::string digits(u64 moment) { char t[24]; snprintf(t, sizeof t, "%020lu", moment); return t; }
    void say(std::initializer_list<std::string> w) {
        const char *a[16];
        size_t l[16], n = 0;
        for (auto &s : w) { a[n] = s.data(); l[n++] = s.size(); }
        redisAppendCommandArgv(c, int(n), a, l);
    }
    void ask(const Row &r) {
        std::string id = std::to_string(r.id);
        if (r.op == PUT || r.op == DROP || r.op == WHERE) { say({"GEOPOS", "g", id}); say({"HGET", "m", id}); }
        switch (r.op) {
            case PUT:
                say({"HSETNX", "m", id, digits(r.moment)});
                say({"GEOADD", "g", "NX", num(scale.lon(r.x)), num(scale.lat(r.y)), id});
                break;
            case MOVE:
                say({"EVALSHA", move_sha, "2", "g", "m", id, num(scale.lon(r.x)), num(scale.lat(r.y)), digits(r.moment)});
                break;
            case DROP: say({"HDEL", "m", id}); say({"ZREM", "g", id}); break;
            case WHERE: break;
            case BOX: {
                double x0 = scale.lon(r.x - 0.5), x1 = scale.lon(r.a + 0.5), y0 = scale.lat(r.y - 0.5), y1 = scale.lat(r.b + 0.5);
                say({"GEOSEARCH", "g", "FROMLONLAT", num((x0 + x1) / 2), num((y0 + y1) / 2), "BYBOX",
                     num((x1 - x0) * METRES), num((y1 - y0) * METRES), "m", "WITHCOORD"});
                break;
            }
            case NEAR:
                say({"EVALSHA", sha, "1", "g", num(scale.lon(r.x)), num(scale.lat(r.y)), std::to_string(r.a), num(guess * std::sqrt(r.a))});
                break;
        }
    }
    void upcoming(const std::vector<Row> &rows, size_t i) {
        if (i == 0) scale.fit(rows);
        if (i < sent) return;
        for (; sent < rows.size() && sent < i + window; ++sent) ask(rows[sent]);
    }
    Point at(const redisReply *p) { return scale.back(atof(p->element[0]->str), atof(p->element[1]->str)); }
    bool kept(const redisReply *place, const redisReply *moment, Point &q) {
        if (place->type != REDIS_REPLY_ARRAY) return false;
        q = at(place);
        q.moment = strtoull(moment->str, nullptr, 10);
        return true;
    }
    bool find(u64, Point &q) {
        auto places = next(), moment = next();
        return kept(places->element[0], moment.get(), q);
    }
    bool change(Point &q) {
        bool there = find(0, q);
        next();
        next();
        return there;
    }
    bool put(u64, Point, Point &q) { return !change(q); }
    bool move(u64, Point, Point &q) {
        auto r = next();
        return kept(r->element[0], r->element[1], q);
    }
    bool drop(u64, Point &q) { return change(q); }
    u64 points(const redisReply *r, std::vector<Placed> &v) {
        for (size_t i = 0; i < std::min<size_t>(r->elements, MOST); ++i) {
            redisReply *e = r->element[i];
            Point q = at(e->element[1]);
            v.push_back({strtoull(e->element[0]->str, nullptr, 10), q.x, q.y});
        }
        return r->elements;
    }
    u64 box(const Box &, std::vector<Placed> &v) { return points(next().get(), v); }
    void near(u32, u32, u32 k, std::vector<Placed> &v) {
        auto r = next();
        double used = atof(r->element[0]->str) / std::sqrt(k);
        guess = std::min(1e5, used > guess * 1.01 ? guess * 1.1 : guess * 0.8);  // rather too small
        points(r->element[1], v);
    }
};
int main(int argc, char **argv) {
    u64 t0 = now();
    if (argc < 3) return 2;
    Red r(atoi(argv[1]), size_t(atoi(argv[2])));
    return drive(r, t0);
}
