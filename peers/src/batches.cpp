// Atomic batches: how many changes a second a store makes if each transaction has so many and is synced.
// Words: PEER FOLDER SIZE THREADS SECONDS [CHANGES]. The program creates the folder. The peers:
//   rocksdb  one WriteBatch with sync a batch; threads write at the same time
//   lmdb     one write transaction a batch, with LMDB's default flags; its own lock takes one writer at a time
//   sqlite   one transaction a batch, WAL, synchronous=FULL; each thread has a connection, and a lock takes one writer at a time
//   bare     no store: the device calls of a batch alone, as this project's log makes them; a lock takes one batch at a time
// 65,536 puts come first, in batches of 4,096; their time doesn't count. Then each thread moves its own objects, SIZE a batch,
// until SECONDS are over or all threads together have made CHANGES. A store keeps an object by id, with its position and its
// moment, and on (Z-order key, id). A move reads the old position and moment from the store, removes the old key and adds the new one.
// The program prints `changes N nanos T`, and how many changes each thread made. If the peer is a store, it also prints a sum over
// all objects, which it reads from the store at the end.
#include "zcurve.hpp"
#include <fcntl.h>
#include <latch>
#include <lmdb.h>
#include <memory>
#include <mutex>
#include <rocksdb/db.h>
#include <rocksdb/write_batch.h>
#include <sqlite3.h>
#include <sys/stat.h>

static void wrong(const char *who, const char *what) { fprintf(stderr, "%s: %s\n", who, what); exit(7); }

// ---- the work
struct Object { u64 id; Point at; };
const u64 OBJECTS = 65536, LOADED = 4096;
const u64 MOST_CHANGES = (1 << 24) - OBJECTS;  // for which this project's log has room
const u64 STRIDE = 40503;  // odd, so that a thread's k * STRIDE are all of its objects, since these are a power of two

static u64 mixed(u64 number) {  // splitmix64
    u64 m = number * 0x9e3779b97f4a7c15;
    m = (m ^ (m >> 30)) * 0xbf58476d1ce4e5b9;
    m = (m ^ (m >> 27)) * 0x94d049bb133111eb;
    return m ^ (m >> 31);
}
static Point point(u64 number, u64 moment) { u64 m = mixed(number); return {u32(m >> 32), u32(m), moment}; }

static Object first(u64 id) { return {id, point(id, 0)}; }

// The k-th change of a thread, from 0. If the threads took turns, it would be the n-th of all: it moves to the point that OBJECTS + n
// determines, with moment n + 1. A thread moves all of its objects once before it moves one again, so a batch has each id once. Its
// ids are of all parts of the table by id, however many threads there are.
static Object change(u64 threads, u64 thread, u64 k) {
    u64 own = OBJECTS / threads, n = k * threads + thread;
    return {k * STRIDE % own * threads + thread, point(OBJECTS + n, n + 1)};
}

static u64 sum_of(u64 id, const Point &p) { return mixed(mixed(mixed(~id) ^ (u64(p.x) << 32 | p.y)) ^ p.moment); }

// ---- the peers
// A Writer belongs to one thread: begin(), then put(object) or move(object), then commit(). A store has find(id, point), and
// keys(f), which calls f(key, id) for each of its keys.
static u64 big(u64 v) { return __builtin_bswap64(v); }
struct Key { u64 z, id; };  // big-endian
static Key key(const Object &o) { return {big(zkey(o.at.x, o.at.y)), big(o.id)}; }

struct Rocks {
    static constexpr const char *NAME = "rocksdb";
    std::unique_ptr<rocksdb::DB> db;
    static void must(const rocksdb::Status &s) { if (!s.ok()) wrong(NAME, s.ToString().c_str()); }
    Rocks(const std::string &folder) {
        rocksdb::Options o;
        o.create_if_missing = true;
        o.compression = rocksdb::kNoCompression;
        rocksdb::DB *d;
        must(rocksdb::DB::Open(o, folder, &d));
        db.reset(d);
    }
    static std::string idk(u64 id) { u64 b = big(id); return std::string("i").append((char *)&b, 8); }
    static std::string zk(const Object &o) { Key k = key(o); return std::string("z").append((char *)&k, 16); }
    bool find(u64 id, Point &q) {
        std::string v;
        auto s = db->Get(rocksdb::ReadOptions(), idk(id), &v);
        if (s.IsNotFound()) return false;
        must(s);
        memcpy(&q, v.data(), sizeof q);
        return true;
    }
    template <class F> void keys(F f) {
        std::unique_ptr<rocksdb::Iterator> it(db->NewIterator(rocksdb::ReadOptions()));
        for (it->Seek("z"); it->Valid() && it->key()[0] == 'z'; it->Next()) {
            Key k;
            memcpy(&k, it->key().data() + 1, 16);
            f(big(k.z), big(k.id));
        }
        must(it->status());
    }
    struct Writer {
        Rocks &in;
        rocksdb::WriteBatch batch;
        rocksdb::WriteOptions sync;
        Writer(Rocks &in) : in(in) { sync.sync = true; }
        void begin() { batch.Clear(); }
        void put(const Object &o) {
            batch.Put(idk(o.id), rocksdb::Slice((char *)&o.at, sizeof o.at));
            batch.Put(zk(o), "");
        }
        void move(const Object &o) {  // a batch has each id once, so the store has its old position
            Point old;
            if (!in.find(o.id, old) || late(o.at, old)) wrong(NAME, "a move is lost");
            batch.Delete(zk({o.id, old}));
            put(o);
        }
        void commit() { must(in.db->Write(sync, &batch)); }
    };
};

struct Lm {
    static constexpr const char *NAME = "lmdb";
    MDB_env *env;
    MDB_dbi ids, rows;
    static void must(int rc) { if (rc) wrong(NAME, mdb_strerror(rc)); }
    Lm(const std::string &folder) {
        must(mdb_env_create(&env));
        must(mdb_env_set_mapsize(env, 1ull << 30));
        must(mdb_env_set_maxdbs(env, 2));
        must(mdb_env_open(env, folder.c_str(), 0, 0600));
        MDB_txn *t;
        must(mdb_txn_begin(env, nullptr, 0, &t));
        must(mdb_dbi_open(t, "ids", MDB_CREATE | MDB_INTEGERKEY, &ids));
        must(mdb_dbi_open(t, "rows", MDB_CREATE, &rows));
        must(mdb_txn_commit(t));
    }
    ~Lm() { mdb_env_close(env); }
    bool get(MDB_txn *t, u64 id, Point &q) {
        MDB_val k{8, &id}, d;
        int rc = mdb_get(t, ids, &k, &d);
        if (rc == MDB_NOTFOUND) return false;
        must(rc);
        memcpy(&q, d.mv_data, sizeof q);
        return true;
    }
    MDB_txn *look() { MDB_txn *t; must(mdb_txn_begin(env, nullptr, MDB_RDONLY, &t)); return t; }
    bool find(u64 id, Point &q) {
        MDB_txn *t = look();
        bool ok = get(t, id, q);
        mdb_txn_abort(t);
        return ok;
    }
    template <class F> void keys(F f) {
        MDB_txn *t = look();
        MDB_cursor *cur;
        MDB_val k, d;
        std::vector<Key> all;
        must(mdb_cursor_open(t, rows, &cur));
        while (!mdb_cursor_get(cur, &k, &d, MDB_NEXT)) { all.emplace_back(); memcpy(&all.back(), k.mv_data, 16); }
        mdb_cursor_close(cur);
        mdb_txn_abort(t);  // a thread reads in one transaction at a time
        for (auto &e : all) f(big(e.z), big(e.id));
    }
    struct Writer {
        Lm &in;
        MDB_txn *t = nullptr;
        Writer(Lm &in) : in(in) {}
        void begin() { must(mdb_txn_begin(in.env, nullptr, 0, &t)); }
        void put(Object o) {
            Key z = key(o);
            MDB_val k{8, &o.id}, d{sizeof o.at, &o.at}, zk{16, &z}, none{0, nullptr};
            must(mdb_put(t, in.ids, &k, &d, 0));
            must(mdb_put(t, in.rows, &zk, &none, 0));
        }
        void move(const Object &o) {
            Point old;
            if (!in.get(t, o.id, old) || late(o.at, old)) wrong(NAME, "a move is lost");
            Key z = key({o.id, old});
            MDB_val zk{16, &z};
            must(mdb_del(t, in.rows, &zk, nullptr));
            put(o);
        }
        void commit() { must(mdb_txn_commit(t)); }
    };
};

// The position is kept as its Z-order key. Each entry of the index has the key and the id. SQLite changes the index with the row.
struct Lite {
    static constexpr const char *NAME = "sqlite";
    std::string path;
    std::mutex one;
    struct Connection {
        sqlite3 *db;
        std::vector<sqlite3_stmt *> made;
        Connection(const std::string &path) {
            must(sqlite3_open_v2(path.c_str(), &db, SQLITE_OPEN_READWRITE | SQLITE_OPEN_CREATE | SQLITE_OPEN_NOMUTEX, nullptr));
            sqlite3_busy_timeout(db, 60000);
            sql("pragma journal_mode=wal; pragma synchronous=full;");
        }
        ~Connection() { for (auto s : made) sqlite3_finalize(s); sqlite3_close(db); }
        int must(int rc) {
            if (rc != SQLITE_OK && rc != SQLITE_DONE && rc != SQLITE_ROW) wrong(NAME, sqlite3_errmsg(db));
            return rc;
        }
        void sql(const char *s) { must(sqlite3_exec(db, s, nullptr, nullptr, nullptr)); }
        sqlite3_stmt *prep(const char *s) {
            made.push_back(nullptr);
            must(sqlite3_prepare_v3(db, s, -1, SQLITE_PREPARE_PERSISTENT, &made.back(), nullptr));
            return made.back();
        }
        void run(sqlite3_stmt *s) { must(sqlite3_step(s)); must(sqlite3_reset(s)); }
    };
    std::unique_ptr<Connection> own;
    sqlite3_stmt *get;
    static sqlite3_int64 in(u64 z) { return sqlite3_int64(z ^ 1ull << 63); }  // in the same order
    static u64 back(sqlite3_int64 v) { return u64(v) ^ 1ull << 63; }
    Lite(const std::string &folder) : path(folder + "/sqlite"), own(new Connection(path)) {
        own->sql("create table p(id integer primary key, z integer, moment integer); create index k on p(z)");
        get = own->prep("select z,moment from p where id=?1");
    }
    bool find(u64 id, Point &q) {
        sqlite3_bind_int64(get, 1, sqlite3_int64(id));
        bool there = own->must(sqlite3_step(get)) == SQLITE_ROW;
        if (there) { q = zpoint(back(sqlite3_column_int64(get, 0))); q.moment = u64(sqlite3_column_int64(get, 1)); }
        sqlite3_reset(get);
        return there;
    }
    template <class F> void keys(F f) {
        sqlite3_stmt *all = own->prep("select z,id from p indexed by k order by z");
        while (own->must(sqlite3_step(all)) == SQLITE_ROW) f(back(sqlite3_column_int64(all, 0)), u64(sqlite3_column_int64(all, 1)));
    }
    struct Writer {
        Lite &in;
        Connection c;
        sqlite3_stmt *add, *mv, *open, *close;
        Writer(Lite &in) : in(in), c(in.path) {
            add = c.prep("insert into p(id,z,moment) values(?1,?2,?3)");
            mv = c.prep("update p set z=?2,moment=?3 where id=?1 and moment<=?3");
            open = c.prep("begin immediate");
            close = c.prep("commit");
        }
        void set(sqlite3_stmt *s, const Object &o) {
            sqlite3_bind_int64(s, 1, sqlite3_int64(o.id));
            sqlite3_bind_int64(s, 2, Lite::in(zkey(o.at.x, o.at.y)));
            sqlite3_bind_int64(s, 3, sqlite3_int64(o.at.moment));
            c.run(s);
        }
        void begin() { in.one.lock(); c.run(open); }
        void put(const Object &o) { set(add, o); }
        void move(const Object &o) { set(mv, o); if (sqlite3_changes(c.db) != 1) wrong(NAME, "a move is lost"); }
        void commit() { c.run(close); in.one.unlock(); }
    };
};

// As long a file as the log of docs/FORMATS.md, which has 32 bytes a change and a commit byte, and its calls for a batch: seek, write,
// sync, twice. A thread writes the same bytes in each batch, so it makes them once.
struct Bare {
    static constexpr const char *NAME = "bare";
    std::mutex one;
    int fd;
    u64 records = 0;
    static void must(bool good) { if (!good) wrong(NAME, strerror(errno)); }
    Bare(const std::string &folder) {
        fd = open((folder + "/log").c_str(), O_RDWR | O_CREAT, 0600);
        must(fd >= 0);
        write_at("MDLOCLOG\2\1\0\0\0\0\0\0", 17, 0);
        must(!fdatasync(fd));
    }
    void write_at(const char *bytes, size_t n, u64 at) {
        must(lseek(fd, off_t(at), SEEK_SET) == off_t(at));
        must(write(fd, bytes, n) == ssize_t(n));
    }
    struct Writer {
        Bare &in;
        std::vector<char> text;
        u64 many = 0;
        Writer(Bare &in) : in(in) {}
        void begin() { many = 0; }
        void put(const Object &) { ++many; }
        void move(const Object &) { ++many; }
        void commit() {
            std::lock_guard<std::mutex> g(in.one);
            u64 at = 16 + 32 * in.records;
            if (text.size() != 32 * many) text.assign(32 * many, 1);
            in.write_at(text.data(), text.size(), at + 1);
            must(!fdatasync(in.fd));
            in.write_at("\1", 1, at);
            must(!fdatasync(in.fd));
            in.records += many;
        }
    };
};

// ---- a run
struct Asked { std::string folder; u64 size, threads; double seconds; u64 changes; };

template <class Peer> static void load(Peer &peer) {
    typename Peer::Writer w(peer);
    for (u64 id = 0; id < OBJECTS; id += LOADED) {
        w.begin();
        for (u64 i = id; i < id + LOADED; ++i) w.put(first(i));
        w.commit();
    }
}

// The changes of one thread, and from when to when it made them.
struct Made { u64 changes = 0, begun = 0, ended = 0; };

template <class Peer> static void work(Peer &peer, const Asked &asked, u64 thread, std::latch &ready, Made &made) {
    typename Peer::Writer w(peer);
    std::vector<Object> batch(asked.size);
    u64 k = 0, most = asked.changes / asked.threads, nanos = u64(asked.seconds * 1e9), t = 0;
    ready.arrive_and_wait();
    made.begun = t = now();
    while (k + asked.size <= most && t - made.begun < nanos) {
        for (auto &o : batch) o = change(asked.threads, thread, k++);
        w.begin();
        for (auto &o : batch) w.move(o);
        w.commit();
        t = now();
    }
    made.changes = k;
    made.ended = t;
}

template <class Peer> static std::vector<Made> work_all(Peer &peer, const Asked &asked) {
    std::vector<Made> made(asked.threads);
    std::vector<std::thread> threads;
    std::latch ready(asked.threads);
    for (u64 i = 0; i < asked.threads; ++i) threads.emplace_back([&, i] { work(peer, asked, i, ready, made[i]); });
    for (auto &t : threads) t.join();
    return made;
}

static void print(const std::vector<Made> &made) {
    Made all = made[0];
    for (size_t i = 1; i < made.size(); ++i) {
        all.changes += made[i].changes;
        all.begun = std::min(all.begun, made[i].begun);
        all.ended = std::max(all.ended, made[i].ended);
    }
    printf("changes %lu nanos %lu\nmade", all.changes, all.ended - all.begun);
    for (auto &m : made) printf(" %lu", m.changes);
    printf("\n");
}

// Each key must be of the position that its object has by id, and there must be one for each object.
template <class Peer> static u64 sum(Peer &peer) {
    u64 sum = 0, n = 0;
    peer.keys([&](u64 z, u64 id) {
        Point p, q = zpoint(z);
        if (!peer.find(id, p) || p.x != q.x || p.y != q.y) wrong(Peer::NAME, "a key without its object");
        sum += sum_of(id, p);
        ++n;
    });
    if (n != OBJECTS) wrong(Peer::NAME, "the number of keys");
    return sum;
}

template <class Peer> static int run(const Asked &asked) {
    Peer peer(asked.folder);
    load(peer);
    print(work_all(peer, asked));
    if constexpr (!std::is_same_v<Peer, Bare>) printf("sum %lu\n", sum(peer));
    return 0;
}

int main(int argc, char **argv) {
    if (argc < 6) return 2;
    const std::string name = argv[1];
    Asked a{argv[2], strtoull(argv[3], nullptr, 10), strtoull(argv[4], nullptr, 10), atof(argv[5]), MOST_CHANGES};
    if (argc > 6) a.changes = strtoull(argv[6], nullptr, 10);
    if (!a.threads || OBJECTS % a.threads || !a.size || a.size > OBJECTS / a.threads) wrong("batches", "threads and size");
    if (mkdir(a.folder.c_str(), 0700)) wrong("batches", strerror(errno));
    if (name == Rocks::NAME) return run<Rocks>(a);
    if (name == Lm::NAME) return run<Lm>(a);
    if (name == Lite::NAME) return run<Lite>(a);
    if (name == Bare::NAME) return run<Bare>(a);
    return 2;
}
