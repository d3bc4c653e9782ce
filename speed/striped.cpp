// Transactions on the striped map through boostmap.h, on oneTBB's concurrent_unordered_map boosted by try-locks and an undo log,
// and on RocksDB's TransactionDB, which locks keys and not stripes, without a log on disk; for striped.sh. Each thread makes transactions of four operations: half puts, a quarter takes, a quarter gets, keys drawn
// evenly, two keys in three there at the beginning. A tenth abort. A transaction that finds a stripe held aborts, and is not tried
// again. The callers are joined one after the other, by one thread.
// Usage: striped nothing|apart|commits|entries|calls|run|tbb|rocksdb THREADS KEYS TRANSACTIONS shared|own. With `own` each thread has
// its own stripes; `apart` keeps nothing and has callers far apart. `calls` and `run` make the same transactions on a map that keeps
// nothing, but none aborts: by the calls of its
// operations, and as a whole by boostmap_striped_run.
// Prints the transactions that were not busy a second, in millions, the nanoseconds of processor time of one, and the part that
// was busy. Or: striped audit THREADS KEYS COUNTS, where one more thread counts all pairs so often beside the others' transactions,
// each time in a transaction of its own; prints the part of these that were busy.
#include "boostmap.h"

#include <atomic>
#include <chrono>
#include <cstdint>
#include <cstdio>
#include <cstdlib>
#include <cstring>
#include <ctime>
#include <filesystem>
#include <memory>
#include <string>
#include <thread>
#include <vector>
#if __has_include(<tbb/concurrent_unordered_map.h>)
#include <tbb/concurrent_unordered_map.h>
#define HAS_TBB 1
#endif
#if __has_include(<rocksdb/utilities/transaction_db.h>)
#include <rocksdb/utilities/transaction.h>
#include <rocksdb/utilities/transaction_db.h>
#define HAS_ROCKSDB 1
#endif

using word = std::uint64_t;
constexpr word STRIPES = 4096, NONE = ~word(0);

enum kind { PUT, TAKE, GET };
struct operation { kind what; word key, value; };
struct transaction { operation ops[4]; bool commits; };

// splitmix64 (Steele, Lea and Flood, OOPSLA 2014).
class draws {
    word state_, keys_, thread_, threads_;

    word next() {
        word z = state_ += 0x9e3779b97f4a7c15;
        z = (z ^ z >> 30) * 0xbf58476d1ce4e5b9;
        z = (z ^ z >> 27) * 0x94d049bb133111eb;
        return z ^ z >> 31;
    }
    // If each thread has its own stripes, the key of the thread's part of them.
    word key(word drawn) const {
        if (!threads_) return drawn;
        word each = STRIPES / threads_;
        return drawn / STRIPES * STRIPES + drawn % each + thread_ * each;
    }

public:
    draws(word thread, word keys, word threads) : state_(thread * 7919 + 1), keys_(keys), thread_(thread), threads_(threads) {}
    transaction one() {
        transaction made;
        for (auto &op : made.ops) {
            word z = next(), k = z & 3;
            op = {k < 2 ? PUT : k == 2 ? TAKE : GET, key((z >> 32) % keys_), z >> 20 & 0xfffff};
        }
        made.commits = next() % 10 != 0;
        return made;
    }
};

// Callers of the striped map.
class boosted {
protected:
    std::vector<boostmap_caller> callers_;
    std::vector<std::unique_ptr<char[]>> between_;

public:
    // With `apart` not 0, so many bytes are allocated between two callers.
    boosted(word threads, word, word keep, word apart = 0) : callers_(threads + 1, boostmap_caller BOOSTMAP_INIT) {
        word w;
        boostmap_status status = boostmap_striped_open(&callers_[0], threads + 1, STRIPES, 0, keep, 0, &w);
        for (word i = 1; i <= threads && status == BOOSTMAP_DONE; i++) {
            if (apart) between_.emplace_back(new char[apart]);
            status = boostmap_striped_join(&callers_[0], &callers_[i], &w);
        }
        if (status != BOOSTMAP_DONE) std::exit(3);
    }
    ~boosted() {
        for (auto &caller : callers_) boostmap_striped_free(&caller);
    }
    bool run(word me, const transaction &made, word &sum) {
        boostmap_caller *caller = &callers_[me];
        word w = 0;
        if (boostmap_striped_begin(caller) != BOOSTMAP_DONE) std::exit(3);
        for (const auto &op : made.ops) {
            boostmap_status status = op.what == PUT    ? boostmap_striped_put(caller, op.key, op.value, &w)
                                     : op.what == TAKE ? boostmap_striped_take(caller, op.key, &w)
                                                       : boostmap_striped_get(caller, op.key, &w);
            if (status == BOOSTMAP_BUSY) return false;
            if (status > BOOSTMAP_ABSENT) std::exit(3);
            sum += status == BOOSTMAP_DONE ? w : NONE;
        }
        if (made.commits) boostmap_striped_commit(caller, &w);
        else boostmap_striped_abort(caller);
        return true;
    }
    bool count(word me) {
        word w = 0;
        if (boostmap_striped_begin(&callers_[me]) != BOOSTMAP_DONE) std::exit(3);
        if (boostmap_striped_count(&callers_[me], &w) == BOOSTMAP_BUSY) return false;
        return boostmap_striped_commit(&callers_[me], &w) == BOOSTMAP_DONE;
    }
};

// Callers that lie far apart in memory.
class far_apart : public boosted {
public:
    far_apart(word threads, word keys, word keep) : boosted(threads, keys, keep, 4096) {}
};

// Transactions that all commit.
class by_calls : public boosted {
public:
    using boosted::boosted;
    bool run(word me, transaction made, word &sum) {
        made.commits = true;
        return boosted::run(me, made, sum);
    }
};

class by_run : public boosted {
public:
    using boosted::boosted;
    bool run(word me, const transaction &made, word &sum) {
        static constexpr std::uint32_t operations[] = {BOOSTMAP_PUT, BOOSTMAP_TAKE, BOOSTMAP_GET};
        boostmap_entry asked[4];
        boostmap_reply replies[4];
        word done = 0, w = 0;
        for (int i = 0; i < 4; i++) {
            asked[i].operation = operations[made.ops[i].what];
            asked[i].key = made.ops[i].key;
            asked[i].value = made.ops[i].value;
        }
        boostmap_status status = boostmap_striped_run(&callers_[me], asked, 4, 0, replies, 4, &done, &w);
        if (status != BOOSTMAP_DONE && status != BOOSTMAP_BUSY) std::exit(3);
        for (word i = 0; i < done; i++) sum += replies[i].has ? replies[i].value : NONE;
        return status == BOOSTMAP_DONE;
    }
};

#ifdef HAS_TBB
// A take writes a mark, since this map cannot remove a key while other threads use it.
class tbb_boosted {
    struct value {
        std::atomic<word> now;
        value(word first) : now(first) {}
        value(const value &other) : now(other.now.load()) {}
    };
    tbb::concurrent_unordered_map<word, value> map_;
    std::unique_ptr<std::atomic<word>[]> owners_{new std::atomic<word>[STRIPES]()};

    word swap(word key, word next) {
        auto at = map_.find(key);
        if (at == map_.end()) {
            if (next == NONE) return NONE;
            auto placed = map_.emplace(key, next);
            if (placed.second) return NONE;
            at = placed.first;
        }
        return at->second.now.exchange(next);
    }
    word look(word key) {
        auto at = map_.find(key);
        return at == map_.end() ? NONE : at->second.now.load();
    }

public:
    tbb_boosted(word, word, word) {}
    bool run(word me, const transaction &made, word &sum) {
        struct { word key, before; } log[4];
        word held[4];
        int logged = 0, locks = 0;
        bool done = true;
        for (const auto &op : made.ops) {
            auto &owner = owners_[op.key % STRIPES];
            word seen = owner.load(std::memory_order_relaxed);
            if (seen != me + 1) {
                if (seen || !owner.compare_exchange_strong(seen, me + 1, std::memory_order_acquire)) {
                    done = false;
                    break;
                }
                held[locks++] = op.key % STRIPES;
            }
            word before = op.what == GET ? look(op.key) : swap(op.key, op.what == PUT ? op.value : NONE);
            if (op.what == PUT || (op.what == TAKE && before != NONE)) log[logged++] = {op.key, before};
            sum += before;
        }
        if (!done || !made.commits)
            while (logged--) swap(log[logged].key, log[logged].before);
        while (locks--) owners_[held[locks]].store(0, std::memory_order_release);
        return done;
    }
};
#endif

#ifdef HAS_ROCKSDB
// Each thread keeps its transaction, which the next one uses again.
class rocksdb_locked {
    std::string folder_ = std::filesystem::temp_directory_path() / "striped-XXXXXX";
    std::unique_ptr<rocksdb::TransactionDB> db_;
    std::vector<std::unique_ptr<rocksdb::Transaction>> own_;

    static rocksdb::Slice bytes(const word &number) { return {reinterpret_cast<const char *>(&number), sizeof number}; }

public:
    rocksdb_locked(word threads, word, word) : own_(threads) {
        rocksdb::Options options;
        options.create_if_missing = true;
        rocksdb::TransactionDB *db = nullptr;
        if (!mkdtemp(folder_.data()) || !rocksdb::TransactionDB::Open(options, {}, folder_, &db).ok()) std::exit(3);
        db_.reset(db);
    }
    ~rocksdb_locked() {
        own_.clear();
        db_.reset();
        std::filesystem::remove_all(folder_);
    }
    bool run(word me, const transaction &made, word &sum) {
        rocksdb::WriteOptions unlogged;
        unlogged.disableWAL = true;
        rocksdb::TransactionOptions options;
        options.lock_timeout = 0;
        auto &own = own_[me];
        own.reset(db_->BeginTransaction(unlogged, options, own.release()));
        std::string found;
        for (const auto &op : made.ops) {
            rocksdb::Status status = own->GetForUpdate({}, bytes(op.key), &found);
            if (!status.ok() && !status.IsNotFound()) {
                if (!status.IsBusy() && !status.IsTimedOut()) std::exit(3);
                own->Rollback();
                return false;
            }
            word before = NONE;
            if (status.ok()) std::memcpy(&before, found.data(), sizeof before);
            if (op.what == PUT) status = own->Put(bytes(op.key), bytes(op.value));
            else if (op.what == TAKE && before != NONE) status = own->Delete(bytes(op.key));
            sum += before;
        }
        if (!(made.commits ? own->Commit() : own->Rollback()).ok()) std::exit(3);
        return true;
    }
};
#endif

template <class Map> static void measure(word threads, word keys, word count, bool own, word keep) {
    Map map(threads, keys, keep);
    word filled = 0;
    for (word key = 0; key < keys; key++)
        if (key % 3) map.run(threads, {{{PUT, key, key}, {GET, key, 0}, {GET, key, 0}, {GET, key, 0}}, true}, filled);
    std::atomic<word> ready{0}, busy{0}, sums{0};
    std::atomic<bool> go{false};
    std::vector<std::thread> running;
    for (word me = 0; me < threads; me++)
        running.emplace_back([&, me] {
            draws drawn(me, keys, own ? threads : 0);
            word sum = 0, failed = 0;
            ready++;
            while (!go) std::this_thread::yield();
            for (word i = 0; i < count; i++) failed += !map.run(me, drawn.one(), sum);
            busy += failed;
            sums += sum;
        });
    while (ready < threads) std::this_thread::yield();
    auto began = std::chrono::steady_clock::now();
    std::clock_t used = std::clock();
    go = true;
    for (auto &thread : running) thread.join();
    double seconds = std::chrono::duration<double>(std::chrono::steady_clock::now() - began).count();
    double spent = double(std::clock() - used) / CLOCKS_PER_SEC, all = double(threads * count), done = all - double(busy);
    std::printf("%.4f %.0f %.5f %llu\n", done / seconds / 1e6, spent * 1e9 / done, double(busy) / all, (unsigned long long)sums);
}

static void audit(word threads, word keys, word counts) {
    boosted map(threads, keys, BOOSTMAP_KEEP_NOTHING);
    std::atomic<bool> over{false};
    std::vector<std::thread> running;
    for (word me = 0; me < threads; me++)
        running.emplace_back([&, me] {
            draws drawn(me, keys, 0);
            word sum = 0;
            while (!over) map.run(me, drawn.one(), sum);
        });
    word busy = 0;
    for (word i = 0; i < counts; i++) {
        busy += !map.count(threads);
        std::this_thread::sleep_for(std::chrono::microseconds(100));
    }
    over = true;
    for (auto &thread : running) thread.join();
    std::printf("%.5f\n", double(busy) / double(counts));
}

int main(int argc, char **argv) {
    if (argc == 5 && !std::strcmp(argv[1], "audit")) {
        audit(std::strtoull(argv[2], nullptr, 10), std::strtoull(argv[3], nullptr, 10), std::strtoull(argv[4], nullptr, 10));
        return 0;
    }
    if (argc != 6) return 2;
    word threads = std::strtoull(argv[2], nullptr, 10), keys = std::strtoull(argv[3], nullptr, 10);
    word count = std::strtoull(argv[4], nullptr, 10);
    bool own = !std::strcmp(argv[5], "own");
    if (!std::strcmp(argv[1], "nothing")) measure<boosted>(threads, keys, count, own, BOOSTMAP_KEEP_NOTHING);
    else if (!std::strcmp(argv[1], "commits")) measure<boosted>(threads, keys, count, own, BOOSTMAP_KEEP_COMMITS);
    else if (!std::strcmp(argv[1], "entries")) measure<boosted>(threads, keys, count, own, BOOSTMAP_KEEP_ENTRIES);
    else if (!std::strcmp(argv[1], "apart")) measure<far_apart>(threads, keys, count, own, BOOSTMAP_KEEP_NOTHING);
    else if (!std::strcmp(argv[1], "calls")) measure<by_calls>(threads, keys, count, own, BOOSTMAP_KEEP_NOTHING);
    else if (!std::strcmp(argv[1], "run")) measure<by_run>(threads, keys, count, own, BOOSTMAP_KEEP_NOTHING);
#ifdef HAS_TBB
    else if (!std::strcmp(argv[1], "tbb")) measure<tbb_boosted>(threads, keys, count, own, BOOSTMAP_KEEP_NOTHING);
#endif
#ifdef HAS_ROCKSDB
    else if (!std::strcmp(argv[1], "rocksdb")) measure<rocksdb_locked>(threads, keys, count, own, BOOSTMAP_KEEP_NOTHING);
#endif
    else return 2;
}
