// The same transactions over the library and over std::unordered_map with an undo log, for
// speed/c.sh. Usage: c_map WHICH KEYS TRANSACTIONS [THREADS], where WHICH is
//   map, twin          one caller, over the map of one owner, and over a map without stripes
//   striped, stripes   each thread a caller, over the striped map, and over a map and a mutex a stripe
//   bench              one caller of 1,024 stripes, with the draws of `bench striped 1 KEYS TRANSACTIONS`
//   crossing, refusal  calls that do next to nothing: of boostmap_count, and of a begin that is refused
// A transaction is four operations, half of them puts, a quarter takes and a quarter gets, and every
// tenth aborts; one that finds a stripe held aborts and is run again. Each thread has its own keys,
// so that replies do not depend on the turns; the threads share stripes. It prints nanoseconds of
// processor time a transaction or call, and the sum of all replies.
#include "boostmap.h"

#include <atomic>
#include <cstdio>
#include <cstdlib>
#include <cstring>
#include <ctime>
#include <memory>
#include <mutex>
#include <optional>
#include <thread>
#include <unordered_map>
#include <utility>
#include <vector>

using word = std::uint64_t;

constexpr word STRIPES = 4096;

// A stripe was held by another.
struct is_busy {};

class library {
    boostmap map_ = BOOSTMAP_INIT;

public:
    library() { ok(boostmap_new(&map_, 1, STRIPES, 65536)); }
    ~library() { boostmap_free(&map_); }
    void prepare(word key) { ok(boostmap_help(&map_, 0, key)); }
    void begin() { word w; ok(boostmap_begin(&map_, 0, &w)); }
    void commit() { word w; ok(boostmap_commit(&map_, 0, &w)); }
    void abort() { word w; ok(boostmap_abort(&map_, 0, &w)); }
    word get(word key) { word w = 0; ok(boostmap_get(&map_, 0, key, &w)); return w; }
    word take(word key) { word w = 0; ok(boostmap_take(&map_, 0, key, &w)); return w; }
    word put(word key, word value) { word w = 0; ok(boostmap_put(&map_, 0, key, value, &w)); return w; }
    word count() { word w = 0; ok(boostmap_count(&map_, &w)); return w; }

private:
    static void ok(boostmap_status status) {
        if (status > BOOSTMAP_ABSENT) std::exit(3);
    }
};

// No stripes and no history: a map, and what each change of the transaction replaced.
class twin {
    std::unordered_map<word, word> map_;
    std::vector<std::pair<word, std::optional<word>>> undo_;

public:
    void prepare(word) { map_.reserve(65536); }
    void begin() { undo_.clear(); }
    void commit() { undo_.clear(); }
    void abort() {
        for (; !undo_.empty(); undo_.pop_back()) {
            auto [key, before] = undo_.back();
            if (before) map_[key] = *before;
            else map_.erase(key);
        }
    }
    word get(word key) {
        auto found = map_.find(key);
        return found == map_.end() ? 0 : found->second;
    }
    word take(word key) {
        auto found = map_.find(key);
        if (found == map_.end()) return 0;
        word had = found->second;
        undo_.emplace_back(key, had);
        map_.erase(found);
        return had;
    }
    word put(word key, word value) {
        auto [place, is_new] = map_.try_emplace(key, value);
        if (is_new) {
            undo_.emplace_back(key, std::nullopt);
            return 0;
        }
        undo_.emplace_back(key, place->second);
        return std::exchange(place->second, value);
    }
};

// A caller of the striped map.
class striped {
    boostmap_caller caller_ = BOOSTMAP_INIT;

public:
    static std::vector<std::unique_ptr<striped>> open(word threads, word stripes = STRIPES) {
        std::vector<std::unique_ptr<striped>> all;
        word w;
        for (word i = 0; i < threads; i++) {
            all.push_back(std::make_unique<striped>());
            all[0]->ok(i ? boostmap_striped_join(&all[0]->caller_, &all[i]->caller_, &w)
                         : boostmap_striped_open(&all[0]->caller_, threads, stripes, 0, BOOSTMAP_KEEP_NOTHING, 0, &w));
        }
        return all;
    }
    ~striped() { boostmap_striped_free(&caller_); }
    void begin() { ok(boostmap_striped_begin(&caller_)); }
    void commit() { word w; ok(boostmap_striped_commit(&caller_, &w)); }
    void abort() { ok(boostmap_striped_abort(&caller_)); }
    word get(word key) { word w = 0; ok(boostmap_striped_get(&caller_, key, &w)); return w; }
    word take(word key) { word w = 0; ok(boostmap_striped_take(&caller_, key, &w)); return w; }
    word put(word key, word value) { word w = 0; ok(boostmap_striped_put(&caller_, key, value, &w)); return w; }
    word refused() { return boostmap_striped_begin(&caller_); }

private:
    // As in Rattle, one test of the answer says whether the call was done.
    static void ok(boostmap_status status) {
        if (status > BOOSTMAP_ABSENT) stopped(status);
    }
    [[noreturn]] static void stopped(boostmap_status status) {
        if (status == BOOSTMAP_BUSY) throw is_busy();
        std::exit(3);
    }
};

// A caller of a map and a mutex a stripe: it keeps what it locked and what each change replaced to the
// end of the transaction. No savepoints, and no place but a count of commits.
class stripes {
    struct alignas(64) stripe {
        std::mutex lock;
        std::unordered_map<word, word> map;
    };
    struct shared {
        std::vector<stripe> stripes = std::vector<stripe>(STRIPES);
        std::atomic<word> commits = 0;
    };
    struct change {
        stripe *at;
        word key;
        std::optional<word> before;
    };
    std::shared_ptr<shared> shared_;
    std::vector<stripe *> held_;
    std::vector<change> undo_;

public:
    static std::vector<std::unique_ptr<stripes>> open(word threads) {
        auto all_stripes = std::make_shared<shared>();
        std::vector<std::unique_ptr<stripes>> all;
        for (word i = 0; i < threads; i++) {
            all.push_back(std::make_unique<stripes>());
            all[i]->shared_ = all_stripes;
        }
        return all;
    }
    void begin() {}
    void commit() {
        shared_->commits++;
        end();
    }
    void abort() {
        for (; !undo_.empty(); undo_.pop_back()) {
            auto &[at, key, before] = undo_.back();
            if (before) at->map[key] = *before;
            else at->map.erase(key);
        }
        end();
    }
    word get(word key) {
        auto &map = take_stripe(key).map;
        auto found = map.find(key);
        return found == map.end() ? 0 : found->second;
    }
    word take(word key) {
        auto &stripe = take_stripe(key);
        auto found = stripe.map.find(key);
        if (found == stripe.map.end()) return 0;
        word had = found->second;
        undo_.push_back({&stripe, key, had});
        stripe.map.erase(found);
        return had;
    }
    word put(word key, word value) {
        auto &stripe = take_stripe(key);
        auto [place, is_new] = stripe.map.try_emplace(key, value);
        undo_.push_back({&stripe, key, is_new ? std::nullopt : std::optional(place->second)});
        return is_new ? 0 : std::exchange(place->second, value);
    }

private:
    stripe &take_stripe(word key) {
        auto &stripe = shared_->stripes[key % STRIPES];
        for (auto *held : held_)
            if (held == &stripe) return stripe;
        if (!stripe.lock.try_lock()) {
            abort();
            throw is_busy();
        }
        held_.push_back(&stripe);
        return stripe;
    }
    void end() {
        for (auto *held : held_) held->lock.unlock();
        held_.clear();
        undo_.clear();
    }
};

static word drawn(word &seed) {
    seed = seed * 6364136223846793005u + 1442695040888963407u;
    return seed >> 33;
}

static double nanoseconds() {
    timespec now;
    clock_gettime(CLOCK_PROCESS_CPUTIME_ID, &now);
    return 1e9 * static_cast<double>(now.tv_sec) + static_cast<double>(now.tv_nsec);
}

static void print(double began, word count, word sum) {
    std::printf("%.1f %llu\n", (nanoseconds() - began) / static_cast<double>(count),
                static_cast<unsigned long long>(sum));
}

// Four operations, and the end; the sum of the replies.
template <class Map> static word transaction(Map &map, word &seed, word first_key, word keys) {
    word sum = 0;
    map.begin();
    for (int i = 0; i < 4; i++) {
        word kind = drawn(seed) % 4, key = first_key + drawn(seed) % keys;
        sum += kind < 2 ? map.put(key, drawn(seed)) : kind == 2 ? map.take(key) : map.get(key);
    }
    if (drawn(seed) % 10 == 0) map.abort();
    else map.commit();
    return sum;
}

// GCC compiles what it inlines into `main` for size, and a remainder by 10 is then a division: so
// this is a separate function, as is `as_bench`.
template <class Map> [[gnu::noinline]] static void transactions(word keys, word count) {
    Map map;
    word seed = 42, sum = 0;
    for (word key = 0; key < keys; key += 2) {
        map.begin();
        map.put(key, key);
        map.commit();
        map.prepare(key);
    }
    for (word key = 1; key < keys; key += 2) map.prepare(key);
    double began = nanoseconds();
    for (word t = 0; t < count; t++) sum += transaction(map, seed, 0, keys);
    print(began, count, sum);
}

// A thread's share; whatever was busy is run again from the same numbers.
template <class Map> static word share(Map &map, word me, word keys, word count) {
    word seed = 42 + me, sum = 0;
    for (word done = 0; done < count;) {
        word tried = seed;
        try {
            sum += transaction(map, tried, me * keys, keys);
        } catch (const is_busy &) {
            std::this_thread::yield();
            continue;
        }
        seed = tried;
        done++;
    }
    return sum;
}

template <class Map> static void in_threads(word keys, word count, word threads) {
    auto maps = Map::open(threads);
    std::vector<word> sums(threads);
    for (word me = 0; me < threads; me++)
        for (word key = 0; key < keys; key += 2) {
            maps[me]->begin();
            maps[me]->put(me * keys + key, key);
            maps[me]->commit();
        }
    double began = nanoseconds();
    std::vector<std::thread> running;
    for (word me = 0; me < threads; me++)
        running.emplace_back([&, me] { sums[me] = share(*maps[me], me, keys, count / threads); });
    for (auto &thread : running) thread.join();
    word sum = 0;
    for (word of_one : sums) sum += of_one;
    print(began, count / threads * threads, sum);
}

// The transactions that the program `bench` makes inside Rattle, by the same draws. The source makes GCC
// give them the form of machine code that LLVM gives them there: a draw is divided in 32 bits (LLVM tests
// that both numbers fit), and the four operations are unrolled, so that the branches of each are
// predicted apart.
[[gnu::noinline]] static void as_bench(word keys, word count) {
    auto callers = striped::open(1, 1024);
    striped &map = *callers[0];
    word seed = 0, sum = 0;
    for (word key = 0; key < keys; key++) {
        if (key % 3 == 0) continue;
        map.begin();
        map.put(key, key);
        map.commit();
    }
    double began = nanoseconds();
    for (word t = 0; t < count; t++) {
        word key[4], kind[4];
#pragma GCC unroll 4
        for (int i = 0; i < 4; i++) {
            key[i] = static_cast<std::uint32_t>(drawn(seed)) % static_cast<std::uint32_t>(keys);
            kind[i] = drawn(seed) % 4;
        }
        map.begin();
#pragma GCC unroll 4
        for (int i = 0; i < 4; i++)
            sum += kind[i] < 2 ? map.put(key[i], key[i] + 1) : kind[i] == 2 ? map.take(key[i]) : map.get(key[i]);
        if (t % 10 == 9) map.abort();
        else map.commit();
    }
    print(began, count, sum);
}

// A call that does next to nothing: what a crossing costs.
static void crossing(word count) {
    library map;
    word sum = 0;
    double began = nanoseconds();
    for (word i = 0; i < count; i++) sum += map.count();
    print(began, count, sum);
}

static void refusal(word count) {
    auto callers = striped::open(1);
    word sum = 0;
    callers[0]->begin();
    double began = nanoseconds();
    for (word i = 0; i < count; i++) sum += callers[0]->refused();
    print(began, count, sum);
}

int main(int argc, char **argv) {
    if (argc < 4 || argc > 5) return 2;
    word keys = std::strtoull(argv[2], nullptr, 10), count = std::strtoull(argv[3], nullptr, 10);
    word threads = argc > 4 ? std::strtoull(argv[4], nullptr, 10) : 1;
    if (!std::strcmp(argv[1], "map")) transactions<library>(keys, count);
    else if (!std::strcmp(argv[1], "twin")) transactions<twin>(keys, count);
    else if (!std::strcmp(argv[1], "striped")) in_threads<striped>(keys, count, threads);
    else if (!std::strcmp(argv[1], "stripes")) in_threads<stripes>(keys, count, threads);
    else if (!std::strcmp(argv[1], "bench")) as_bench(keys, count);
    else if (!std::strcmp(argv[1], "crossing")) crossing(count);
    else refusal(count);
}
