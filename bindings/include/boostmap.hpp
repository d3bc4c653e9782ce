// boostmap for C++17: handles as values that can be moved but not copied, transactions that abort in
// their destructor, and `transact` with a lambda. This header is only tested; the archive is proved.
//
//     auto callers = boostmap_cpp::open_striped(4, 64);      one for each of four threads
//     callers[0].put(1, 10);                                 a transaction of one call
//     callers[0].transact([](auto &t) {                      if busy, waits and tries again
//         t.put(1, t.get(1).value_or(0) - 5);
//         t.put(2, t.get(2).value_or(0) + 5);
//     });                                                    commits; an exception aborts
//
//     boostmap_cpp::map accounts(2, 64, 1024);               a map with one owner
//     accounts.transact(0, [](auto &t) { t.put(1, 10); });
//
// A job can neither commit nor abort. It throws, or calls `t.roll_back()` to return a value although
// nothing is committed. It may run again after it was busy, so it should change nothing but the map.
//
// Threads: as boostmap.h says, one call at a time on one map, one caller or one judge. A call that
// fails throws `error`, or `busy`. The header needs exceptions.
//
// `transact` does not tell the place of the commit: for that, `begin` and `commit` by hand. What else is
// not there, and what to do instead, stands in boostmap.h.
#ifndef BOOSTMAP_HPP
#define BOOSTMAP_HPP

#include "boostmap.h"

#include <algorithm>
#include <cstdint>
#include <optional>
#include <random>
#include <stdexcept>
#include <string>
#include <type_traits>
#include <utility>
#include <variant>
#include <vector>

namespace boostmap_cpp {

// Thrown by a call that fails, with its status.
struct error : std::runtime_error {
    boostmap_status status;
    explicit error(boostmap_status s) : std::runtime_error(boostmap_text(s)), status(s) {}
};

// Thrown if not all entries could be fed: those before the index `fed` are fed, and feeding may go on
// there.
struct not_fed : error {
    std::uint64_t fed;
    not_fed(boostmap_status s, std::uint64_t count) : error(s), fed(count) {}
};

// Thrown if another caller, `holder`, holds a stripe that the call needs. The transaction can then only
// abort; on a striped map it has been aborted. `handle` is that of the call.
struct busy : error {
    std::uint64_t holder;
    const void *handle;
    busy(std::uint64_t caller, const void *called) : error(BOOSTMAP_BUSY), holder(caller), handle(called) {}
};

// The value of a key, or none.
using value = std::optional<std::uint64_t>;

namespace detail {
// The answer of a call on a handle: a value, none, or an exception.
inline value value_or_throw(boostmap_status status, std::uint64_t word, const void *handle = nullptr) {
    switch (status) {
    case BOOSTMAP_DONE: return word;
    case BOOSTMAP_ABSENT: return std::nullopt;
    case BOOSTMAP_BUSY: throw busy(word, handle);
    default: throw error(status);
    }
}

// Runs a job, and ends its transaction: commits, or aborts after `roll_back`.
template <class Open, class Job> auto run_and_finish(Open &open, Job &job) {
    if constexpr (std::is_void_v<decltype(job(open))>) {
        job(open);
        open.finish();
    } else {
        auto result = job(open);
        open.finish();
        return result;
    }
}

// For a call that answers no value.
inline void check(boostmap_status status) { value_or_throw(status, 0); }
} // namespace detail

class map_calls;
class map_job;
class transaction;

// A map with one owner, for tests and simulations. Its memory grows with its history (`trim_above`), and
// its keys should differ in their low bits, as boostmap.h says.
class map {
public:
    map(std::uint64_t callers, std::uint64_t stripes, std::uint64_t buckets) {
        detail::check(boostmap_new(&handle_, callers, stripes, buckets));
    }
    map(map &&other) noexcept { std::swap(handle_, other.handle_); }
    map &operator=(map &&other) noexcept {
        std::swap(handle_, other.handle_);
        return *this;
    }
    map(const map &) = delete;
    map &operator=(const map &) = delete;
    ~map() { boostmap_free(&handle_); }

    std::uint64_t count() {
        std::uint64_t word = 0;
        boostmap_status status = boostmap_count(&handle_, &word);
        return *detail::value_or_throw(status, word);
    }
    // Doubles the table if it has more than two keys a bucket, and initialises the key's bucket. The table
    // grows by itself, so no program needs this call.
    void help(std::uint64_t caller, std::uint64_t key) { detail::check(boostmap_help(&handle_, caller, key)); }

    // The number of entries of the map's history, each of which takes 32 bytes.
    std::uint64_t entries() {
        std::uint64_t word = 0;
        boostmap_status status = boostmap_entries(&handle_, &word);
        return *detail::value_or_throw(status, word);
    }
    // The map's history, for a judge of the map's number of stripes.
    std::vector<boostmap_entry> history() {
        std::vector<boostmap_entry> all(entries() + 1); // one more, so that data() is not null
        std::uint64_t word = 0;
        boostmap_status status = boostmap_history(&handle_, 0, all.data(), all.size(), &word);
        all.resize(*detail::value_or_throw(status, word));
        return all;
    }
    // Cuts the history off: one transaction, which puts the pairs of the map, stands instead. No caller
    // may be in a transaction.
    void trim() { detail::check(boostmap_trim(&handle_)); }
    // From now on the end of a transaction trims a history of more than so many entries, if no caller is
    // in a transaction, so that the memory stays bounded; 0: never.
    void trim_above(std::uint64_t entries) { detail::check(boostmap_trim_above(&handle_, entries)); }

    // The pairs of the map, with the changes of open transactions, in no particular order.
    std::vector<boostmap_pair> items() {
        std::vector<boostmap_pair> all(count() + 1); // one more, so that data() is not null
        std::uint64_t word = 0;
        boostmap_status status = boostmap_read(&handle_, all.data(), all.size(), &word);
        all.resize(*detail::value_or_throw(status, word));
        return all;
    }

    // Begins a transaction, which aborts if it is destroyed before it is committed.
    [[nodiscard]] transaction begin(std::uint64_t caller);

    // Runs a job, which is given a `map_job`, in a transaction of this caller: commits, or aborts if the
    // job throws or rolls back. Returns the job's result. A busy call is thrown, and not tried again.
    template <class Job> auto transact(std::uint64_t caller, Job &&job);

private:
    friend class map_calls;
    boostmap handle_ = BOOSTMAP_INIT;
};

// The calls within an open transaction of one caller, which aborts if it is destroyed before it is
// committed. The map must not be destroyed or moved while it is open.
class map_calls {
public:
    map_calls(const map_calls &) = delete;
    map_calls &operator=(const map_calls &) = delete;
    ~map_calls() {
        std::uint64_t word;
        if (map_) boostmap_abort(&map_->handle_, caller_, &word);
    }

    std::uint64_t number() const { return number_; }

    value get(std::uint64_t key) { return call(boostmap_get, key); }
    value take(std::uint64_t key) { return call(boostmap_take, key); }
    value put(std::uint64_t key, std::uint64_t to) { return call(boostmap_put, key, to); }
    value put_if_absent(std::uint64_t key, std::uint64_t to) { return call(boostmap_put_if_absent, key, to); }
    value put_if_equal(std::uint64_t key, std::uint64_t expected, std::uint64_t to) {
        return call(boostmap_put_if_equal, key, expected, to);
    }
    std::uint64_t save() { return *call(boostmap_save); }
    void back(std::uint64_t level) { call(boostmap_back, level); }

protected:
    map_calls(map *owner, std::uint64_t caller) : map_(owner), caller_(caller) {
        std::uint64_t word = 0;
        boostmap_status status = boostmap_begin(&owner->handle_, caller, &word);
        number_ = *detail::value_or_throw(status, word);
    }
    map_calls(map_calls &&other) noexcept
        : map_(std::exchange(other.map_, nullptr)), caller_(other.caller_), number_(other.number_) {}

    std::uint64_t end_by_commit() {
        std::uint64_t place = *call(boostmap_commit);
        map_ = nullptr;
        return place;
    }
    void end_by_abort() {
        call(boostmap_abort);
        map_ = nullptr;
    }

private:
    template <class Call, class... Words> value call(Call function, Words... words) {
        if (!map_) throw error(BOOSTMAP_NOT_OPEN);
        std::uint64_t word = 0;
        boostmap_status status = function(&map_->handle_, caller_, words..., &word);
        return detail::value_or_throw(status, word, &map_->handle_);
    }

    map *map_;
    std::uint64_t caller_;
    std::uint64_t number_ = 0;
};

// A transaction that is ended by hand.
class transaction : public map_calls {
public:
    transaction(transaction &&other) noexcept = default;

    // Commits, and returns the place in the order of commits. The transaction is then over.
    std::uint64_t commit() { return end_by_commit(); }
    void abort() { end_by_abort(); }

private:
    friend class map;
    using map_calls::map_calls;
};

// What a job of `transact` is given.
class map_job : public map_calls {
public:
    // Aborts after the job, whose result `transact` returns all the same.
    void roll_back() { rolls_back_ = true; }

private:
    friend class map;
    template <class Open, class Job> friend auto detail::run_and_finish(Open &, Job &);
    using map_calls::map_calls;
    void finish() {
        if (rolls_back_) end_by_abort();
        else end_by_commit();
    }

    bool rolls_back_ = false;
};

inline transaction map::begin(std::uint64_t caller) { return transaction(this, caller); }

template <class Job> auto map::transact(std::uint64_t caller, Job &&job) {
    map_job open(this, caller);
    return detail::run_and_finish(open, job);
}

// How a striped map is opened: the number of keys for which it has room from the start; what it keeps of
// its history: the number of its commits, so that each commit tells its place, or its entries, for a
// `host`; and the seed of the hash of keys within a stripe, drawn from the system, below 2^32, unless it
// is given.
struct opening {
    std::uint64_t keys = 0;
    std::uint32_t keep = BOOSTMAP_KEEP_NOTHING;
    std::uint64_t seed = std::random_device{}();
};

// How a caller's transactions ended: by a commit, by an abort, and by a busy call, which aborts too.
using counts = boostmap_counts;

// What a strict run came to if a put_if found another value than it expects: the replies up to that of this put_if.
// Everything has been taken back.
struct missed {
    std::vector<value> replies;
};

class caller_calls;
class caller_job;
class caller_transaction;

// A caller of a striped map, for one thread. Callers of one map may be in calls at the same time.
class caller {
public:
    caller(caller &&other) noexcept { swap(other); }
    caller &operator=(caller &&other) noexcept {
        swap(other);
        return *this;
    }
    caller(const caller &) = delete;
    caller &operator=(const caller &) = delete;
    ~caller() { boostmap_striped_free(&handle_); }

    std::uint64_t number() const { return number_; }
    boostmap_cpp::counts counts() {
        boostmap_cpp::counts all = {};
        detail::check(boostmap_striped_counts(&handle_, &all));
        return all;
    }

    // With what the map was opened.
    boostmap_options options() {
        boostmap_options all = {};
        std::uint64_t *members[] = {&all.callers, &all.stripes, &all.keys, &all.keep, &all.seed}, option = 0;
        for (auto *member : members) detail::check(boostmap_striped_option(&handle_, option++, member));
        return all;
    }

    // Makes another caller of the map, with a number that no caller of the map has or had, also in a
    // transaction, which continues. A map that keeps its entries has at most 65,535 callers in all: then
    // throws `error` with BOOSTMAP_LIMIT.
    [[nodiscard]] caller another() {
        caller next;
        detail::check(boostmap_striped_another(&handle_, &next.handle_, &next.number_));
        return next;
    }

    // Begins a transaction, which aborts if it is destroyed before it is committed.
    [[nodiscard]] caller_transaction begin();

    // Aborts the caller's transaction, and returns whether there was one.
    bool abort() { return boostmap_striped_abort(&handle_) == BOOSTMAP_DONE; }

    // Runs a job, which is given a `caller_job`, in a transaction: commits, or aborts if the job throws
    // or rolls back. If a call of this transaction was busy, waits and runs the job again, for ever or
    // at most `tries` times; a busy call of another map is thrown. Returns the job's result.
    template <class Job> auto transact(Job &&job) { return transact(UINT64_MAX, job); }
    template <class Job> auto transact(std::uint64_t tries, Job &&job);

    // Each of these is a transaction of its own, which waits for ever while it is busy. They are as in
    // `caller_calls`.
    value get(std::uint64_t key);
    value take(std::uint64_t key);
    value put(std::uint64_t key, std::uint64_t to);
    value put_if(std::uint64_t key, value expected, std::uint64_t to);
    value add(std::uint64_t key, std::int64_t delta);
    std::uint64_t get_or_put(std::uint64_t key, std::uint64_t to);
    template <class Change> value update(std::uint64_t key, Change &&change);
    std::uint64_t count();
    std::vector<boostmap_pair> items();
    void put_all(const std::vector<boostmap_pair> &pairs);
    std::uint64_t clear();

    // Runs operations, made by the functions of `operation` below, in one transaction by one call of the archive, and
    // returns their replies. Waits for ever while it is busy.
    std::vector<value> run(const std::vector<boostmap_entry> &operations);
    // The same, but a put_if that finds another value than it expects ends it, and takes everything back.
    std::variant<std::vector<value>, missed> run_strict(const std::vector<boostmap_entry> &operations);

    // Walks over the map: calls `visit` with the pairs of each stripe, by rising keys. Each stripe is read in a transaction
    // of its own, which waits for ever while it is busy, and is over before the visit. So the pairs are no snapshot.
    template <class Visit> void for_each_page(Visit &&visit);

private:
    friend class caller_calls;
    friend std::vector<caller> open_striped(std::uint64_t callers, std::uint64_t stripes,
                                            const opening &how);
    friend class host;
    caller() = default;
    void swap(caller &other) noexcept {
        std::swap(handle_, other.handle_);
        std::swap(number_, other.number_);
    }
    bool commits(const std::vector<boostmap_entry> &operations, bool is_strict, std::vector<value> &replies);
    boostmap_caller handle_ = BOOSTMAP_INIT;
    std::uint64_t number_ = 0;
};

// Opens a striped map with no keys, for 1 to 4096 callers and with 1 to 4096 stripes, and returns its
// callers in the order of their numbers, from 1. Each thread takes one.
inline std::vector<caller> open_striped(std::uint64_t callers, std::uint64_t stripes,
                                        const opening &how = {}) {
    std::vector<caller> all;
    caller first;
    detail::check(boostmap_striped_open(&first.handle_, callers, stripes, how.keys, how.keep, how.seed,
                                        &first.number_));
    all.reserve(callers);
    for (std::uint64_t i = 1; i < callers; i++) {
        caller next;
        detail::check(boostmap_striped_join(&first.handle_, &next.handle_, &next.number_));
        all.push_back(std::move(next));
    }
    std::reverse(all.begin(), all.end()); // numbers are counted down
    all.push_back(std::move(first));
    return all;
}

// The host of a striped map that keeps its entries. When all callers of the map are destroyed, it hands
// out the map's whole history, which is proved to be legal. Make it while the callers stand.
class host {
public:
    // Of the map with these callers, one of which has the host: the last that `open_striped` returned.
    explicit host(std::vector<caller> &callers) {
        boostmap_status status = BOOSTMAP_NO_HOST;
        for (auto &each : callers)
            if (status == BOOSTMAP_NO_HOST || status == BOOSTMAP_EMPTY)
                status = boostmap_striped_host(&each.handle_, &handle_);
        detail::check(status);
    }
    host(host &&other) noexcept { std::swap(handle_, other.handle_); }
    host &operator=(host &&other) noexcept {
        std::swap(handle_, other.handle_);
        return *this;
    }
    host(const host &) = delete;
    host &operator=(const host &) = delete;
    ~host() { boostmap_host_free(&handle_); }

    // The whole history, oldest entry first, for a judge of the map's number of stripes. Throws `error`
    // with BOOSTMAP_MISSING while a caller stands.
    std::vector<boostmap_entry> history() {
        std::vector<boostmap_entry> all(1); // so that data() is not null
        for (;;) {
            std::uint64_t word = 0;
            boostmap_status status = boostmap_host_history(&handle_, all.data(), all.size(), &word);
            if (status != BOOSTMAP_SHORT) detail::check(status);
            all.resize(word);
            if (status == BOOSTMAP_DONE) return all;
        }
    }

private:
    boostmap_host handle_ = BOOSTMAP_INIT;
};

// The calls within an open transaction of a caller, which aborts if it is destroyed before it is
// committed. The caller must not be destroyed or moved while it is open. A busy call ends it.
class caller_calls {
public:
    caller_calls(const caller_calls &) = delete;
    caller_calls &operator=(const caller_calls &) = delete;
    ~caller_calls() {
        if (caller_) caller_->abort();
    }

    value get(std::uint64_t key) { return call(boostmap_striped_get, key); }
    value take(std::uint64_t key) { return call(boostmap_striped_take, key); }
    value put(std::uint64_t key, std::uint64_t to) { return call(boostmap_striped_put, key, to); }
    value put_if_absent(std::uint64_t key, std::uint64_t to) {
        return call(boostmap_striped_put_if_absent, key, to);
    }
    value put_if_equal(std::uint64_t key, std::uint64_t expected, std::uint64_t to) {
        return call(boostmap_striped_put_if_equal, key, expected, to);
    }
    // Puts if the key has the expected value, or, without one, if it is absent; returns the value before.
    value put_if(std::uint64_t key, value expected, std::uint64_t to) {
        return expected ? put_if_equal(key, *expected, to) : put_if_absent(key, to);
    }

    // Adds to the value of the key, 0 if it has none, and returns the value before. If the sum does not
    // fit in 64 bits, throws `error` with BOOSTMAP_OVERFLOW, and nothing has changed.
    value add(std::uint64_t key, std::int64_t delta) {
        value had = get(key);
        std::uint64_t from = had.value_or(0), to = from + static_cast<std::uint64_t>(delta);
        if (delta < 0 ? to > from : to < from) throw error(BOOSTMAP_OVERFLOW);
        return put(key, to);
    }
    // Puts only if the key has no value; returns the value that it has now.
    std::uint64_t get_or_put(std::uint64_t key, std::uint64_t to) {
        return put_if_absent(key, to).value_or(to);
    }

    // Puts what `change` makes of the key's value, or, if it makes none, takes the key out; returns the
    // value before.
    template <class Change> value update(std::uint64_t key, Change &&change) {
        value had = get(key), to = change(had);
        if (to) put(key, *to);
        else if (had) take(key);
        return had;
    }

    std::uint64_t save() { return *call(boostmap_striped_save); }
    void back(std::uint64_t level) { detail::check(boostmap_striped_back(handle(), level)); }

    // The pairs of the key's stripe, by rising keys. Takes only this stripe. The keys below the number of stripes are in
    // different ones.
    std::vector<boostmap_pair> page(std::uint64_t key) {
        std::vector<boostmap_pair> all(16);
        for (bool fits = false;;) {
            value count = call([&](boostmap_caller *called, std::uint64_t *word) {
                boostmap_status status = boostmap_striped_read_stripe(called, key, all.data(), all.size(), word);
                fits = status != BOOSTMAP_SHORT;
                if (!fits) status = BOOSTMAP_DONE; // with the number of places that it needs
                return status;
            });
            all.resize(*count);
            if (fits) return all;
        }
    }

    // The number of keys of the map, and its pairs by rising keys. Both take every stripe.
    std::uint64_t count() { return *call(boostmap_striped_count); }
    std::vector<boostmap_pair> items() {
        std::vector<boostmap_pair> all(count() + 1); // one more, so that data() is not null
        all.resize(*call(boostmap_striped_read, all.data(), all.size()));
        return all;
    }

    void put_all(const std::vector<boostmap_pair> &pairs) {
        for (const auto &pair : pairs) put(pair.key, pair.value);
    }
    // Takes every key out, and returns how many there were. Takes every stripe.
    std::uint64_t clear() {
        auto all = items();
        for (const auto &pair : all) take(pair.key);
        return all.size();
    }

protected:
    explicit caller_calls(caller *owner) : caller_(owner) {
        detail::check(boostmap_striped_begin(&owner->handle_));
    }
    caller_calls(caller_calls &&other) noexcept : caller_(std::exchange(other.caller_, nullptr)) {}

    value end_by_commit() {
        value place = call(boostmap_striped_commit);
        caller_ = nullptr;
        return *place ? place : std::nullopt;
    }
    void end_by_abort() {
        detail::check(boostmap_striped_abort(handle()));
        caller_ = nullptr;
    }

private:
    boostmap_caller *handle() {
        if (!caller_) throw error(BOOSTMAP_NOT_OPEN);
        return &caller_->handle_;
    }

    template <class Call, class... Words> value call(Call function, Words... words) {
        boostmap_caller *called = handle();
        std::uint64_t word = 0;
        boostmap_status status = function(called, words..., &word);
        if (status == BOOSTMAP_BUSY) caller_ = nullptr;
        return detail::value_or_throw(status, word, called);
    }

    caller *caller_;
};

// A transaction that is ended by hand.
class caller_transaction : public caller_calls {
public:
    caller_transaction(caller_transaction &&other) noexcept = default;

    // Commits, and returns the place in the order of commits, if the map keeps its commits. The
    // transaction is then over.
    value commit() { return end_by_commit(); }
    void abort() { end_by_abort(); }

private:
    friend class caller;
    using caller_calls::caller_calls;
};

// What a job of `transact` is given.
class caller_job : public caller_calls {
public:
    // Aborts after the job, whose result `transact` returns all the same.
    void roll_back() { rolls_back_ = true; }

private:
    friend class caller;
    template <class Open, class Job> friend auto detail::run_and_finish(Open &, Job &);
    using caller_calls::caller_calls;
    void finish() {
        if (rolls_back_) end_by_abort();
        else end_by_commit();
    }

    bool rolls_back_ = false;
};

inline caller_transaction caller::begin() { return caller_transaction(this); }

template <class Job> auto caller::transact(std::uint64_t tries, Job &&job) {
    for (std::uint64_t waits = 0;; boostmap_wait(&waits)) {
        try {
            caller_job open(this);
            return detail::run_and_finish(open, job);
        } catch (const busy &found) {
            if (found.handle != &handle_ || waits == tries) throw;
        }
    }
}

inline value caller::get(std::uint64_t key) {
    return transact([&](auto &t) { return t.get(key); });
}
inline value caller::take(std::uint64_t key) {
    return transact([&](auto &t) { return t.take(key); });
}
inline value caller::put(std::uint64_t key, std::uint64_t to) {
    return transact([&](auto &t) { return t.put(key, to); });
}
inline value caller::put_if(std::uint64_t key, value expected, std::uint64_t to) {
    return transact([&](auto &t) { return t.put_if(key, expected, to); });
}
inline value caller::add(std::uint64_t key, std::int64_t delta) {
    return transact([&](auto &t) { return t.add(key, delta); });
}
inline std::uint64_t caller::get_or_put(std::uint64_t key, std::uint64_t to) {
    return transact([&](auto &t) { return t.get_or_put(key, to); });
}
template <class Change> value caller::update(std::uint64_t key, Change &&change) {
    return transact([&](auto &t) { return t.update(key, change); });
}
inline std::uint64_t caller::count() {
    return transact([](auto &t) { return t.count(); });
}
inline std::vector<boostmap_pair> caller::items() {
    return transact([](auto &t) { return t.items(); });
}
inline void caller::put_all(const std::vector<boostmap_pair> &pairs) {
    transact([&](auto &t) { t.put_all(pairs); });
}
inline std::uint64_t caller::clear() {
    return transact([](auto &t) { return t.clear(); });
}

// Whether a run commits. Memory for the replies is taken before it, so that nothing is thrown after the commit.
inline bool caller::commits(const std::vector<boostmap_entry> &operations, bool is_strict, std::vector<value> &replies) {
    const boostmap_entry none = {};
    const boostmap_entry *first = operations.empty() ? &none : operations.data();
    std::vector<boostmap_reply> found(operations.size() + 1); // one more, so that data() is not null
    replies.resize(operations.size());
    for (std::uint64_t waits = 0;; boostmap_wait(&waits)) {
        std::uint64_t done = 0, word = 0;
        boostmap_status status = boostmap_striped_run(&handle_, first, operations.size(), is_strict, found.data(), found.size(),
                                                      &done, &word);
        if (status == BOOSTMAP_BUSY) continue;
        if (status != BOOSTMAP_MISSED) detail::check(status);
        replies.resize(done);
        for (std::size_t i = 0; i < done; i++)
            if (found[i].has) replies[i] = found[i].value;
        return status == BOOSTMAP_DONE;
    }
}
inline std::vector<value> caller::run(const std::vector<boostmap_entry> &operations) {
    std::vector<value> replies;
    commits(operations, false, replies);
    return replies;
}
inline std::variant<std::vector<value>, missed> caller::run_strict(const std::vector<boostmap_entry> &operations) {
    std::vector<value> replies;
    if (commits(operations, true, replies)) return {std::move(replies)};
    return missed{std::move(replies)};
}

template <class Visit> void caller::for_each_page(Visit &&visit) {
    for (std::uint64_t key = 0, stripes = options().stripes; key < stripes; key++) {
        auto page = transact([key](auto &t) { return t.page(key); });
        visit(page);
    }
}

// The judge of histories, fed entry by entry. The functions of `entry` below make entries.
class judge {
public:
    // The rule: BOOSTMAP_HOLDER_NOW, BOOSTMAP_HOLDER_BEGUN or BOOSTMAP_BY_COMMITS.
    explicit judge(std::uint64_t stripes, std::uint32_t rule = BOOSTMAP_HOLDER_NOW) {
        detail::check(boostmap_judge_new(&handle_, stripes, rule));
    }
    judge(judge &&other) noexcept { std::swap(handle_, other.handle_); }
    judge &operator=(judge &&other) noexcept {
        std::swap(handle_, other.handle_);
        return *this;
    }
    judge(const judge &) = delete;
    judge &operator=(const judge &) = delete;
    ~judge() { boostmap_judge_free(&handle_); }

    void feed(const boostmap_entry &entry) { detail::check(boostmap_judge_feed(&handle_, &entry)); }

    // Feeds entries in their order, or throws `not_fed`.
    void feed(const std::vector<boostmap_entry> &entries) {
        std::uint64_t fed = 0;
        if (entries.empty()) return;
        boostmap_status status = boostmap_judge_feed_all(&handle_, entries.data(), entries.size(), &fed);
        if (status != BOOSTMAP_DONE) throw not_fed(status, fed);
    }

    boostmap_verdict verdict() {
        boostmap_verdict verdict = {};
        detail::check(boostmap_judge_verdict(&handle_, &verdict));
        return verdict;
    }

private:
    boostmap_judge handle_ = BOOSTMAP_INIT;
};

// What `judge_any_order` found: a kind from BOOSTMAP_SERIALIZABLE to BOOSTMAP_UNDECIDED, and the members
// that the kind has, as a boostmap_finding.
struct finding {
    // A transaction of a cycle. It must come before the next one, and the last before the first: the next
    // one read the value that this one left at the key (BOOSTMAP_LINK_READ), or replaced the value that this
    // one read there (BOOSTMAP_LINK_REPLACED), or began when this one had committed (BOOSTMAP_LINK_BEGAN).
    struct link {
        std::uint64_t transaction, kind, key;
        boostmap_cpp::value value;
    };

    std::uint64_t kind = BOOSTMAP_SERIALIZABLE, number = 0, key = 0;
    boostmap_cpp::value value;
    std::vector<std::uint64_t> order;   // the transactions of a serial order
    std::vector<std::uint64_t> writers; // the transactions that leave an undecided value
    std::vector<link> cycle;

    bool is_serializable() const { return kind == BOOSTMAP_SERIALIZABLE; }

    // The line of `judge check --serializable`, without the number of open transactions and without the words
    // `in real time`.
    std::string text() const {
        const std::string of = "transaction " + std::to_string(number);
        const std::string read = of + " read " + words(value) + " at key " + std::to_string(key);
        const std::string no = "not serializable: ";
        switch (kind) {
        case BOOSTMAP_SERIALIZABLE: return "serializable " + std::to_string(order.size()) + " commits";
        case BOOSTMAP_MISSHAPEN: return no + "entry " + std::to_string(number) + " has the wrong shape";
        case BOOSTMAP_TORN: return no + "the replies of " + of + " contradict one another";
        case BOOSTMAP_UNWRITTEN: return no + read + ", which no committed transaction left";
        case BOOSTMAP_IMPOSSIBLE: return no + read + ", which no serial order gives";
        case BOOSTMAP_CYCLE: return no + cycle_text();
        default: return undecided_text();
        }
    }

private:
    static std::string words(boostmap_cpp::value of) { return of ? std::to_string(*of) : "none"; }

    std::string undecided_text() const {
        std::string text = "undecided key " + std::to_string(key) + " value " + words(value) + ": transactions";
        for (auto writer : writers) text += " " + std::to_string(writer);
        return text;
    }

    // Whether two transactions each replaced what the other read, the same value of the same key.
    bool is_lost_update() const {
        return cycle.size() == 2 && cycle[0].kind == BOOSTMAP_LINK_REPLACED && cycle[1].kind == BOOSTMAP_LINK_REPLACED &&
               cycle[0].key == cycle[1].key && cycle[0].value == cycle[1].value;
    }

    std::string cycle_text() const {
        static const char *const classes[] = {"G1c", "G-single", "G2-item"};
        std::size_t replaced = 0, began = 0;
        std::string links;
        for (std::size_t i = 0; i < cycle.size(); i++) {
            const link &from = cycle[i], &to = cycle[(i + 1) % cycle.size()];
            bool is_read = from.kind == BOOSTMAP_LINK_READ;
            if (from.kind == BOOSTMAP_LINK_BEGAN) {
                began++;
                links += "; transaction " + std::to_string(from.transaction) + " committed before transaction " +
                         std::to_string(to.transaction) + " began";
                continue;
            }
            replaced += !is_read;
            links += "; transaction " + std::to_string(from.transaction) + (is_read ? " left " : " read ") + words(from.value) +
                     " at key " + std::to_string(from.key) + ", which transaction " + std::to_string(to.transaction) +
                     (is_read ? " read" : " replaced");
        }
        return std::string(is_lost_update() ? "lost update" : classes[std::min<std::size_t>(replaced, 2)]) +
               (began ? "-realtime" : "") + ", cycle of " +
               std::to_string(cycle.size()) + links;
    }
};

// Judges entries by any order of their transactions, as `judge check --serializable` does: is there an
// order in which each committed transaction has its replies when it runs alone after those before it? With
// `real_time` it must also come after those that had committed when it began.
inline finding judge_any_order(const std::vector<boostmap_entry> &entries, bool real_time = false) {
    static const boostmap_entry none = {};
    boostmap_finding found = {};
    auto commits = std::count_if(entries.begin(), entries.end(), [](auto &e) { return e.kind == BOOSTMAP_COMMITTED; });
    std::vector<boostmap_link> links(static_cast<std::size_t>(commits) + 1); // one more, so that data() is not null
    for (boostmap_status status = BOOSTMAP_SHORT; status == BOOSTMAP_SHORT;) {
        status = boostmap_judge_any_order(entries.empty() ? &none : entries.data(), entries.size(), real_time,
                                          links.data(), links.size(), &found);
        if (status == BOOSTMAP_SHORT) links.resize(found.count);
        else detail::check(status);
    }
    finding result;
    result.kind = found.kind, result.number = found.number, result.key = found.key;
    if (found.has) result.value = found.value;
    for (std::size_t i = 0; i < found.count; i++) {
        const auto &each = links[i];
        if (found.kind == BOOSTMAP_SERIALIZABLE) result.order.push_back(each.transaction);
        else if (found.kind == BOOSTMAP_UNDECIDED) result.writers.push_back(each.transaction);
        else result.cycle.push_back({each.transaction, each.kind, each.key, each.has ? value(each.value) : std::nullopt});
    }
    return result;
}

// The entries of a history, as boostmap.h has them.
namespace entry {
inline boostmap_entry of(std::uint32_t kind, std::uint64_t caller, std::uint64_t number = 0) {
    boostmap_entry entry = {};
    entry.kind = kind;
    entry.caller = caller;
    entry.number = number;
    return entry;
}
inline boostmap_entry began(std::uint64_t caller, std::uint64_t transaction) {
    return of(BOOSTMAP_BEGAN, caller, transaction);
}
inline boostmap_entry asked(std::uint64_t caller, std::uint32_t operation, std::uint64_t key, std::uint64_t to = 0,
                            value expected = std::nullopt) {
    boostmap_entry entry = of(BOOSTMAP_ASKED, caller);
    entry.operation = operation;
    entry.key = key;
    entry.value = to;
    entry.expected = expected.value_or(0);
    entry.has = expected.has_value();
    return entry;
}
inline boostmap_entry did(std::uint64_t caller, value reply) {
    boostmap_entry entry = of(BOOSTMAP_DID, caller);
    entry.value = reply.value_or(0);
    entry.has = reply.has_value();
    return entry;
}
inline boostmap_entry saved(std::uint64_t caller) { return of(BOOSTMAP_SAVED, caller); }
// Without a level the caller aborts.
inline boostmap_entry leave(std::uint64_t caller, value level = std::nullopt) {
    boostmap_entry entry = of(BOOSTMAP_LEAVE, caller, level.value_or(0));
    entry.has = level.has_value();
    return entry;
}
inline boostmap_entry undone(std::uint64_t caller) { return of(BOOSTMAP_UNDONE, caller); }
inline boostmap_entry returned(std::uint64_t caller, std::uint64_t level) { return of(BOOSTMAP_RETURNED, caller, level); }
inline boostmap_entry committed(std::uint64_t caller, std::uint64_t place) {
    return of(BOOSTMAP_COMMITTED, caller, place);
}
// The stripe of the operation that was asked for is held by `holder`.
inline boostmap_entry found_busy(const boostmap_entry &asked, std::uint64_t holder) {
    boostmap_entry entry = asked;
    entry.kind = BOOSTMAP_FOUND_BUSY;
    entry.number = holder;
    return entry;
}
inline boostmap_entry aborted(std::uint64_t caller) { return of(BOOSTMAP_ABORTED, caller); }
} // namespace entry

// The operations of `caller::run`.
namespace operation {
inline boostmap_entry get(std::uint64_t key) { return entry::asked(0, BOOSTMAP_GET, key); }
inline boostmap_entry take(std::uint64_t key) { return entry::asked(0, BOOSTMAP_TAKE, key); }
inline boostmap_entry put(std::uint64_t key, std::uint64_t to) { return entry::asked(0, BOOSTMAP_PUT, key, to); }
// Puts if the key has the expected value, or, without one, if it is absent.
inline boostmap_entry put_if(std::uint64_t key, value expected, std::uint64_t to) {
    return entry::asked(0, BOOSTMAP_PUT_IF, key, to, expected);
}
} // namespace operation

} // namespace boostmap_cpp
#endif
