// The C++ header beside std::map: random transactions of two callers, each of some of its calls, which
// commit, roll back, throw, or are left; the run is judged. Then an exception after each call of a job,
// and at each allocation, must leave the map as it was, and no stripe held.
// Usage: model_cpp [CALLS]
#include "boostmap.hpp"
#include "check.h"
#include <cstdlib>
#include <map>
#include <new>

using boostmap_cpp::caller;
using boostmap_cpp::error;
using boostmap_cpp::value;
using contents = std::map<std::uint64_t, std::uint64_t>;

enum { STRIPES = 7 };

static long before_refusal = -1; // the number of allocations before the one that is refused, or -1

static void *allocated(std::size_t bytes) {
    if (before_refusal >= 0 && before_refusal-- == 0) throw std::bad_alloc();
    void *block = std::malloc(bytes ? bytes : 1);
    if (!block) throw std::bad_alloc();
    return block;
}
void *operator new(std::size_t bytes) { return allocated(bytes); }
void operator delete(void *block) noexcept { std::free(block); }
void operator delete(void *block, std::size_t) noexcept { std::free(block); }

static std::uint64_t draw(std::uint64_t below) {
    static std::uint64_t seed = 1;
    seed = seed * 6364136223846793005u + 1442695040888963407u;
    return (seed >> 33) % below;
}

static value at(const contents &all, std::uint64_t key) {
    auto found = all.find(key);
    return found == all.end() ? std::nullopt : value(found->second);
}

static void set(contents &all, std::uint64_t key, value to) {
    if (to) all[key] = *to;
    else all.erase(key);
}

static bool are_equal(const std::vector<boostmap_pair> &pairs, const contents &all) {
    return pairs.size() == all.size() &&
           std::equal(pairs.begin(), pairs.end(), all.begin(), [](auto &pair, auto &entry) {
               return pair.key == entry.first && pair.value == entry.second;
           });
}

template <class Calls> static void add(Calls &t, contents &model, std::uint64_t key) {
    std::uint64_t by = draw(5), is = at(model, key).value_or(0);
    bool subtracts = draw(2), fits = subtracts ? is >= by : UINT64_MAX - is >= by;
    auto delta = static_cast<std::int64_t>(by);
    try {
        CHECK(t.add(key, subtracts ? -delta : delta) == at(model, key) && fits);
        model[key] = subtracts ? is - by : is + by;
    } catch (const error &e) { CHECK(e.status == BOOSTMAP_OVERFLOW && !fits); }
}

// Checks the pairs of the key's stripe.
static void is_page(const std::vector<boostmap_pair> &pairs, std::uint64_t key, const contents &model) {
    contents due;
    for (auto &entry : model)
        if (entry.first % STRIPES == key % STRIPES) due.insert(entry);
    CHECK(are_equal(pairs, due));
}

// A run of drawn operations. One that is strict ends at the first put_if that misses, and then changes nothing.
static std::uint64_t run(caller &c, contents &model) {
    namespace op = boostmap_cpp::operation;
    std::vector<boostmap_entry> operations;
    std::vector<value> due;
    contents changed = model;
    bool is_strict = draw(2), is_missed = false;
    for (std::uint64_t calls = draw(8); calls > 0; calls--) {
        std::uint64_t key = draw(40), to = draw(4);
        value had = at(changed, key), expected = draw(4) ? had : value(draw(4));
        if (!is_missed) due.push_back(had);
        switch (draw(4)) {
        case 0: operations.push_back(op::get(key)); break;
        case 1:
            operations.push_back(op::take(key));
            set(changed, key, std::nullopt);
            break;
        case 2:
            operations.push_back(op::put(key, to));
            set(changed, key, to);
            break;
        default:
            operations.push_back(op::put_if(key, expected, to));
            if (had == expected) set(changed, key, to);
            else is_missed |= is_strict;
        }
    }
    if (is_strict) {
        auto ran = c.run_strict(operations);
        CHECK(is_missed ? std::get<boostmap_cpp::missed>(ran).replies == due : std::get<0>(ran) == due);
    } else {
        CHECK(c.run(operations) == due);
    }
    if (!is_missed) model = changed;
    return operations.size() + 1;
}

// A call on the whole map, now and then.
template <class Calls> static void call_on_all(Calls &t, contents &model) {
    std::uint64_t key = draw(40);
    switch (draw(100)) {
    case 0:
        CHECK(t.clear() == model.size());
        model.clear();
        break;
    case 1: CHECK(t.count() == model.size() && are_equal(t.items(), model)); break;
    case 2:
        t.put_all({{key, 1}, {key + 1, 2}});
        set(model, key, 1);
        set(model, key + 1, 2);
        break;
    case 3:
        if constexpr (!std::is_same_v<Calls, caller>) is_page(t.page(key), key, model);
        break;
    default: CHECK(t.get(key) == at(model, key));
    }
}

// One call, of a transaction or of a caller, on the map and on its model.
template <class Calls> static void call(Calls &t, contents &model) {
    std::uint64_t key = draw(40), to = draw(8) ? draw(4) : UINT64_MAX - draw(2);
    value had = at(model, key), expected = draw(2) ? had : value(draw(4));
    auto flip = [&](value is) { return is ? value() : value(to); };
    switch (draw(7)) {
    case 0:
        CHECK(t.put(key, to) == had);
        set(model, key, to);
        break;
    case 1:
        CHECK(t.take(key) == had);
        set(model, key, std::nullopt);
        break;
    case 2:
        CHECK(t.put_if(key, expected, to) == had);
        if (had == expected) set(model, key, to);
        break;
    case 3: add(t, model, key); break;
    case 4:
        CHECK(t.get_or_put(key, to) == had.value_or(to));
        if (!had) set(model, key, to);
        break;
    case 5:
        CHECK(t.update(key, flip) == had);
        set(model, key, flip(had));
        break;
    default: call_on_all(t, model);
    }
}

// A transaction of some calls, and how many these were.
static std::uint64_t transaction(caller &c, contents &model) {
    std::uint64_t calls = 1 + draw(10);
    contents changed = model;
    switch (draw(10)) {
    case 0: call(c, model); return 1;
    case 8: return run(c, model);
    case 9: {
        std::uint64_t key = 0;
        if (draw(4)) return run(c, model);
        c.for_each_page([&](auto &pairs) { is_page(pairs, key++, model); });
        CHECK(key == STRIPES);
        return STRIPES;
    }
    case 1:
        try {
            c.transact(0, [&](auto &t) {
                for (std::uint64_t i = 0; i < calls; i++) call(t, changed);
                throw calls;
            });
            CHECK(false);
        } catch (std::uint64_t) {}
        return calls;
    case 2: {
        auto left = c.begin();
        for (std::uint64_t i = 0; i < calls; i++) call(left, changed);
        return calls;
    }
    case 3:
        c.transact(0, [&](auto &t) {
            for (std::uint64_t i = 0; i < calls; i++) call(t, changed);
            t.roll_back();
        });
        return calls;
    case 4:
        c.transact(0, [&](auto &t) {
            call(t, changed);
            contents before = changed;
            auto level = t.save();
            for (std::uint64_t i = 0; i < calls; i++) call(t, changed);
            t.back(level);
            call(t, before);
            changed = before;
        });
        break;
    default:
        c.transact(0, [&](auto &t) {
            for (std::uint64_t i = 0; i < calls; i++) call(t, changed);
        });
    }
    model = changed;
    return calls;
}

static boostmap_verdict judged(const std::vector<boostmap_entry> &history) {
    boostmap_cpp::judge judge(STRIPES, BOOSTMAP_HOLDER_BEGUN);
    judge.feed(history);
    return judge.verdict();
}

static void beside_a_model(std::uint64_t calls) {
    boostmap_cpp::opening how;
    how.keep = BOOSTMAP_KEEP_ENTRIES;
    auto callers = boostmap_cpp::open_striped(2, STRIPES, how);
    boostmap_cpp::host host(callers);
    contents model;
    for (std::uint64_t made = 0; made < calls;) made += transaction(callers[draw(2)], model);
    CHECK(are_equal(callers[0].items(), model));
    auto first = callers[0].counts(), second = callers[1].counts();
    callers.clear();
    auto history = host.history();
    auto verdict = judged(history);
    std::printf("model_cpp: %zu entries, %llu commits, %llu aborts\n", history.size(),
                static_cast<unsigned long long>(verdict.commits),
                static_cast<unsigned long long>(first.aborts + second.aborts));
    CHECK(verdict.is_legal && verdict.commits == first.commits + second.commits &&
          first.busy + second.busy == 0);
    CHECK(first.aborts > 0 && second.aborts > 0);
    std::size_t forged = history.size() / 2; // the reply to a get that finds a value
    while (history[forged - 1].operation != BOOSTMAP_GET || !history[forged].has) forged++;
    history[forged].value++;
    CHECK(!judged(history).is_legal && judged(history).rule == 1);
}

// Every call that a transaction has. Throws before the call with the number `stop`, and returns how many
// there are.
static int every_call(boostmap_cpp::caller_job &t, int stop) {
    int made = 0;
    auto next = [&] {
        if (made++ == stop) throw stop;
    };
    next(), t.put(1, 100);
    next(), t.get(1);
    next(), t.take(2);
    next(), t.put_if(3, 30, 31);
    next(), t.put_if(9, std::nullopt, 90);
    next(), t.add(3, -1);
    next(), t.get_or_put(8, 80);
    next(), t.update(4, [&](value is) {
        next();
        return is;
    });
    next(), t.save();
    next(), t.put(5, 50);
    next(), t.back(1);
    next(), t.put_all({{6, 60}, {7, 70}});
    next(), t.count();
    next(), t.items();
    next(), t.page(1);
    next(), t.clear();
    next();
    return made;
}

// After something was thrown: the map is as it was, and no stripe is held.
static void is_unchanged(std::vector<caller> &callers, const contents &before) {
    CHECK(are_equal(callers[1].transact(0, [](auto &t) { return t.items(); }), before));
}

// A run that is refused memory for its replies leaves nothing.
static void refused_runs(std::vector<caller> &callers, const contents &before) {
    namespace op = boostmap_cpp::operation;
    const std::vector<boostmap_entry> operations = {op::take(1), op::put(9, 90), op::put_if(2, 20, 21)};
    int of_memory = 0;
    for (bool is_done = false; !is_done; of_memory++) {
        is_unchanged(callers, before);
        before_refusal = of_memory;
        try {
            CHECK((callers[0].run(operations) == std::vector<value>{10, std::nullopt, 20}));
            is_done = true;
        } catch (const std::bad_alloc &) {}
        before_refusal = -1;
    }
    CHECK(of_memory > 2 && (callers[1].run({op::get(1), op::get(9), op::get(2)}) == std::vector<value>{std::nullopt, 90, 21}));
}

static void thrown_everywhere() {
    auto callers = boostmap_cpp::open_striped(2, STRIPES);
    const contents before = {{1, 10}, {2, 20}, {3, 30}, {4, 40}};
    for (auto &entry : before) callers[0].put(entry.first, entry.second);
    int stop = 0, calls = 18, of_memory = 0;
    for (; stop < calls; stop++) {
        try {
            callers[0].transact([&](auto &t) { return every_call(t, stop); });
            CHECK(false);
        } catch (int stopped) { CHECK(stopped == stop); }
        is_unchanged(callers, before);
    }
    for (bool is_done = false; !is_done; of_memory++) {
        before_refusal = of_memory;
        try {
            callers[0].transact([&](auto &t) { every_call(t, calls), t.roll_back(); });
            is_done = true;
        } catch (const std::bad_alloc &) {}
        before_refusal = -1;
        is_unchanged(callers, before);
    }
    CHECK(of_memory > 3 && callers[0].transact([&](auto &t) {
        return t.roll_back(), every_call(t, calls);
    }) == calls);
    std::printf("model_cpp: thrown at %d places, and at %d allocations\n", stop, of_memory - 1);
    refused_runs(callers, before);
}

int main(int argc, char **argv) {
    beside_a_model(argc > 1 ? std::strtoull(argv[1], nullptr, 10) : 100000);
    thrown_everywhere();
}
