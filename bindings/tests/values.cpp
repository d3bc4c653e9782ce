// The C++ header: moved maps, transactions that abort in their destructor, `transact`, exceptions, runs and walks.
// Usage: values [COUNT]: so many callers that are made and freed
#include "boostmap.hpp"
#include "check.h"
#include <chrono>
#include <cstdlib>
#include <fstream>
#include <set>
#include <thread>

namespace entry = boostmap_cpp::entry;
using boostmap_cpp::busy;
using boostmap_cpp::error;
using boostmap_cpp::judge;
using boostmap_cpp::map;

template <class Job> static boostmap_status thrown(Job job) {
    try {
        job();
    } catch (const error &e) {
        return e.status;
    }
    return BOOSTMAP_DONE;
}

static void of_one_owner() {
    map first(2, 16, 64);
    first.transact(0, [](auto &t) {
        CHECK(!t.put(1, 10));
        CHECK(t.put(1, 11) == 10u);
        std::uint64_t level = t.save();
        CHECK(t.take(1) == 11u);
        t.back(level);
        CHECK(t.put_if_absent(1, 12) == 11u && t.put_if_equal(1, 11, 12) == 11u);
    });
    map second(std::move(first));
    CHECK(second.transact(0, [](auto &t) { return *t.get(1); }) == 12);
    CHECK(thrown([&] { first.count(); }) == BOOSTMAP_EMPTY);
    {
        auto left_open = second.begin(0);
        left_open.put(2, 20);
    }
    CHECK(second.count() == 1);
    CHECK(thrown([&] { second.transact(0, [](auto &t) { t.put(3, 30); throw error(99); }); }) == 99);
    CHECK(second.count() == 1);
    auto holds = second.begin(0);
    holds.get(1);
    try {
        second.transact(1, [](auto &t) { t.get(1); });
        CHECK(false);
    } catch (const busy &e) {
        CHECK(e.holder == 0);
    }
    CHECK(holds.commit() == 3);
    CHECK(thrown([&] { holds.get(1); }) == BOOSTMAP_NOT_OPEN);
    CHECK(thrown([] { map(65, 1, 2); }) == BOOSTMAP_LIMIT);
    first = std::move(second);
    CHECK(first.count() == 1);
    first.help(1, 1);
    CHECK(first.items().size() == 1 && first.items()[0].key == 1 && first.items()[0].value == 12);
    CHECK(map(1, 16, 64).items().empty());
}

// The history of a map is legal; trimmed, it is that of one transaction.
static void of_histories() {
    map kept(2, 16, 64);
    kept.transact(0, [](auto &t) { t.put(1, 10), t.put(2, 20), t.take(2); });
    kept.transact(1, [](auto &t) { t.put(3, 30), t.roll_back(); });
    for (int trimmed = 0; trimmed < 2; trimmed++) {
        auto history = kept.history();
        CHECK(history.size() == kept.entries() && kept.count() == 1);
        judge judge(16);
        judge.feed(history);
        CHECK(judge.verdict().is_legal && judge.verdict().commits == 1);
        kept.trim();
    }
    CHECK(kept.entries() == 4);
    kept.trim_above(1);
    for (int i = 0; i < 100; i++) kept.transact(0, [](auto &t) { t.put(1, 10); });
    CHECK(kept.entries() < 20);
}

template <class T> constexpr bool is_moved_only =
    std::is_nothrow_move_constructible_v<T> && !std::is_copy_constructible_v<T> && !std::is_copy_assignable_v<T>;
static_assert(is_moved_only<map> && is_moved_only<boostmap_cpp::transaction>);
static_assert(is_moved_only<boostmap_cpp::caller> && is_moved_only<boostmap_cpp::caller_transaction>);
static_assert(is_moved_only<judge> && is_moved_only<boostmap_cpp::host>);

// The example at the head of boostmap.hpp.
static void of_the_head() {
    map accounts(2, 64, 1024);
    accounts.transact(0, [](auto &t) { t.put(1, 10); });
    accounts.transact(0, [](auto &t) {
        t.put(1, t.get(1).value_or(0) - 5);
        t.put(2, t.get(2).value_or(0) + 5);
    });
    CHECK(accounts.transact(0, [](auto &t) { return *t.get(1) == 5 && *t.get(2) == 5; }));
    auto callers = boostmap_cpp::open_striped(4, 64);
    callers[0].transact([](auto &t) { t.put(1, 10); });
    for (std::uint64_t i = 0; i < 4; i++) CHECK(callers[i].number() == i + 1);
}

static void of_callers() {
    auto callers = boostmap_cpp::open_striped(2, 16, {100, BOOSTMAP_KEEP_COMMITS});
    auto &one = callers[0], &two = callers[1];
    CHECK(callers.size() == 2 && one.number() == 1 && two.number() == 2);
    one.transact(0, [](auto &t) {
        CHECK(!t.put(1, 10));
        std::uint64_t level = t.save();
        CHECK(t.take(1) == 10u);
        t.back(level);
        CHECK(t.put_if_absent(1, 12) == 10u && t.put_if_equal(1, 10, 12) == 10u);
    });
    {
        auto left_open = one.begin();
        left_open.put(1, 99);
    }
    CHECK(two.transact(0, [](auto &t) { return *t.get(1); }) == 12);
    CHECK(two.transact(0, [](auto &t) { return t.count() + t.items().size(); }) == 2);
    CHECK(two.transact(0, [](auto &t) { return t.items()[0].key * 100 + t.items()[0].value; }) == 112);
    auto holds = one.begin();
    holds.get(1);
    int runs = 0;
    try {
        two.transact(3, [&](auto &t) {
            runs++;
            t.put(2, 20);
            t.get(1);
        });
        CHECK(false);
    } catch (const busy &e) {
        CHECK(e.holder == 1 && runs == 4);
    }
    auto other = two.begin();
    CHECK(thrown([&] { other.get(1 + 16); }) == BOOSTMAP_BUSY);
    CHECK(thrown([&] { other.get(2); }) == BOOSTMAP_NOT_OPEN);
    CHECK(holds.commit() == 5u);
    CHECK(thrown([&] { two.transact(0, [](auto &t) { t.put(3, 30); throw error(99); }); }) == 99);
    CHECK(two.transact(0, [](auto &t) { return t.get(2) || t.get(3); }) == false);
    auto moved = std::move(one);
    CHECK(thrown([&] { static_cast<void>(one.begin()); }) == BOOSTMAP_EMPTY);
    CHECK(moved.begin().commit() == 7u);
    CHECK(!boostmap_cpp::open_striped(1, 16)[0].begin().commit());
    CHECK(thrown([] { boostmap_cpp::open_striped(0, 16); }) == BOOSTMAP_LIMIT);
    boostmap_cpp::opening how;
    how.keys = 100;
    how.keep = BOOSTMAP_KEEP_COMMITS;
    how.seed = 7;
    auto options = boostmap_cpp::open_striped(3, 16, how)[0].options();
    CHECK(options.callers == 3 && options.stripes == 16 && options.keys == 100 && options.seed == 7);
    CHECK(options.keep == BOOSTMAP_KEEP_COMMITS);
}

// A job may roll back and return a value, and only a busy call of its own transaction is tried again.
static void of_jobs() {
    map accounts(1, 16, 64);
    CHECK(accounts.transact(0, [](auto &t) { t.put(1, 10); t.roll_back(); return *t.get(1); }) == 10);
    CHECK(accounts.count() == 0);
    auto callers = boostmap_cpp::open_striped(2, 16), others = boostmap_cpp::open_striped(2, 16);
    CHECK(callers[0].transact([](auto &t) { t.put(1, 10); t.roll_back(); return *t.get(1); }) == 10);
    CHECK(!callers[1].transact([](auto &t) { return t.get(1); }));
    auto holds = others[0].begin();
    holds.put(1, 10);
    int runs = 0;
    CHECK(thrown([&] {
        callers[0].transact([&](auto &t) {
            runs++;
            t.put(1, 10);
            others[1].begin().get(1);
        });
    }) == BOOSTMAP_BUSY);
    CHECK(runs == 1 && !callers[1].transact([](auto &t) { return t.get(1); }));
}

using replies = std::vector<boostmap_cpp::value>;
namespace op = boostmap_cpp::operation;

// Whole transactions by one call. A strict one that misses leaves nothing.
static void of_runs() {
    auto callers = boostmap_cpp::open_striped(2, 16);
    auto &one = callers[0], &two = callers[1];
    CHECK((one.run({op::put(1, 10), op::get(1), op::put_if(1, 9, 11), op::put_if(2, std::nullopt, 20), op::take(1)}) ==
           replies{std::nullopt, 10, 10, std::nullopt, 10}));
    CHECK((std::get<replies>(one.run_strict({op::put(1, 12), op::put_if(2, 20, 21)})) == replies{std::nullopt, 20}));
    auto stopped = one.run_strict({op::put(1, 13), op::put_if(2, 20, 22), op::get(1)});
    CHECK((std::get<boostmap_cpp::missed>(stopped).replies == replies{12, 21}));
    CHECK(two.run({}).empty() && std::get<replies>(two.run_strict({})).empty());
    CHECK((two.run({op::get(1), op::get(2), op::get(3)}) == replies{12, 21, std::nullopt}));
    CHECK(one.counts().commits == 2 && one.counts().aborts == 1 && two.counts().commits == 3);
    auto open = one.begin();
    CHECK(thrown([&] { one.run({op::get(1)}); }) == BOOSTMAP_ALREADY_OPEN);
    CHECK(thrown([&] { two.run_strict({op::put(1, 1), entry::saved(0)}); }) == BOOSTMAP_NO_ENTRY);
    CHECK(open.get(1) == 12u);
    // The holder ends when the others have most likely found it.
    std::thread waits([&two] {
        CHECK((two.run({op::get(1)}) == replies{14}));
        two.for_each_page([](auto &page) { CHECK(page.size() <= 1); });
    });
    open.put(1, 14);
    std::this_thread::sleep_for(std::chrono::milliseconds(20));
    open.commit();
    waits.join();
}

// Four threads add up by strict runs, which wait while they are busy, and begin again if they miss.
static void of_threads_that_run() {
    enum { THREADS = 4, ROUNDS = 2000 };
    auto callers = boostmap_cpp::open_striped(THREADS, 4);
    callers[0].put(7, 0);
    std::vector<std::thread> threads;
    for (auto &caller : callers)
        threads.emplace_back([&caller] {
            for (int made = 0; made < ROUNDS;) {
                auto sums = caller.run({op::get(7), op::get(8)});
                CHECK(sums[0].value() == sums[1].value_or(0));
                auto ran = caller.run_strict({op::put(8, *sums[0] + 1), op::put_if(7, sums[0], *sums[0] + 1)});
                made += std::holds_alternative<replies>(ran);
            }
        });
    for (auto &thread : threads) thread.join();
    CHECK((callers[0].run({op::get(7), op::get(8)}) == replies{THREADS * ROUNDS, THREADS * ROUNDS}));
}

// A walk beside threads that move units within a stripe: each page has the sum of its stripe.
static void of_pages() {
    enum { THREADS = 3, ROUNDS = 3000, STRIPES = 8, KEYS = 20 * STRIPES, EACH = 100 };
    auto callers = boostmap_cpp::open_striped(THREADS + 1, STRIPES);
    for (std::uint64_t key = 0; key < KEYS; key++) callers[0].put(key, EACH);
    std::vector<std::thread> threads;
    for (std::uint64_t i = 1; i <= THREADS; i++)
        threads.emplace_back([&caller = callers[i]] {
            for (std::uint64_t j = 0; j < ROUNDS; j++) {
                std::uint64_t from = j * (2 * caller.number() + 1) % KEYS, to = (from + STRIPES) % KEYS;
                caller.transact([&](auto &t) {
                    if (*t.get(from)) t.add(from, -1), t.add(to, 1);
                });
            }
        });
    for (int walk = 0; walk < 20; walk++) {
        std::uint64_t page = 0;
        callers[0].for_each_page([&](const std::vector<boostmap_pair> &pairs) {
            std::uint64_t sum = 0, next = page++;
            for (auto &pair : pairs) {
                CHECK(pair.key == next);
                next += STRIPES;
                sum += pair.value;
            }
            CHECK(pairs.size() == KEYS / STRIPES && sum == EACH * pairs.size());
        });
        CHECK(page == STRIPES);
    }
    for (auto &thread : threads) thread.join();
    auto reads = callers[0].begin(), writes = callers[1].begin();
    CHECK(reads.page(3 + STRIPES).size() == KEYS / STRIPES);
    writes.put(4, 1);
    CHECK(thrown([&] { writes.get(3); }) == BOOSTMAP_BUSY);
    CHECK(thrown([&] { writes.page(4); }) == BOOSTMAP_NOT_OPEN);
    CHECK(thrown([&] { callers[0].for_each_page([](auto &) {}); }) == BOOSTMAP_ALREADY_OPEN);
}

// Four threads add up, each with its own caller; one that is busy tries again.
static void of_threads() {
    enum { THREADS = 4, ROUNDS = 5000 };
    auto callers = boostmap_cpp::open_striped(THREADS, 8);
    std::vector<std::thread> threads;
    for (auto &caller : callers)
        threads.emplace_back([&caller] {
            for (int i = 0; i < ROUNDS; i++)
                caller.transact([](auto &t) { t.put(7, t.get(7).value_or(0) + 1); });
        });
    for (auto &thread : threads) thread.join();
    CHECK(callers[0].transact(0, [](auto &t) { return *t.get(7); }) == THREADS * ROUNDS);
}

// Threads run, and the history of their callers is judged.
static void of_hosts() {
    boostmap_cpp::opening how;
    how.keep = BOOSTMAP_KEEP_ENTRIES;
    auto callers = boostmap_cpp::open_striped(4, 8, how);
    boostmap_cpp::host host(callers);
    CHECK(thrown([&] { boostmap_cpp::host again(callers); }) == BOOSTMAP_NO_HOST);
    std::vector<std::thread> threads;
    for (auto &caller : callers)
        threads.emplace_back([mine = std::move(caller)]() mutable {
            for (int i = 0; i < 500; i++) mine.transact([](auto &t) { t.put(7, t.get(7).value_or(0) + 1); });
        });
    for (auto &thread : threads) thread.join();
    threads.clear(); // and with them the callers
    auto history = host.history();
    judge judge(8, BOOSTMAP_HOLDER_BEGUN);
    judge.feed(history);
    CHECK(judge.verdict().is_legal && judge.verdict().commits == 2000 && judge.verdict().running == 0);
    auto others = boostmap_cpp::open_striped(2, 8, how);
    boostmap_cpp::host second(others);
    CHECK(thrown([&] { second.history(); }) == BOOSTMAP_MISSING);
    others.clear();
    CHECK(second.history().empty());
}

static void of_judges() {
    judge first(8);
    auto put = entry::asked(0, BOOSTMAP_PUT, 3, 30);
    for (const auto &e : {entry::began(0, 1), put, entry::did(0, std::nullopt), entry::saved(0), entry::leave(0, 1),
                          entry::returned(0, 1), entry::began(1, 2), entry::found_busy(entry::asked(1, BOOSTMAP_GET, 11), 0),
                          entry::aborted(1), entry::committed(0, 1)})
        first.feed(e);
    judge moved(std::move(first));
    boostmap_verdict verdict = moved.verdict();
    CHECK(verdict.is_legal && verdict.commits == 1 && verdict.running == 0);
    moved.feed(entry::undone(0));
    CHECK(!moved.verdict().is_legal && moved.verdict().entry == 10 && moved.verdict().rule == 3);
    CHECK(thrown([&] { first.verdict(); }) == BOOSTMAP_EMPTY);
    CHECK(thrown([&] { moved.feed(entry::of(11, 0)); }) == BOOSTMAP_NO_ENTRY);
    CHECK(thrown([] { judge(0); }) == BOOSTMAP_LIMIT);
    // Two readers of one key: against the rule of locks, and serializable.
    judge by_locks(8), by_commits(0, BOOSTMAP_BY_COMMITS);
    auto get = [](std::uint64_t caller) { return entry::asked(caller, BOOSTMAP_GET, 3); };
    const std::vector<boostmap_entry> entries = {
        entry::began(0, 1), entry::began(1, 2), get(0), entry::did(0, std::nullopt), get(1),
        entry::did(1, std::nullopt), entry::committed(0, 1), entry::committed(1, 2)};
    by_locks.feed(entries);
    by_commits.feed(entries);
    try {
        judge(8).feed({entry::began(0, 1), entry::of(11, 0), entry::began(1, 2)});
        CHECK(false);
    } catch (const boostmap_cpp::not_fed &e) {
        CHECK(e.fed == 1 && e.status == BOOSTMAP_NO_ENTRY);
    }
    CHECK(!by_locks.verdict().is_legal && by_locks.verdict().entry == 4 && by_locks.verdict().rule == 2);
    CHECK(by_commits.verdict().is_legal && by_commits.verdict().commits == 2);
}

// The text of a finding, and a cycle from its first link on, or the order.
struct expected {
    std::vector<boostmap_entry> entries;
    const char *text;
    std::vector<std::uint64_t> order;
};

static std::vector<boostmap_entry> all(std::initializer_list<std::vector<boostmap_entry>> parts) {
    std::vector<boostmap_entry> entries;
    for (const auto &part : parts) entries.insert(entries.end(), part.begin(), part.end());
    return entries;
}
static std::vector<boostmap_entry> get(std::uint64_t caller, std::uint64_t key, boostmap_cpp::value reply = std::nullopt) {
    return {entry::asked(caller, BOOSTMAP_GET, key), entry::did(caller, reply)};
}
static std::vector<boostmap_entry> put(std::uint64_t caller, std::uint64_t key, std::uint64_t to,
                                       boostmap_cpp::value reply = std::nullopt) {
    return {entry::asked(caller, BOOSTMAP_PUT, key, to), entry::did(caller, reply)};
}
static std::vector<boostmap_entry> take(std::uint64_t caller, std::uint64_t key, boostmap_cpp::value reply) {
    return {entry::asked(caller, BOOSTMAP_TAKE, key), entry::did(caller, reply)};
}

// Histories of docs/VERDICTS.md, with their lines there.
static void of_any_order() {
    using boostmap_cpp::judge_any_order;
    using entry::began, entry::committed;
    const std::vector<boostmap_entry> both = {began(0, 1), began(1, 2)}, ends = {committed(0, 1), committed(1, 2)};
    const expected rows[] = {
        {{}, "serializable 0 commits", {}},
        {all({both, get(0, 1), get(1, 1), ends}), "serializable 2 commits", {1, 2}},
        {all({both, get(0, 1), put(1, 1, 5), {committed(1, 1), committed(0, 2)}}), "serializable 2 commits", {1, 2}},
        {{began(0, 2)}, "not serializable: entry 0 has the wrong shape", {}},
        {all({{began(0, 1)}, get(0, 1), get(0, 1, 5), {committed(0, 1)}}),
         "not serializable: the replies of transaction 1 contradict one another", {}},
        {all({{began(0, 1)}, get(0, 1, 7), {committed(0, 1)}}),
         "not serializable: transaction 1 read 7 at key 1, which no committed transaction left", {}},
        {all({{began(0, 1)}, put(0, 1, 5), put(0, 2, 6), {committed(0, 1), began(0, 2)}, take(0, 1, 5), put(0, 2, 7, 6),
              {committed(0, 2), began(0, 3)}, get(0, 1), get(0, 2, 6), {committed(0, 3)}}),
         "not serializable: transaction 3 read none at key 1, which no serial order gives", {}},
        {all({{began(0, 1)}, put(0, 1, 5), {committed(0, 1), began(0, 2)}, put(0, 1, 5), {committed(0, 2), began(0, 3)},
              put(0, 1, 5), {committed(0, 3), began(0, 4)}, take(0, 1, 5), {committed(0, 4)}}),
         "undecided key 1 value none: transactions 4", {}},
        {all({both, get(0, 1), get(1, 2), put(0, 2, 5), put(1, 1, 6), ends}),
         "not serializable: G2-item, cycle of 2; transaction 1 read none at key 1, which transaction 2 replaced; "
         "transaction 2 read none at key 2, which transaction 1 replaced", {}},
        {all({both, put(0, 1, 5), put(1, 1, 6), ends}),
         "not serializable: lost update, cycle of 2; transaction 1 read none at key 1, which transaction 2 replaced; "
         "transaction 2 read none at key 1, which transaction 1 replaced", {}},
        {all({both, get(0, 1), put(1, 1, 5), put(1, 2, 6), {committed(1, 1)}, get(0, 2, 6), {committed(0, 2)}}),
         "not serializable: G-single, cycle of 2; transaction 1 read none at key 1, which transaction 2 replaced; "
         "transaction 2 left 6 at key 2, which transaction 1 read", {}},
        {all({both, put(0, 1, 5), put(1, 2, 6), get(0, 2, 6), get(1, 1, 5), ends}),
         "not serializable: G1c, cycle of 2; transaction 1 left 5 at key 1, which transaction 2 read; "
         "transaction 2 left 6 at key 2, which transaction 1 read", {}},
    };
    for (const auto &row : rows) {
        auto found = judge_any_order(row.entries);
        auto by_number = [](const auto &a, const auto &b) { return a.transaction < b.transaction; };
        auto least = std::min_element(found.cycle.begin(), found.cycle.end(), by_number);
        std::rotate(found.cycle.begin(), least, found.cycle.end());
        CHECK(found.text() == row.text && found.order == row.order);
        CHECK(found.is_serializable() == (found.text()[0] == 's'));
    }
    auto skew = judge_any_order(rows[8].entries);
    CHECK(skew.cycle.size() == 2 && skew.cycle[0].kind == BOOSTMAP_LINK_REPLACED && !skew.cycle[0].value);
    CHECK(skew.cycle[0].key == skew.cycle[0].transaction);
    auto impossible = judge_any_order(rows[6].entries), unwritten = judge_any_order(rows[5].entries);
    CHECK(impossible.kind == BOOSTMAP_IMPOSSIBLE && impossible.number == 3 && impossible.key == 1 && !impossible.value);
    CHECK(unwritten.kind == BOOSTMAP_UNWRITTEN && unwritten.number == 1 && unwritten.value == 7u);
    // 2 began after 1 had committed, and read the state before it.
    const auto old = all({{began(0, 1)}, put(0, 1, 5), {committed(0, 1), began(7, 2)}, get(7, 1), {committed(7, 2)}});
    auto strict = judge_any_order(old, true);
    CHECK(judge_any_order(old).order == std::vector<std::uint64_t>({2, 1}) && strict.cycle.size() == 2);
    CHECK(strict.text().rfind("not serializable: G-single-realtime, cycle of 2; transaction ", 0) == 0);
    CHECK(strict.text().find("; transaction 1 committed before transaction 2 began") != std::string::npos);
    CHECK(thrown([] { judge_any_order({entry::of(11, 0)}); }) == BOOSTMAP_NO_ENTRY);
    CHECK(thrown([] { judge_any_order({began(0, 1), began(64, 2)}); }) == BOOSTMAP_NO_ENTRY);
}

// The pages of memory that the process has.
static long resident() {
    long all = 0, resident = 0;
    std::ifstream("/proc/self/statm") >> all >> resident;
    return resident;
}

// Callers that others make, which live as long as they like. So many leave no memory behind.
static void of_others(long count) {
    enum { FIRST = 1000 };
    boostmap_cpp::opening how;
    how.keep = BOOSTMAP_KEEP_ENTRIES;
    auto kept = boostmap_cpp::open_striped(1, 8, how);
    for (std::uint64_t number = 2; number < 65536; number++) CHECK(kept[0].another().number() == number);
    CHECK(thrown([&] { static_cast<void>(kept[0].another()); }) == BOOSTMAP_LIMIT);
    auto callers = boostmap_cpp::open_striped(2, 8);
    auto open = callers[0].begin();
    open.put(1, 10);
    auto other = callers[0].another();
    auto third = other.another();
    CHECK(thrown([&] { other.transact(0, [](auto &t) { t.get(1); }); }) == BOOSTMAP_BUSY && other.counts().busy == 1);
    CHECK(open.get(1) == 10u);
    open.commit();
    callers.clear();
    CHECK(other.get(1) == 10u && third.get(1) == 10u);
    std::set<std::uint64_t> numbers = {1, 2, other.number(), third.number()};
    long before = 0;
    for (long i = 0; i < FIRST + count; i++) {
        if (i == FIRST) before = resident();
        auto next = third.another();
        CHECK(!next.put(100, 10) && next.take(100) == 10u);
        if (i < FIRST) numbers.insert(next.number());
        if (i % 2) third = std::move(next); // which makes the next two
    }
    CHECK(before > 0 && resident() - before < 4096); // 16 MB; a hundred thousand callers take 90
    CHECK(numbers.size() == FIRST + 4);
    // Threads, each of whose visitors makes the next one.
    std::vector<std::thread> threads;
    for (int i = 0; i < 4; i++)
        threads.emplace_back([mine = other.another()]() mutable {
            for (int round = 0; round < 500; round++) {
                auto visitor = mine.another();
                visitor.transact([](auto &t) { t.put(7, t.get(7).value_or(0) + 1); });
                mine = std::move(visitor);
            }
        });
    for (auto &thread : threads) thread.join();
    CHECK(other.get(7) == 2000u);
}

int main(int argc, char **argv) {
    of_the_head();
    of_one_owner();
    of_histories();
    of_callers();
    of_jobs();
    of_runs();
    of_threads();
    of_threads_that_run();
    of_pages();
    of_hosts();
    of_judges();
    of_any_order();
    of_others(argc > 1 ? std::atol(argv[1]) : 100000);
}
