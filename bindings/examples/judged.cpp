// Four threads move money between two accounts, and the program has its own run judged.
#include <boostmap.hpp>
#include <iostream>
#include <thread>

int main() {
    boostmap_cpp::opening how;
    how.keep = BOOSTMAP_KEEP_ENTRIES;
    auto callers = boostmap_cpp::open_striped(4, 64, how);
    boostmap_cpp::host host(callers);
    std::vector<std::thread> threads;
    for (auto &caller : callers)
        threads.emplace_back([&caller] {
            for (int i = 0; i < 100; i++)
                caller.transact([](auto &t) {
                    t.put(1, t.get(1).value_or(400) - 1);
                    t.add(2, 1);
                });
        });
    for (auto &thread : threads) thread.join();
    callers.clear();

    boostmap_cpp::judge judge(64, BOOSTMAP_HOLDER_BEGUN);
    judge.feed(host.history());
    auto verdict = judge.verdict();
    std::cout << (verdict.is_legal ? "legal, " : "illegal, ") << verdict.commits << " commits\n";
}
