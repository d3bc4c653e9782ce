// Moves 30 from account 1 to account 2, and fails to move 100 back.
#include <boostmap.hpp>
#include <iostream>

using boostmap_cpp::caller;

static bool transfer(caller &accounts, std::uint64_t from, std::uint64_t to, std::uint64_t sum) {
    return accounts.transact([&](auto &t) {
        auto left = t.get(from).value_or(0);
        if (left < sum) return false; // commits, with nothing changed
        t.put(from, left - sum);
        t.put(to, t.get(to).value_or(0) + sum);
        return true;
    });
}

int main() {
    caller accounts = std::move(boostmap_cpp::open_striped(1, 64)[0]);
    accounts.put_all({{1, 100}, {2, 50}});
    std::cout << "moved 30: " << (transfer(accounts, 1, 2, 30) ? "yes" : "no") << "\n";
    std::cout << "moved 100: " << (transfer(accounts, 2, 1, 100) ? "yes" : "no") << "\n";
    std::cout << "1 has " << *accounts.get(1) << ", 2 has " << *accounts.get(2) << "\n";
}
