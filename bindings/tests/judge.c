/* The judge: each status, histories written by hand with their verdicts, and a million entries. */
#include "boostmap.h"
#include "check.h"
#include <string.h>

enum { STRIPES = 8 };

static boostmap_entry began(uint64_t c, uint64_t number) {
    return (boostmap_entry){.kind = BOOSTMAP_BEGAN, .caller = c, .number = number};
}
static boostmap_entry asked(uint64_t c, uint32_t operation, uint64_t key, uint64_t value) {
    return (boostmap_entry){.kind = BOOSTMAP_ASKED, .caller = c, .operation = operation, .key = key, .value = value};
}
static boostmap_entry did(uint64_t c, uint64_t has, uint64_t value) {
    return (boostmap_entry){.kind = BOOSTMAP_DID, .caller = c, .has = has, .value = value};
}
static boostmap_entry committed(uint64_t c, uint64_t number) {
    return (boostmap_entry){.kind = BOOSTMAP_COMMITTED, .caller = c, .number = number};
}
static boostmap_entry busy(uint64_t c, uint64_t key, uint64_t holder) {
    return (boostmap_entry){.kind = BOOSTMAP_FOUND_BUSY, .caller = c, .operation = BOOSTMAP_GET, .key = key, .number = holder};
}
static boostmap_entry of_kind(uint32_t kind, uint64_t c) { return (boostmap_entry){.kind = kind, .caller = c}; }

static uint32_t rule = BOOSTMAP_HOLDER_NOW;

static boostmap_verdict judge_all(const boostmap_entry *entries, size_t count) {
    boostmap_judge judge = BOOSTMAP_INIT;
    boostmap_verdict verdict;
    uint64_t fed;
    CHECK(boostmap_judge_new(&judge, STRIPES, rule) == BOOSTMAP_DONE);
    CHECK(boostmap_judge_feed_all(&judge, entries, count, &fed) == BOOSTMAP_DONE && fed == count);
    CHECK(boostmap_judge_verdict(&judge, &verdict) == BOOSTMAP_DONE);
    CHECK(boostmap_judge_free(&judge) == BOOSTMAP_DONE);
    return verdict;
}
#define JUDGED(...) judge_all((boostmap_entry[]){__VA_ARGS__}, sizeof((boostmap_entry[]){__VA_ARGS__}) / sizeof(boostmap_entry))

static void check_legal(boostmap_verdict v, uint64_t commits, uint64_t running) {
    CHECK(v.is_legal == 1 && v.commits == commits && v.running == running && v.entry == 0 && v.rule == 0);
}
static void check_illegal(boostmap_verdict v, uint64_t entry, uint64_t rule) {
    CHECK(v.is_legal == 0 && v.entry == entry && v.rule == rule && v.commits == 0 && v.running == 0);
}

static void statuses(void) {
    boostmap_judge judge = BOOSTMAP_INIT;
    boostmap_verdict untouched, verdict;
    boostmap_entry first = began(0, 1), none = of_kind(11, 0), no_operation = asked(0, 5, 1, 1), far = began(64, 1);
    memset(&untouched, 77, sizeof untouched);
    verdict = untouched;
    uint64_t word = 77;
    CHECK(boostmap_judge_feed(&judge, &first) == BOOSTMAP_EMPTY);
    CHECK(boostmap_judge_feed_all(&judge, &first, 1, &word) == BOOSTMAP_EMPTY && word == 77);
    CHECK(boostmap_judge_verdict(&judge, &verdict) == BOOSTMAP_EMPTY);
    CHECK(!memcmp(&verdict, &untouched, sizeof verdict));
    CHECK(boostmap_judge_free(&judge) == BOOSTMAP_EMPTY);
    CHECK(boostmap_judge_new(&judge, 0, 0) == BOOSTMAP_LIMIT);
    CHECK(boostmap_judge_new(&judge, STRIPES, 3) == BOOSTMAP_LIMIT);
    CHECK(boostmap_judge_new(&judge, 0, BOOSTMAP_BY_COMMITS) == BOOSTMAP_DONE);
    CHECK(boostmap_judge_free(&judge) == BOOSTMAP_DONE);
    CHECK(boostmap_judge_new(&judge, STRIPES, BOOSTMAP_HOLDER_BEGUN) == BOOSTMAP_DONE);
    CHECK(boostmap_judge_new(&judge, STRIPES, 0) == BOOSTMAP_FULL);
    CHECK(boostmap_judge_feed(&judge, &none) == BOOSTMAP_NO_ENTRY);
    CHECK(boostmap_judge_feed(&judge, &no_operation) == BOOSTMAP_NO_ENTRY);
    CHECK(boostmap_judge_feed(&judge, &far) == BOOSTMAP_NO_ENTRY);
    CHECK(boostmap_judge_feed(&judge, &first) == BOOSTMAP_DONE);
    CHECK(boostmap_judge_verdict(&judge, &verdict) == BOOSTMAP_DONE);
    check_legal(verdict, 0, 1);
    boostmap_entry array[] = {asked(0, BOOSTMAP_GET, 1, 0), did(0, 0, 0), none, committed(0, 1)};
    CHECK(boostmap_judge_feed_all(&judge, array, 4, &word) == BOOSTMAP_NO_ENTRY && word == 2);
    CHECK(boostmap_judge_feed_all(&judge, array + 3, 1, &word) == BOOSTMAP_DONE && word == 1);
    CHECK(boostmap_judge_feed_all(&judge, array, 0, &word) == BOOSTMAP_DONE && word == 0);
    CHECK(boostmap_judge_verdict(&judge, &verdict) == BOOSTMAP_DONE);
    check_legal(verdict, 1, 0);
    CHECK(boostmap_judge_free(&judge) == BOOSTMAP_DONE);
    CHECK(boostmap_judge_free(&judge) == BOOSTMAP_EMPTY);
}

/* By hand: the rules of docs/JUDGE.md, each kept and broken. */
static void by_hand(void) {
    boostmap_entry none = began(0, 1);
    check_legal(judge_all(&none, 0), 0, 0);
    check_legal(JUDGED(began(0, 1), asked(0, BOOSTMAP_PUT, 3, 30), did(0, 0, 0), committed(0, 1), began(1, 2),
                       asked(1, BOOSTMAP_TAKE, 3, 0), did(1, 1, 30), committed(1, 2)), 2, 0);
    check_legal(JUDGED(began(0, 1), asked(0, BOOSTMAP_GET, 3, 0), did(0, 0, 0), began(1, 2), busy(1, 3 + STRIPES, 0),
                       of_kind(BOOSTMAP_ABORTED, 1)), 0, 1);
    check_legal(JUDGED(began(0, 1), of_kind(BOOSTMAP_SAVED, 0), asked(0, BOOSTMAP_PUT, 3, 30), did(0, 0, 0),
                       of_kind(BOOSTMAP_LEAVE, 0), of_kind(BOOSTMAP_UNDONE, 0), of_kind(BOOSTMAP_ABORTED, 0)), 0, 0);
    check_illegal(JUDGED(began(0, 1), asked(0, BOOSTMAP_GET, 3, 0), did(0, 1, 30)), 2, 1);
    check_illegal(JUDGED(began(0, 1), asked(0, BOOSTMAP_GET, 3, 0), did(0, 0, 0), began(1, 2),
                         asked(1, BOOSTMAP_GET, 3, 0)), 4, 2);
    check_illegal(JUDGED(began(0, 1), began(1, 2), busy(1, 3, 0)), 2, 2);
    check_illegal(JUDGED(began(0, 2)), 0, 3);
    check_illegal(JUDGED(began(0, 1), committed(0, 2), began(0, 2)), 1, 3);
}

/* By the order of commits: two callers may read a key at the same time, and a stale reply is found at
 * its commit. */
static void by_commits(void) {
    rule = BOOSTMAP_BY_COMMITS;
    check_legal(JUDGED(began(0, 1), began(1, 2), asked(0, BOOSTMAP_GET, 3, 0), asked(1, BOOSTMAP_GET, 3, 0), did(0, 0, 0),
                       did(1, 0, 0), committed(1, 1), committed(0, 2)), 2, 0);
    check_illegal(JUDGED(began(0, 1), began(1, 2), asked(0, BOOSTMAP_GET, 3, 0), did(0, 0, 0), asked(1, BOOSTMAP_PUT, 3, 30),
                         did(1, 0, 0), committed(1, 1), asked(0, BOOSTMAP_PUT, 4, 40), did(0, 0, 0), committed(0, 2)), 9, 1);
    check_legal(JUDGED(began(0, 1), asked(0, BOOSTMAP_GET, 3, 0), did(0, 1, 99), of_kind(BOOSTMAP_LEAVE, 0),
                       of_kind(BOOSTMAP_ABORTED, 0)), 0, 0);
    check_illegal(JUDGED(began(0, 1), committed(0, 2)), 1, 3);
    rule = BOOSTMAP_HOLDER_NOW;
}

/* Each caller in turn puts a number at its own key: four entries a transaction, a million in all. */
static void a_million(uint32_t by_rule) {
    enum { TRANSACTIONS = 250000 };
    boostmap_judge judge = BOOSTMAP_INIT;
    boostmap_verdict verdict;
    CHECK(boostmap_judge_new(&judge, STRIPES, by_rule) == BOOSTMAP_DONE);
    for (uint64_t t = 0; t < TRANSACTIONS; t++) {
        uint64_t c = t % 64;
        boostmap_entry entries[] = {began(c, t + 1), asked(c, BOOSTMAP_PUT, c, t), did(c, t >= 64, t - 64), committed(c, t + 1)};
        for (int i = 0; i < 4; i++) CHECK(boostmap_judge_feed(&judge, &entries[i]) == BOOSTMAP_DONE);
    }
    CHECK(boostmap_judge_verdict(&judge, &verdict) == BOOSTMAP_DONE);
    check_legal(verdict, TRANSACTIONS, 0);
    CHECK(boostmap_judge_free(&judge) == BOOSTMAP_DONE);
}

int main(void) {
    statuses();
    by_hand();
    by_commits();
    a_million(BOOSTMAP_HOLDER_NOW);
    a_million(BOOSTMAP_BY_COMMITS);
    return 0;
}
