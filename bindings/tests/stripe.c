/* boostmap_striped_read_stripe: each status, with what it writes and what it leaves unchanged; that it takes exactly the
 * stripe of its key; and that all stripes together are the pairs of the map, with the changes of the open transaction. */
#include "boostmap.h"
#include "check.h"

enum { UNTOUCHED = 77, STRIPES = 7, CALLS = 3000, ROUNDS = 6, LOW = 5000, ROOM = LOW + ROUNDS * CALLS };

static boostmap_caller one = BOOSTMAP_INIT, other = BOOSTMAP_INIT;
static uint64_t number; /* of `one` */

/* One status, and the word after it, which was UNTOUCHED before. */
#define ANSWERS(call, status, after) \
    do {                             \
        w = UNTOUCHED;               \
        CHECK((call) == (status));   \
        CHECK(w == (after));         \
    } while (0)

static int counted(boostmap_caller *c, uint64_t commits, uint64_t aborts, uint64_t busy) {
    boostmap_counts counts;
    CHECK(boostmap_striped_counts(c, &counts) == BOOSTMAP_DONE);
    return counts.commits == commits && counts.aborts == aborts && counts.busy == busy;
}

static int is(boostmap_pair pair, uint64_t key, uint64_t value) { return pair.key == key && pair.value == value; }

/* Two pairs of one stripe, and one of another; arrays of two, one and no places. */
static void statuses(void) {
    boostmap_caller empty = BOOSTMAP_INIT;
    boostmap_pair pairs[3] = {{UNTOUCHED, UNTOUCHED}, {UNTOUCHED, UNTOUCHED}, {UNTOUCHED, UNTOUCHED}};
    uint64_t w;
    ANSWERS(boostmap_striped_read_stripe(&empty, 1, pairs, 3, &w), BOOSTMAP_EMPTY, UNTOUCHED);
    ANSWERS(boostmap_striped_read_stripe(&one, 1, pairs, 3, &w), BOOSTMAP_NOT_OPEN, UNTOUCHED);
    CHECK(boostmap_striped_begin(&one) == BOOSTMAP_DONE);
    ANSWERS(boostmap_striped_read_stripe(&one, 1, pairs, 0, &w), BOOSTMAP_DONE, 0);
    CHECK(boostmap_striped_put(&one, 1 + 3 * STRIPES, 30, &w) == BOOSTMAP_ABSENT);
    CHECK(boostmap_striped_put(&one, 1, 10, &w) == BOOSTMAP_ABSENT);
    CHECK(boostmap_striped_put(&one, 2, 20, &w) == BOOSTMAP_ABSENT);
    ANSWERS(boostmap_striped_read_stripe(&one, 1, pairs, 0, &w), BOOSTMAP_SHORT, 2);
    ANSWERS(boostmap_striped_read_stripe(&one, 1, pairs, 1, &w), BOOSTMAP_SHORT, 2);
    CHECK(is(pairs[0], UNTOUCHED, UNTOUCHED) && is(pairs[2], UNTOUCHED, UNTOUCHED));
    ANSWERS(boostmap_striped_read_stripe(&one, 1 + 2 * STRIPES, pairs, 2, &w), BOOSTMAP_DONE, 2);
    CHECK(is(pairs[0], 1, 10) && is(pairs[1], 1 + 3 * STRIPES, 30) && is(pairs[2], UNTOUCHED, UNTOUCHED));
    ANSWERS(boostmap_striped_read_stripe(&one, 2, pairs, 3, &w), BOOSTMAP_DONE, 1);
    CHECK(is(pairs[0], 2, 20) && is(pairs[1], 1 + 3 * STRIPES, 30) && is(pairs[2], UNTOUCHED, UNTOUCHED));
    CHECK(boostmap_striped_begin(&other) == BOOSTMAP_DONE);
    pairs[0].key = UNTOUCHED;
    ANSWERS(boostmap_striped_read_stripe(&other, 1, pairs, 3, &w), BOOSTMAP_BUSY, number);
    CHECK(pairs[0].key == UNTOUCHED && counted(&other, 0, 0, 1));
    ANSWERS(boostmap_striped_read_stripe(&other, 1, pairs, 3, &w), BOOSTMAP_NOT_OPEN, UNTOUCHED);
    CHECK(counted(&one, 0, 0, 0) && boostmap_striped_abort(&one) == BOOSTMAP_DONE);
    CHECK(boostmap_striped_begin(&other) == BOOSTMAP_DONE);
    ANSWERS(boostmap_striped_read_stripe(&other, 1, pairs, 3, &w), BOOSTMAP_DONE, 0);
    CHECK(boostmap_striped_commit(&other, &w) == BOOSTMAP_DONE && counted(&other, 1, 0, 1));
}

/* Reads the stripe of each key below STRIPES, with a place too few first: the other caller is then busy at the keys of this
 * stripe, and at no other. */
static void takes_one(size_t places) {
    boostmap_pair pairs[2];
    uint64_t w, busy = 0;
    for (uint64_t key = 0; key < STRIPES; key++) {
        CHECK(boostmap_striped_begin(&one) == BOOSTMAP_DONE);
        CHECK(boostmap_striped_read_stripe(&one, key, pairs, places, &w) == (places < 2 ? BOOSTMAP_SHORT : BOOSTMAP_DONE));
        for (uint64_t at = 0; at < 3 * STRIPES; at++) {
            int is_held = at % STRIPES == key;
            CHECK(boostmap_striped_begin(&other) == BOOSTMAP_DONE);
            CHECK(boostmap_striped_get(&other, at, &w) == (is_held              ? BOOSTMAP_BUSY
                                                           : at < 2 * STRIPES ? BOOSTMAP_DONE
                                                                              : BOOSTMAP_ABSENT));
            if (is_held) CHECK(w == number);
            else CHECK(boostmap_striped_commit(&other, &w) == BOOSTMAP_DONE);
            busy += (uint64_t)is_held;
        }
        CHECK(boostmap_striped_commit(&one, &w) == BOOSTMAP_DONE);
    }
    CHECK(busy == 3 * STRIPES);
}

static uint64_t draw(uint64_t below) {
    static uint64_t seed = 1;
    seed = seed * 6364136223846793005u + 1442695040888963407u;
    return (seed >> 33) % below;
}

/* Draws a low key, the greatest ones, or any. */
static uint64_t drawn_key(void) {
    switch (draw(8)) {
    case 0: return UINT64_MAX - draw(60);
    case 1: return draw((uint64_t)1 << 31) << 33 | draw((uint64_t)1 << 31) << 2 | draw(4);
    default: return draw(LOW);
    }
}

static int by_key(const void *a, const void *b) {
    const boostmap_pair *x = a, *y = b;
    return x->key < y->key ? -1 : x->key > y->key;
}

/* The pairs of all stripes, sorted, are those that boostmap_striped_read has. Within a stripe they lie by rising keys. */
static void is_whole(boostmap_caller *c) {
    static boostmap_pair pages[ROOM], whole[ROOM];
    uint64_t count = 0, all, w;
    for (uint64_t key = 0; key < STRIPES; key++) {
        CHECK(boostmap_striped_read_stripe(c, key, pages + count, ROOM - count, &w) == BOOSTMAP_DONE);
        for (uint64_t i = count; i < count + w; i++) {
            CHECK(pages[i].key % STRIPES == key);
            if (i > count) CHECK(pages[i - 1].key < pages[i].key);
        }
        count += w;
    }
    qsort(pages, count, sizeof *pages, by_key);
    CHECK(boostmap_striped_read(c, whole, ROOM, &all) == BOOSTMAP_DONE && all == count && count > 100);
    for (uint64_t i = 0; i < count; i++) CHECK(is(whole[i], pages[i].key, pages[i].value));
}

/* Drawn puts and takes, by both callers. */
static void all_stripes(void) {
    uint64_t w;
    for (int round = 0; round < ROUNDS; round++) {
        boostmap_caller *c = round % 2 ? &other : &one;
        CHECK(boostmap_striped_begin(c) == BOOSTMAP_DONE);
        for (int i = 0; i < CALLS; i++) {
            uint64_t key = drawn_key();
            CHECK((draw(3) ? boostmap_striped_put(c, key, draw(1000), &w) : boostmap_striped_take(c, key, &w)) <=
                  BOOSTMAP_ABSENT);
        }
        is_whole(c);
        CHECK((draw(3) ? boostmap_striped_commit(c, &w) : boostmap_striped_abort(c)) == BOOSTMAP_DONE);
        CHECK(boostmap_striped_begin(c) == BOOSTMAP_DONE);
        if (round) is_whole(c);
        CHECK(boostmap_striped_commit(c, &w) == BOOSTMAP_DONE);
    }
}

/* A map that keeps its entries keeps none for a read of a stripe. */
static void adds_no_entry(void) {
    boostmap_caller c = BOOSTMAP_INIT;
    boostmap_host host = BOOSTMAP_INIT;
    boostmap_pair pair;
    boostmap_entry *entries;
    uint64_t w;
    CHECK(boostmap_striped_open(&c, 1, STRIPES, 0, BOOSTMAP_KEEP_ENTRIES, 0, &w) == BOOSTMAP_DONE);
    CHECK(boostmap_striped_host(&c, &host) == BOOSTMAP_DONE);
    CHECK(boostmap_caller_put(&c, 1, 10, &w) == BOOSTMAP_ABSENT);
    CHECK(boostmap_striped_begin(&c) == BOOSTMAP_DONE);
    CHECK(boostmap_striped_read_stripe(&c, 1, &pair, 0, &w) == BOOSTMAP_SHORT);
    CHECK(boostmap_striped_read_stripe(&c, 1, &pair, 1, &w) == BOOSTMAP_DONE && is(pair, 1, 10));
    CHECK(boostmap_striped_commit(&c, &w) == BOOSTMAP_DONE && boostmap_striped_free(&c) == BOOSTMAP_DONE);
    CHECK(boostmap_host_entries(&host, &entries, &w) == BOOSTMAP_DONE);
    CHECK(w == 6); /* the begins, the put and its reply, the commits */
    free(entries);
    CHECK(boostmap_host_free(&host) == BOOSTMAP_DONE);
}

/* The history that the map kept is legal, with a commit for each that the callers count. */
static void is_judged(boostmap_host *host, uint64_t commits) {
    boostmap_judge judge = BOOSTMAP_INIT;
    boostmap_verdict verdict;
    boostmap_entry *entries;
    uint64_t count, w;
    CHECK(boostmap_host_entries(host, &entries, &count) == BOOSTMAP_DONE);
    CHECK(boostmap_judge_new(&judge, STRIPES, BOOSTMAP_HOLDER_BEGUN) == BOOSTMAP_DONE);
    CHECK(boostmap_judge_feed_all(&judge, entries, count, &w) == BOOSTMAP_DONE);
    CHECK(boostmap_judge_verdict(&judge, &verdict) == BOOSTMAP_DONE && boostmap_judge_free(&judge) == BOOSTMAP_DONE);
    CHECK(verdict.is_legal && verdict.commits == commits && verdict.running == 0);
    free(entries);
}

int main(void) {
    boostmap_host host = BOOSTMAP_INIT;
    boostmap_counts counts, others;
    uint64_t w;
    CHECK(boostmap_striped_open(&one, 2, STRIPES, 0, BOOSTMAP_KEEP_ENTRIES, 0, &number) == BOOSTMAP_DONE);
    CHECK(boostmap_striped_host(&one, &host) == BOOSTMAP_DONE);
    CHECK(boostmap_striped_join(&one, &other, &w) == BOOSTMAP_DONE);
    statuses();
    for (uint64_t key = 0; key < 2 * STRIPES; key++) CHECK(boostmap_caller_put(&other, key, key, &w) == BOOSTMAP_ABSENT);
    takes_one(2);
    takes_one(1);
    CHECK(boostmap_caller_clear(&other, &w) == BOOSTMAP_DONE && w == 2 * STRIPES);
    all_stripes();
    CHECK(boostmap_striped_counts(&one, &counts) == BOOSTMAP_DONE);
    CHECK(boostmap_striped_counts(&other, &others) == BOOSTMAP_DONE);
    CHECK(boostmap_striped_free(&one) == BOOSTMAP_DONE && boostmap_striped_free(&other) == BOOSTMAP_DONE);
    is_judged(&host, counts.commits + others.commits);
    adds_no_entry();
    CHECK(boostmap_host_free(&host) == BOOSTMAP_DONE);
    return 0;
}
