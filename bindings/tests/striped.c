/* Each status of each call on a caller of a striped map, once: what the call returns, what it writes, and
 * what it leaves unchanged. Status 30 is in no_memory.c, and those of two calls are in run.c and stripe.c. */
#include "boostmap.h"
#include "check.h"

enum { UNTOUCHED = 77 };

/* One status, and the word after it, which was UNTOUCHED before. */
#define ANSWERS(call, status, after) \
    do {                             \
        w = UNTOUCHED;               \
        CHECK((call) == (status));   \
        CHECK(w == (after));         \
    } while (0)
#define IS(call, status) CHECK((call) == (status))

/* On an empty handle only open does anything, and on an empty second handle join. */
static void an_empty_handle(boostmap_caller *c) {
    boostmap_caller next = BOOSTMAP_INIT;
    boostmap_pair pair = {UNTOUCHED, UNTOUCHED};
    uint64_t w;
    IS(boostmap_striped_free(c), BOOSTMAP_EMPTY);
    IS(boostmap_striped_begin(c), BOOSTMAP_EMPTY);
    IS(boostmap_striped_abort(c), BOOSTMAP_EMPTY);
    IS(boostmap_striped_back(c, 0), BOOSTMAP_EMPTY);
    ANSWERS(boostmap_striped_join(c, &next, &w), BOOSTMAP_EMPTY, UNTOUCHED);
    ANSWERS(boostmap_striped_commit(c, &w), BOOSTMAP_EMPTY, UNTOUCHED);
    ANSWERS(boostmap_striped_get(c, 1, &w), BOOSTMAP_EMPTY, UNTOUCHED);
    ANSWERS(boostmap_striped_take(c, 1, &w), BOOSTMAP_EMPTY, UNTOUCHED);
    ANSWERS(boostmap_striped_put(c, 1, 2, &w), BOOSTMAP_EMPTY, UNTOUCHED);
    ANSWERS(boostmap_striped_put_if_absent(c, 1, 2, &w), BOOSTMAP_EMPTY, UNTOUCHED);
    ANSWERS(boostmap_striped_put_if_equal(c, 1, 2, 3, &w), BOOSTMAP_EMPTY, UNTOUCHED);
    ANSWERS(boostmap_striped_save(c, &w), BOOSTMAP_EMPTY, UNTOUCHED);
    ANSWERS(boostmap_striped_count(c, &w), BOOSTMAP_EMPTY, UNTOUCHED);
    ANSWERS(boostmap_striped_read(c, &pair, 1, &w), BOOSTMAP_EMPTY, UNTOUCHED);
    CHECK(pair.key == UNTOUCHED);
    CHECK(c->tag == 0 && c->held == 0 && next.tag == 0 && next.held == 0);
}

/* Limits: each number just out of range, and the least and greatest in range. */
static void limits(void) {
    static const struct { uint64_t callers, stripes; boostmap_status status; } rows[] = {
        {0, 16, BOOSTMAP_LIMIT}, {4097, 16, BOOSTMAP_LIMIT},       {1, 0, BOOSTMAP_LIMIT}, {1, 4097, BOOSTMAP_LIMIT},
        {1, 1, BOOSTMAP_DONE},   {UINT64_MAX, 1, BOOSTMAP_LIMIT},  {4096, 4096, BOOSTMAP_DONE},
    };
    uint64_t w;
    for (size_t i = 0; i < sizeof rows / sizeof *rows; i++) {
        boostmap_caller c = BOOSTMAP_INIT;
        boostmap_status status = rows[i].status;
        ANSWERS(boostmap_striped_open(&c, rows[i].callers, rows[i].stripes, 0, BOOSTMAP_KEEP_COMMITS, 0, &w), status,
                status ? UNTOUCHED : rows[i].callers);
        IS(boostmap_striped_free(&c), status ? BOOSTMAP_EMPTY : BOOSTMAP_DONE);
    }
}

static int counted(boostmap_caller *c, uint64_t commits, uint64_t aborts, uint64_t busy) {
    boostmap_counts counts;
    IS(boostmap_striped_counts(c, &counts), BOOSTMAP_DONE);
    return counts.commits == commits && counts.aborts == aborts && counts.busy == busy;
}

/* A caller counts the ends of its transactions, and nothing else. */
static void counting(void) {
    boostmap_caller c = BOOSTMAP_INIT, other = BOOSTMAP_INIT;
    boostmap_counts counts = {1, 2, 3};
    uint64_t w;
    IS(boostmap_striped_counts(&c, &counts), BOOSTMAP_EMPTY);
    CHECK(counts.commits == 1 && counts.aborts == 2 && counts.busy == 3);
    IS(boostmap_striped_open(&c, 2, 4, 0, BOOSTMAP_KEEP_NOTHING, 0, &w), BOOSTMAP_DONE);
    IS(boostmap_striped_join(&c, &other, &w), BOOSTMAP_DONE);
    IS(boostmap_striped_commit(&c, &w), BOOSTMAP_NOT_OPEN);
    IS(boostmap_striped_abort(&c), BOOSTMAP_NOT_OPEN);
    CHECK(counted(&c, 0, 0, 0));
    IS(boostmap_striped_begin(&c), BOOSTMAP_DONE);
    IS(boostmap_striped_begin(&c), BOOSTMAP_ALREADY_OPEN);
    IS(boostmap_striped_put(&c, 1, 10, &w), BOOSTMAP_ABSENT);
    for (uint64_t i = 1; i <= 3; i++) {
        IS(boostmap_striped_begin(&other), BOOSTMAP_DONE);
        IS(i == 1   ? boostmap_striped_get(&other, 1, &w)
           : i == 2 ? boostmap_striped_count(&other, &w)
                    : boostmap_striped_read(&other, &(boostmap_pair){0, 0}, 1, &w),
           BOOSTMAP_BUSY);
        CHECK(counted(&other, 0, 0, i));
    }
    IS(boostmap_striped_save(&c, &w), BOOSTMAP_DONE);
    IS(boostmap_striped_back(&c, 0), BOOSTMAP_DONE);
    IS(boostmap_striped_abort(&c), BOOSTMAP_DONE);
    IS(boostmap_striped_begin(&c), BOOSTMAP_DONE);
    IS(boostmap_striped_commit(&c, &w), BOOSTMAP_DONE);
    CHECK(counted(&c, 1, 1, 0) && counted(&other, 0, 0, 3));
    IS(boostmap_striped_free(&c), BOOSTMAP_DONE);
    IS(boostmap_striped_free(&other), BOOSTMAP_DONE);
}

/* A map that keeps nothing tells no place, and only 0 to 2 say what a map keeps. */
static void keeping(void) {
    boostmap_caller c = BOOSTMAP_INIT;
    uint64_t w;
    ANSWERS(boostmap_striped_open(&c, 1, 1, 0, 3, 0, &w), BOOSTMAP_LIMIT, UNTOUCHED);
    ANSWERS(boostmap_striped_open(&c, 1, 1, 1000, BOOSTMAP_KEEP_NOTHING, UINT64_MAX, &w), BOOSTMAP_DONE, 1);
    IS(boostmap_striped_begin(&c), BOOSTMAP_DONE);
    ANSWERS(boostmap_striped_commit(&c, &w), BOOSTMAP_DONE, 0);
    IS(boostmap_striped_free(&c), BOOSTMAP_DONE);
}

static uint64_t option(boostmap_caller *c, uint64_t number) {
    uint64_t w;
    IS(boostmap_striped_option(c, number, &w), BOOSTMAP_DONE);
    return w;
}

/* A map that is opened with options: the given ones, defaults for those that are 0 or missing, and not more
 * than there are. Every caller of the map tells them. */
static void options(void) {
    static const uint64_t more[] = {1, 1, 0, 0, 0, 0};
    boostmap_options some = {.callers = 2, .keys = 1000, .keep = BOOSTMAP_KEEP_COMMITS, .seed = 7}, none = {.callers = 0};
    boostmap_caller c = BOOSTMAP_INIT, next = BOOSTMAP_INIT;
    uint64_t w;
    ANSWERS(boostmap_striped_option(&c, 0, &w), BOOSTMAP_EMPTY, UNTOUCHED);
    ANSWERS(boostmap_striped_open_with(&c, &some, &w), BOOSTMAP_DONE, 2);
    ANSWERS(boostmap_striped_open_with(&c, &some, &w), BOOSTMAP_FULL, UNTOUCHED);
    ANSWERS(boostmap_striped_open_words(&c, more, 6, &w), BOOSTMAP_FULL, UNTOUCHED);
    ANSWERS(boostmap_striped_join(&c, &next, &w), BOOSTMAP_DONE, 1);
    IS(boostmap_striped_free(&c), BOOSTMAP_DONE);
    CHECK(option(&next, BOOSTMAP_OPTION_CALLERS) == 2 && option(&next, BOOSTMAP_OPTION_STRIPES) == 1024);
    CHECK(option(&next, BOOSTMAP_OPTION_KEYS) == 1000 && option(&next, BOOSTMAP_OPTION_SEED) == 7);
    CHECK(option(&next, BOOSTMAP_OPTION_KEEP) == BOOSTMAP_KEEP_COMMITS);
    ANSWERS(boostmap_striped_option(&next, 5, &w), BOOSTMAP_LIMIT, UNTOUCHED);
    IS(boostmap_striped_free(&next), BOOSTMAP_DONE);
    ANSWERS(boostmap_striped_open_words(&c, more, 6, &w), BOOSTMAP_LIMIT, UNTOUCHED);
    ANSWERS(boostmap_striped_open_words(&c, more, 1, &w), BOOSTMAP_DONE, 1);
    CHECK(option(&c, BOOSTMAP_OPTION_STRIPES) == 1024);
    IS(boostmap_striped_free(&c), BOOSTMAP_DONE);
    ANSWERS(boostmap_striped_open_with(&c, &none, &w), BOOSTMAP_DONE, 1);
    CHECK(option(&c, BOOSTMAP_OPTION_CALLERS) == 1 && option(&c, BOOSTMAP_OPTION_KEEP) == BOOSTMAP_KEEP_NOTHING);
    IS(boostmap_striped_free(&c), BOOSTMAP_DONE);
    none.keep = 3;
    ANSWERS(boostmap_striped_open_with(&c, &none, &w), BOOSTMAP_LIMIT, UNTOUCHED);
    none.keep = ((uint64_t)1 << 32);
    ANSWERS(boostmap_striped_open_with(&c, &none, &w), BOOSTMAP_LIMIT, UNTOUCHED);
}

static void joining(boostmap_caller c[3]) {
    uint64_t w;
    boostmap_caller fourth = BOOSTMAP_INIT;
    ANSWERS(boostmap_striped_open(&c[0], 3, 16, 0, BOOSTMAP_KEEP_COMMITS, 0, &w), BOOSTMAP_DONE, 3);
    ANSWERS(boostmap_striped_open(&c[0], 1, 1, 0, BOOSTMAP_KEEP_COMMITS, 0, &w), BOOSTMAP_FULL, UNTOUCHED);
    ANSWERS(boostmap_striped_join(&c[0], &c[1], &w), BOOSTMAP_DONE, 2);
    ANSWERS(boostmap_striped_join(&c[0], &c[1], &w), BOOSTMAP_FULL, UNTOUCHED);
    ANSWERS(boostmap_striped_join(&c[1], &c[2], &w), BOOSTMAP_NO_SUCH_CALLER, UNTOUCHED);
    ANSWERS(boostmap_striped_join(&c[0], &c[2], &w), BOOSTMAP_DONE, 1);
    ANSWERS(boostmap_striped_join(&c[0], &fourth, &w), BOOSTMAP_NO_SUCH_CALLER, UNTOUCHED);
    CHECK(fourth.tag == 0 && fourth.held == 0);
}

/* Each call that works in a transaction, on a caller without one. */
static void not_open(boostmap_caller *c) {
    boostmap_pair pair = {UNTOUCHED, UNTOUCHED};
    uint64_t w;
    IS(boostmap_striped_abort(c), BOOSTMAP_NOT_OPEN);
    IS(boostmap_striped_back(c, 0), BOOSTMAP_NOT_OPEN);
    ANSWERS(boostmap_striped_commit(c, &w), BOOSTMAP_NOT_OPEN, UNTOUCHED);
    ANSWERS(boostmap_striped_get(c, 5, &w), BOOSTMAP_NOT_OPEN, UNTOUCHED);
    ANSWERS(boostmap_striped_take(c, 5, &w), BOOSTMAP_NOT_OPEN, UNTOUCHED);
    ANSWERS(boostmap_striped_put(c, 5, 50, &w), BOOSTMAP_NOT_OPEN, UNTOUCHED);
    ANSWERS(boostmap_striped_put_if_absent(c, 5, 50, &w), BOOSTMAP_NOT_OPEN, UNTOUCHED);
    ANSWERS(boostmap_striped_put_if_equal(c, 5, 49, 50, &w), BOOSTMAP_NOT_OPEN, UNTOUCHED);
    ANSWERS(boostmap_striped_save(c, &w), BOOSTMAP_NOT_OPEN, UNTOUCHED);
    ANSWERS(boostmap_striped_count(c, &w), BOOSTMAP_NOT_OPEN, UNTOUCHED);
    ANSWERS(boostmap_striped_read(c, &pair, 1, &w), BOOSTMAP_NOT_OPEN, UNTOUCHED);
    CHECK(pair.key == UNTOUCHED);
}

static void order(boostmap_caller *c) {
    not_open(c);
    IS(boostmap_striped_begin(c), BOOSTMAP_DONE);
    IS(boostmap_striped_begin(c), BOOSTMAP_ALREADY_OPEN);
}

static void operations(boostmap_caller *c) {
    uint64_t w;
    ANSWERS(boostmap_striped_get(c, 5, &w), BOOSTMAP_ABSENT, UNTOUCHED);
    ANSWERS(boostmap_striped_take(c, 5, &w), BOOSTMAP_ABSENT, UNTOUCHED);
    ANSWERS(boostmap_striped_put_if_equal(c, 5, 49, 53, &w), BOOSTMAP_ABSENT, UNTOUCHED);
    ANSWERS(boostmap_striped_put_if_absent(c, 5, 49, &w), BOOSTMAP_ABSENT, UNTOUCHED);
    ANSWERS(boostmap_striped_take(c, 5, &w), BOOSTMAP_DONE, 49);
    ANSWERS(boostmap_striped_put(c, 5, 50, &w), BOOSTMAP_ABSENT, UNTOUCHED);
    ANSWERS(boostmap_striped_put_if_absent(c, 5, 51, &w), BOOSTMAP_DONE, 50);
    ANSWERS(boostmap_striped_put_if_equal(c, 5, 49, 53, &w), BOOSTMAP_DONE, 50);
    ANSWERS(boostmap_striped_put_if_equal(c, 5, 50, 52, &w), BOOSTMAP_DONE, 50);
    ANSWERS(boostmap_striped_get(c, 5, &w), BOOSTMAP_DONE, 52);
    ANSWERS(boostmap_striped_save(c, &w), BOOSTMAP_DONE, 1);
    ANSWERS(boostmap_striped_take(c, 5, &w), BOOSTMAP_DONE, 52);
    ANSWERS(boostmap_striped_save(c, &w), BOOSTMAP_DONE, 2);
    ANSWERS(boostmap_striped_put_if_absent(c, 5, UINT64_MAX, &w), BOOSTMAP_ABSENT, UNTOUCHED);
    IS(boostmap_striped_back(c, 3), BOOSTMAP_NO_SUCH_LEVEL);
    IS(boostmap_striped_back(c, 1), BOOSTMAP_DONE);
    IS(boostmap_striped_back(c, 2), BOOSTMAP_NO_SUCH_LEVEL);
    ANSWERS(boostmap_striped_get(c, 5, &w), BOOSTMAP_DONE, 52);
}

/* An operation on key 5 or another key of its stripe, by its number. */
static boostmap_status operation(boostmap_caller *c, int number, uint64_t *w) {
    switch (number) {
    case 0: return boostmap_striped_get(c, 5, w);
    case 1: return boostmap_striped_take(c, 5, w);
    case 2: return boostmap_striped_put(c, 5, 50, w);
    case 3: return boostmap_striped_put_if_absent(c, 5 + 16, 50, w);
    default: return boostmap_striped_put_if_equal(c, 5 + 16, 49, 50, w);
    }
}

/* Caller 3 holds the stripe of key 5 in a transaction: each operation of caller 2 is busy, and so is one
 * of caller 1. */
static void two_callers(boostmap_caller *three, boostmap_caller *two, boostmap_caller *one) {
    uint64_t w;
    for (int i = 0; i < 5; i++) {
        IS(boostmap_striped_begin(two), BOOSTMAP_DONE);
        ANSWERS(boostmap_striped_put(two, 6, 60, &w), BOOSTMAP_ABSENT, UNTOUCHED);
        ANSWERS(operation(two, i, &w), BOOSTMAP_BUSY, 3);
        not_open(two);
    }
    IS(boostmap_striped_begin(one), BOOSTMAP_DONE);
    ANSWERS(boostmap_striped_get(one, 6, &w), BOOSTMAP_ABSENT, UNTOUCHED);
    ANSWERS(boostmap_striped_put(one, 5 + 16, 1, &w), BOOSTMAP_BUSY, 3);
    ANSWERS(boostmap_striped_commit(three, &w), BOOSTMAP_DONE, 1);
    IS(boostmap_striped_begin(two), BOOSTMAP_DONE);
    ANSWERS(boostmap_striped_take(two, 5, &w), BOOSTMAP_DONE, 52);
    IS(boostmap_striped_abort(two), BOOSTMAP_DONE);
    IS(boostmap_striped_begin(one), BOOSTMAP_DONE);
    ANSWERS(boostmap_striped_get(one, 5, &w), BOOSTMAP_DONE, 52);
    ANSWERS(boostmap_striped_commit(one, &w), BOOSTMAP_DONE, 2);
}

/* The whole map: the caller's own changes, an array that is too short, and a stripe that another holds. */
static void contents(boostmap_caller *three, boostmap_caller *two) {
    uint64_t w;
    boostmap_pair pairs[3] = {{UNTOUCHED, 0}, {UNTOUCHED, 0}, {UNTOUCHED, 0}};
    IS(boostmap_striped_begin(three), BOOSTMAP_DONE);
    ANSWERS(boostmap_striped_put(three, UINT64_MAX, 1, &w), BOOSTMAP_ABSENT, UNTOUCHED);
    ANSWERS(boostmap_striped_count(three, &w), BOOSTMAP_DONE, 2);
    ANSWERS(boostmap_striped_read(three, pairs, 1, &w), BOOSTMAP_SHORT, 2);
    CHECK(pairs[0].key == UNTOUCHED);
    ANSWERS(boostmap_striped_read(three, pairs, 3, &w), BOOSTMAP_DONE, 2);
    CHECK(pairs[0].key == 5 && pairs[0].value == 52 && pairs[1].key == UINT64_MAX && pairs[1].value == 1);
    CHECK(pairs[2].key == UNTOUCHED);
    IS(boostmap_striped_begin(two), BOOSTMAP_DONE);
    ANSWERS(boostmap_striped_count(two, &w), BOOSTMAP_BUSY, 3);
    ANSWERS(boostmap_striped_commit(two, &w), BOOSTMAP_NOT_OPEN, UNTOUCHED);
    IS(boostmap_striped_begin(two), BOOSTMAP_DONE);
    ANSWERS(boostmap_striped_read(two, pairs, 3, &w), BOOSTMAP_BUSY, 3);
    IS(boostmap_striped_abort(three), BOOSTMAP_DONE);
    IS(boostmap_striped_begin(two), BOOSTMAP_DONE);
    ANSWERS(boostmap_striped_count(two, &w), BOOSTMAP_DONE, 1);
    IS(boostmap_striped_abort(two), BOOSTMAP_DONE);
}

/* A caller that is freed in a transaction aborts it; the map remains for the others. */
static void freeing(boostmap_caller c[3]) {
    uint64_t w;
    IS(boostmap_striped_begin(&c[0]), BOOSTMAP_DONE);
    ANSWERS(boostmap_striped_put(&c[0], 5, 99, &w), BOOSTMAP_DONE, 52);
    IS(boostmap_striped_free(&c[0]), BOOSTMAP_DONE);
    an_empty_handle(&c[0]);
    IS(boostmap_striped_begin(&c[1]), BOOSTMAP_DONE);
    ANSWERS(boostmap_striped_get(&c[1], 5, &w), BOOSTMAP_DONE, 52);
    ANSWERS(boostmap_striped_commit(&c[1], &w), BOOSTMAP_DONE, 3);
    IS(boostmap_striped_free(&c[1]), BOOSTMAP_DONE);
    IS(boostmap_striped_free(&c[2]), BOOSTMAP_DONE);
}

/* What the callers of a map write does not lie side by side: between two callers there is twice 128 bytes
 * that no call writes, besides the callers themselves. */
static void apart(void) {
    enum { CALLERS = 64, PADS = 2 * 128, LEAST = 64 };
    static boostmap_caller c[CALLERS];
    uint64_t w;
    IS(boostmap_striped_open(&c[0], CALLERS, 1, 0, BOOSTMAP_KEEP_NOTHING, 0, &w), BOOSTMAP_DONE);
    for (int i = 1; i < CALLERS; i++) IS(boostmap_striped_join(&c[0], &c[i], &w), BOOSTMAP_DONE);
    for (int i = 0; i < CALLERS; i++) {
        for (int j = 0; j < i; j++) {
            uintptr_t one = (uintptr_t)c[i].held, other = (uintptr_t)c[j].held;
            CHECK((one < other ? other - one : one - other) >= PADS + LEAST);
        }
    }
    for (int i = 0; i < CALLERS; i++) IS(boostmap_striped_free(&c[i]), BOOSTMAP_DONE);
}

int main(void) {
    boostmap_caller c[3] = {BOOSTMAP_INIT, BOOSTMAP_INIT, BOOSTMAP_INIT};
    an_empty_handle(&c[0]);
    limits();
    keeping();
    counting();
    options();
    joining(c);
    order(&c[0]);
    operations(&c[0]);
    two_callers(&c[0], &c[1], &c[2]);
    contents(&c[0], &c[1]);
    freeing(c);
    apart();
    return 0;
}
