/* Each status of each call on a map with one owner, once: what the call returns, what it writes, and what
 * it leaves unchanged. Status 7 is in read.c, 30 in no_memory.c, and 32 needs 2^64 - 2 nodes.
 * What trims leave is in owned.c. */
#include "boostmap.h"
#include "check.h"
#include <string.h>

enum { UNTOUCHED = 77 };

/* One status, and the word after it, which was UNTOUCHED before. */
#define ANSWERS(call, status, after) \
    do {                             \
        w = UNTOUCHED;               \
        CHECK((call) == (status));   \
        CHECK(w == (after));         \
    } while (0)

/* On a handle without a map only boostmap_new does anything. */
static void an_empty_handle(boostmap *m) {
    uint64_t w;
    ANSWERS(boostmap_free(m), BOOSTMAP_EMPTY, UNTOUCHED);
    ANSWERS(boostmap_count(m, &w), BOOSTMAP_EMPTY, UNTOUCHED);
    ANSWERS(boostmap_entries(m, &w), BOOSTMAP_EMPTY, UNTOUCHED);
    ANSWERS(boostmap_trim(m), BOOSTMAP_EMPTY, UNTOUCHED);
    ANSWERS(boostmap_trim_above(m, 1), BOOSTMAP_EMPTY, UNTOUCHED);
    ANSWERS(boostmap_help(m, 0, 1), BOOSTMAP_EMPTY, UNTOUCHED);
    ANSWERS(boostmap_begin(m, 0, &w), BOOSTMAP_EMPTY, UNTOUCHED);
    ANSWERS(boostmap_commit(m, 0, &w), BOOSTMAP_EMPTY, UNTOUCHED);
    ANSWERS(boostmap_abort(m, 0, &w), BOOSTMAP_EMPTY, UNTOUCHED);
    ANSWERS(boostmap_get(m, 0, 1, &w), BOOSTMAP_EMPTY, UNTOUCHED);
    ANSWERS(boostmap_take(m, 0, 1, &w), BOOSTMAP_EMPTY, UNTOUCHED);
    ANSWERS(boostmap_put(m, 0, 1, 2, &w), BOOSTMAP_EMPTY, UNTOUCHED);
    ANSWERS(boostmap_put_if_absent(m, 0, 1, 2, &w), BOOSTMAP_EMPTY, UNTOUCHED);
    ANSWERS(boostmap_put_if_equal(m, 0, 1, 2, 3, &w), BOOSTMAP_EMPTY, UNTOUCHED);
    ANSWERS(boostmap_save(m, 0, &w), BOOSTMAP_EMPTY, UNTOUCHED);
    ANSWERS(boostmap_back(m, 0, 0, &w), BOOSTMAP_EMPTY, UNTOUCHED);
    CHECK(m->tag == 0 && m->held == 0);
}

/* Limits: each number just out of range, and the least and greatest in range. */
static void limits(void) {
    static const struct { uint64_t callers, stripes, buckets; boostmap_status status; } rows[] = {
        {0, 16, 16, BOOSTMAP_LIMIT},     {65, 16, 16, BOOSTMAP_LIMIT},   {1, 0, 16, BOOSTMAP_LIMIT},
        {1, 4097, 16, BOOSTMAP_LIMIT},   {1, 16, 1, BOOSTMAP_LIMIT},     {1, 16, 24, BOOSTMAP_LIMIT},
        {1, 16, 131072, BOOSTMAP_LIMIT}, {UINT64_MAX, 1, 2, BOOSTMAP_LIMIT},
        {1, 1, 2, BOOSTMAP_DONE},        {64, 4096, 65536, BOOSTMAP_DONE},
    };
    for (size_t i = 0; i < sizeof rows / sizeof *rows; i++) {
        boostmap m = BOOSTMAP_INIT;
        CHECK(boostmap_new(&m, rows[i].callers, rows[i].stripes, rows[i].buckets) == rows[i].status);
        CHECK(boostmap_free(&m) == (rows[i].status ? BOOSTMAP_EMPTY : BOOSTMAP_DONE));
    }
}

/* Each call that works in a transaction, except an abort, returns this status. */
static void all_answer(boostmap *m, uint64_t caller, boostmap_status status) {
    uint64_t w;
    ANSWERS(boostmap_get(m, caller, 5, &w), status, UNTOUCHED);
    ANSWERS(boostmap_take(m, caller, 5, &w), status, UNTOUCHED);
    ANSWERS(boostmap_put(m, caller, 5, 50, &w), status, UNTOUCHED);
    ANSWERS(boostmap_put_if_absent(m, caller, 5, 50, &w), status, UNTOUCHED);
    ANSWERS(boostmap_put_if_equal(m, caller, 5, 49, 50, &w), status, UNTOUCHED);
    ANSWERS(boostmap_save(m, caller, &w), status, UNTOUCHED);
    ANSWERS(boostmap_back(m, caller, 0, &w), status, UNTOUCHED);
    ANSWERS(boostmap_commit(m, caller, &w), status, UNTOUCHED);
}

static void order(boostmap *m) {
    uint64_t w;
    ANSWERS(boostmap_new(m, 2, 16, 16), BOOSTMAP_DONE, UNTOUCHED);
    ANSWERS(boostmap_new(m, 1, 1, 2), BOOSTMAP_FULL, UNTOUCHED);
    all_answer(m, 0, BOOSTMAP_NOT_OPEN);
    ANSWERS(boostmap_abort(m, 0, &w), BOOSTMAP_NOT_OPEN, UNTOUCHED);
    all_answer(m, 2, BOOSTMAP_NO_SUCH_CALLER);
    ANSWERS(boostmap_begin(m, 2, &w), BOOSTMAP_NO_SUCH_CALLER, UNTOUCHED);
    ANSWERS(boostmap_abort(m, UINT64_MAX, &w), BOOSTMAP_NO_SUCH_CALLER, UNTOUCHED);
    ANSWERS(boostmap_begin(m, 0, &w), BOOSTMAP_DONE, 1);
    ANSWERS(boostmap_begin(m, 0, &w), BOOSTMAP_ALREADY_OPEN, UNTOUCHED);
}

static void operations(boostmap *m) {
    uint64_t w;
    ANSWERS(boostmap_get(m, 0, 5, &w), BOOSTMAP_ABSENT, UNTOUCHED);
    ANSWERS(boostmap_take(m, 0, 5, &w), BOOSTMAP_ABSENT, UNTOUCHED);
    ANSWERS(boostmap_put_if_equal(m, 0, 5, 49, 53, &w), BOOSTMAP_ABSENT, UNTOUCHED);
    ANSWERS(boostmap_put_if_absent(m, 0, 5, 49, &w), BOOSTMAP_ABSENT, UNTOUCHED);
    ANSWERS(boostmap_take(m, 0, 5, &w), BOOSTMAP_DONE, 49);
    ANSWERS(boostmap_put(m, 0, 5, 50, &w), BOOSTMAP_ABSENT, UNTOUCHED);
    ANSWERS(boostmap_put_if_absent(m, 0, 5, 51, &w), BOOSTMAP_DONE, 50);
    ANSWERS(boostmap_put_if_equal(m, 0, 5, 49, 53, &w), BOOSTMAP_DONE, 50);
    ANSWERS(boostmap_put_if_equal(m, 0, 5, 50, 52, &w), BOOSTMAP_DONE, 50);
    ANSWERS(boostmap_get(m, 0, 5, &w), BOOSTMAP_DONE, 52);
    ANSWERS(boostmap_save(m, 0, &w), BOOSTMAP_DONE, 1);
    ANSWERS(boostmap_take(m, 0, 5, &w), BOOSTMAP_DONE, 52);
    ANSWERS(boostmap_get(m, 0, 5, &w), BOOSTMAP_ABSENT, UNTOUCHED);
    ANSWERS(boostmap_back(m, 0, 2, &w), BOOSTMAP_NO_SUCH_LEVEL, UNTOUCHED);
    ANSWERS(boostmap_back(m, 0, 1, &w), BOOSTMAP_DONE, 1);
    ANSWERS(boostmap_get(m, 0, 5, &w), BOOSTMAP_DONE, 52);
}

/* An operation of caller 1 on key 5 or another key of its stripe, by its number. */
static boostmap_status operation(boostmap *m, int number, uint64_t *w) {
    switch (number) {
    case 0: return boostmap_get(m, 1, 5, w);
    case 1: return boostmap_take(m, 1, 5, w);
    case 2: return boostmap_put(m, 1, 5, 50, w);
    case 3: return boostmap_put_if_absent(m, 1, 5 + 16, 50, w);
    default: return boostmap_put_if_equal(m, 1, 5 + 16, 49, 50, w);
    }
}

/* Caller 0 holds the stripe of key 5 in a transaction: each operation of caller 1 is busy. */
static void two_callers(boostmap *m) {
    uint64_t w;
    for (int i = 0; i < 5; i++) {
        ANSWERS(boostmap_begin(m, 1, &w), BOOSTMAP_DONE, 2u + (unsigned)i);
        ANSWERS(operation(m, i, &w), BOOSTMAP_BUSY, 0);
        all_answer(m, 1, BOOSTMAP_LEAVING);
        ANSWERS(boostmap_begin(m, 1, &w), BOOSTMAP_LEAVING, UNTOUCHED);
        ANSWERS(boostmap_abort(m, 1, &w), BOOSTMAP_DONE, UNTOUCHED);
    }
    ANSWERS(boostmap_count(m, &w), BOOSTMAP_DONE, 1);
    ANSWERS(boostmap_commit(m, 0, &w), BOOSTMAP_DONE, 1);
    ANSWERS(boostmap_begin(m, 1, &w), BOOSTMAP_DONE, 7);
    ANSWERS(boostmap_put(m, 1, 5, 99, &w), BOOSTMAP_DONE, 52);
    ANSWERS(boostmap_abort(m, 1, &w), BOOSTMAP_DONE, UNTOUCHED);
    ANSWERS(boostmap_begin(m, 1, &w), BOOSTMAP_DONE, 8);
    ANSWERS(boostmap_get(m, 1, 5, &w), BOOSTMAP_DONE, 52);
    ANSWERS(boostmap_commit(m, 1, &w), BOOSTMAP_DONE, 2);
    ANSWERS(boostmap_begin(m, 0, &w), BOOSTMAP_DONE, 9);
    ANSWERS(boostmap_trim(m), BOOSTMAP_ALREADY_OPEN, UNTOUCHED);
    ANSWERS(boostmap_abort(m, 0, &w), BOOSTMAP_DONE, UNTOUCHED);
    ANSWERS(boostmap_trim(m), BOOSTMAP_DONE, UNTOUCHED);
    ANSWERS(boostmap_entries(m, &w), BOOSTMAP_DONE, 4);
    ANSWERS(boostmap_trim_above(m, 1), BOOSTMAP_DONE, UNTOUCHED);
    ANSWERS(boostmap_help(m, 0, 5), BOOSTMAP_DONE, UNTOUCHED);
    ANSWERS(boostmap_help(m, 2, 5), BOOSTMAP_NO_SUCH_HELPER, UNTOUCHED);
}

/* Each status that has a name has a text, no two have the same, and no other number has one. */
static void words(void) {
    const char *none = boostmap_text(63);
    int named = 0;
    for (boostmap_status status = 0; status < 100; status++) {
        const char *text = boostmap_text(status);
        if (!strcmp(text, none)) continue;
        named++;
        for (boostmap_status other = 0; other < status; other++) CHECK(strcmp(text, boostmap_text(other)));
    }
    CHECK(named == 23);
    CHECK(!strcmp(boostmap_text(BOOSTMAP_NO_MEMORY), "memory was refused"));
}

int main(void) {
    boostmap m = BOOSTMAP_INIT;
    words();
    an_empty_handle(&m);
    limits();
    order(&m);
    operations(&m);
    two_callers(&m);
    CHECK(boostmap_free(&m) == BOOSTMAP_DONE);
    an_empty_handle(&m);
    return 0;
}
