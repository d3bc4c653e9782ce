/* The content of a map, in arrays that are too short, just long enough and longer. */
#include "boostmap.h"
#include "check.h"

enum { KEYS = 5 };

static const boostmap_pair UNTOUCHED = {77, 77};

static int is(boostmap_pair pair, uint64_t key, uint64_t value) { return pair.key == key && pair.value == value; }

static void read_all(void) {
    /* The order of reversed bits of 0 to 4: 000, 001, 010, 011, 100 read backwards. */
    static const uint64_t order[KEYS] = {0, 4, 2, 1, 3};
    boostmap m = BOOSTMAP_INIT;
    boostmap_pair pairs[KEYS + 1];
    uint64_t w = 77;
    for (int i = 0; i <= KEYS; i++) pairs[i] = UNTOUCHED;
    CHECK(boostmap_read(&m, pairs, KEYS, &w) == BOOSTMAP_EMPTY && w == 77 && is(pairs[0], 77, 77));
    CHECK(boostmap_new(&m, 1, 16, 16) == BOOSTMAP_DONE);
    CHECK(boostmap_read(&m, pairs, KEYS, &w) == BOOSTMAP_DONE && w == 0 && is(pairs[0], 77, 77));
    CHECK(boostmap_begin(&m, 0, &w) == BOOSTMAP_DONE);
    for (uint64_t k = 0; k < KEYS; k++) CHECK(boostmap_put(&m, 0, k, 10 * k, &w) == BOOSTMAP_ABSENT);
    CHECK(boostmap_read(&m, pairs, KEYS - 1, &w) == BOOSTMAP_SHORT && w == KEYS && is(pairs[0], 77, 77));
    CHECK(boostmap_read(&m, pairs, 0, &w) == BOOSTMAP_SHORT && w == KEYS);
    CHECK(boostmap_read(&m, pairs, KEYS + 1, &w) == BOOSTMAP_DONE && w == KEYS);
    for (int i = 0; i < KEYS; i++) CHECK(is(pairs[i], order[i], 10 * order[i]));
    CHECK(is(pairs[KEYS], 77, 77));
    CHECK(boostmap_abort(&m, 0, &w) == BOOSTMAP_DONE);
    CHECK(boostmap_read(&m, pairs, KEYS, &w) == BOOSTMAP_DONE && w == 0);
    CHECK(boostmap_free(&m) == BOOSTMAP_DONE);
}

int main(void) {
    read_all();
    return 0;
}
