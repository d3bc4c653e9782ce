/* Keys that collide under the seed 0: in the hash of a stripe all have one home, so each put passes all keys before it. Under
 * another seed they have homes of their own, and the puts take a small part of the time. */
#include "boostmap.h"
#include "check.h"
#include <time.h>

enum { KEYS = 10000, TIMES = 5 };

/* A key's home is the highest bits of its product with a factor, modulo 2^64. This is the inverse of the factor under the
 * seed 0, so the key i * INVERSE has the product i. */
static const uint64_t INVERSE = 0xf1de83e19937733du;

/* The processor time of putting the keys into a new map of one stripe. */
static clock_t time_under(uint64_t seed) {
    boostmap_caller caller = BOOSTMAP_INIT;
    uint64_t w, i;
    CHECK(boostmap_striped_open(&caller, 1, 1, KEYS, BOOSTMAP_KEEP_NOTHING, seed, &w) == BOOSTMAP_DONE);
    clock_t start = clock();
    CHECK(boostmap_striped_begin(&caller) == BOOSTMAP_DONE);
    for (i = 0; i < KEYS; i++) CHECK(boostmap_striped_put(&caller, i * INVERSE, i, &w) == BOOSTMAP_ABSENT);
    CHECK(boostmap_striped_commit(&caller, &w) == BOOSTMAP_DONE);
    clock_t end = clock();
    CHECK(boostmap_striped_begin(&caller) == BOOSTMAP_DONE);
    for (i = 0; i < KEYS; i++) CHECK(boostmap_striped_get(&caller, i * INVERSE, &w) == BOOSTMAP_DONE && w == i);
    CHECK(boostmap_striped_free(&caller) == BOOSTMAP_DONE);
    return end - start;
}

int main(void) {
    clock_t slow = time_under(0), fast = time_under(12345);
    if (slow <= TIMES * fast) fprintf(stderr, "%ld ticks under the seed 0, %ld under another\n", (long)slow, (long)fast);
    CHECK(slow > TIMES * fast);
    return 0;
}
