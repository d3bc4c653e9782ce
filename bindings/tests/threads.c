/* Four threads move units between accounts. The program's mutex is held for each single call, so
 * transactions of all four are open at the same time; some abort. The sum stays the same. */
#include "boostmap.h"
#include "check.h"
#include <pthread.h>

enum { THREADS = 4, KEYS = 64, ROUNDS = 20000, EACH = 100 };

static boostmap map = BOOSTMAP_INIT;
static pthread_mutex_t lock = PTHREAD_MUTEX_INITIALIZER;

static boostmap_status unlocked(boostmap_status status) {
    pthread_mutex_unlock(&lock);
    return status;
}
#define LOCKED(call) (pthread_mutex_lock(&lock), unlocked(call))

static int move_unit(uint64_t me, uint64_t from, uint64_t to) {
    uint64_t a = 0, b = 0, w;
    return LOCKED(boostmap_get(&map, me, from, &a)) == BOOSTMAP_DONE && a > 0 &&
           LOCKED(boostmap_get(&map, me, to, &b)) == BOOSTMAP_DONE &&
           LOCKED(boostmap_put(&map, me, from, a - 1, &w)) == BOOSTMAP_DONE &&
           LOCKED(boostmap_put(&map, me, to, b + 1, &w)) == BOOSTMAP_DONE;
}

static void *make_transfers(void *arg) {
    uint64_t me = (uint64_t)(uintptr_t)arg, seed = me + 1, w;
    for (int i = 0; i < ROUNDS; i++) {
        seed = seed * 6364136223846793005u + 1442695040888963407u;
        uint64_t from = (seed >> 33) % KEYS, to = (seed >> 50) % KEYS;
        if (from == to) continue;
        CHECK(LOCKED(boostmap_begin(&map, me, &w)) == BOOSTMAP_DONE);
        if (move_unit(me, from, to) && i % 16) CHECK(LOCKED(boostmap_commit(&map, me, &w)) == BOOSTMAP_DONE);
        else CHECK(LOCKED(boostmap_abort(&map, me, &w)) == BOOSTMAP_DONE);
    }
    return 0;
}

int main(void) {
    uint64_t w, sum = 0;
    pthread_t threads[THREADS];
    CHECK(boostmap_new(&map, THREADS, 16, 64) == BOOSTMAP_DONE);
    CHECK(boostmap_begin(&map, 0, &w) == BOOSTMAP_DONE);
    for (uint64_t k = 0; k < KEYS; k++) CHECK(boostmap_put(&map, 0, k, EACH, &w) == BOOSTMAP_ABSENT);
    CHECK(boostmap_commit(&map, 0, &w) == BOOSTMAP_DONE);
    for (uintptr_t i = 0; i < THREADS; i++) CHECK(!pthread_create(&threads[i], 0, make_transfers, (void *)i));
    for (int i = 0; i < THREADS; i++) CHECK(!pthread_join(threads[i], 0));
    CHECK(boostmap_begin(&map, 0, &w) == BOOSTMAP_DONE);
    for (uint64_t k = 0; k < KEYS; k++) {
        CHECK(boostmap_get(&map, 0, k, &w) == BOOSTMAP_DONE);
        sum += w;
    }
    CHECK(sum == EACH * KEYS);
    CHECK(boostmap_free(&map) == BOOSTMAP_DONE);
    return 0;
}
