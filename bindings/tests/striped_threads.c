/* Threads move units between accounts of one striped map, each with its own caller and without a lock.
 * Some transactions are busy, some abort, and each thread's last one is dropped with its caller.
 * The sum stays the same. Usage: striped_threads [THREADS [ROUNDS]] */
#include "boostmap.h"
#include "check.h"
#include <pthread.h>

enum { MOST = 64, KEYS = 64, STRIPES = 16, EACH = 100 };

static struct mover {
    boostmap_caller caller;
    pthread_t thread;
    uint64_t seed, rounds, commits, aborts, busy;
} movers[MOST];
static uint64_t owner_number;
static pthread_barrier_t owner_holds;

/* Moves one unit, in an open transaction. Returns 2 if a stripe was busy, 1 if there is no unit. */
static int move_unit(boostmap_caller *c, uint64_t from, uint64_t to) {
    uint64_t a, b, w;
    if (boostmap_striped_get(c, from, &a) == BOOSTMAP_BUSY) return 2;
    if (a == 0) return 1;
    if (boostmap_striped_put(c, from, a - 1, &w) == BOOSTMAP_BUSY) return 2;
    if (boostmap_striped_get(c, to, &b) == BOOSTMAP_BUSY) return 2;
    CHECK(boostmap_striped_put(c, to, b + 1, &w) == BOOSTMAP_DONE && w == b);
    return 0;
}

static void transfer(struct mover *m, uint64_t round) {
    m->seed = m->seed * 6364136223846793005u + 1442695040888963407u;
    uint64_t from = (m->seed >> 33) % KEYS, to = (m->seed >> 50) % KEYS, place;
    if (from == to) return;
    CHECK(boostmap_striped_begin(&m->caller) == BOOSTMAP_DONE);
    int moved = move_unit(&m->caller, from, to);
    if (moved == 2) {
        m->busy++;
        CHECK(boostmap_striped_abort(&m->caller) == BOOSTMAP_NOT_OPEN);
    } else if (moved == 1 || round % 16 == 0) {
        m->aborts++;
        CHECK(boostmap_striped_abort(&m->caller) == BOOSTMAP_DONE);
    } else {
        m->commits++;
        CHECK(boostmap_striped_commit(&m->caller, &place) == BOOSTMAP_DONE && place > 0);
    }
}

static void *make_transfers(void *arg) {
    struct mover *m = arg;
    uint64_t w;
    /* The owner holds key 0 until every thread has found it. */
    CHECK(boostmap_striped_begin(&m->caller) == BOOSTMAP_DONE);
    CHECK(boostmap_striped_put(&m->caller, 0, 0, &w) == BOOSTMAP_BUSY && w == owner_number);
    pthread_barrier_wait(&owner_holds);
    pthread_barrier_wait(&owner_holds);
    for (uint64_t i = 0; i < m->rounds; i++) transfer(m, i);
    do CHECK(boostmap_striped_begin(&m->caller) == BOOSTMAP_DONE);
    while (boostmap_striped_put(&m->caller, m->seed % KEYS, 7, &w) == BOOSTMAP_BUSY);
    CHECK(boostmap_striped_free(&m->caller) == BOOSTMAP_DONE);
    return 0;
}

int main(int argc, char **argv) {
    uint64_t threads = argc > 1 ? strtoull(argv[1], 0, 10) : 4, rounds = argc > 2 ? strtoull(argv[2], 0, 10) : 20000;
    uint64_t w, place, sum = 0, commits = 1, aborts = 0, busy = 0;
    boostmap_caller owner = BOOSTMAP_INIT;
    CHECK(0 < threads && threads <= MOST);
    CHECK(!pthread_barrier_init(&owner_holds, 0, (unsigned)threads + 1));
    CHECK(boostmap_striped_open(&owner, threads + 1, STRIPES, 0, BOOSTMAP_KEEP_COMMITS, 0, &owner_number) == BOOSTMAP_DONE);
    CHECK(boostmap_striped_begin(&owner) == BOOSTMAP_DONE);
    for (uint64_t k = 0; k < KEYS; k++) CHECK(boostmap_striped_put(&owner, k, EACH, &w) == BOOSTMAP_ABSENT);
    for (uint64_t i = 0; i < threads; i++) {
        movers[i].seed = i + 1;
        movers[i].rounds = rounds;
        CHECK(boostmap_striped_join(&owner, &movers[i].caller, &w) == BOOSTMAP_DONE && w == threads - i);
        CHECK(!pthread_create(&movers[i].thread, 0, make_transfers, &movers[i]));
    }
    pthread_barrier_wait(&owner_holds);
    CHECK(boostmap_striped_commit(&owner, &place) == BOOSTMAP_DONE && place == 1);
    pthread_barrier_wait(&owner_holds);
    for (uint64_t i = 0; i < threads; i++) {
        CHECK(!pthread_join(movers[i].thread, 0));
        commits += movers[i].commits;
        aborts += movers[i].aborts;
        busy += movers[i].busy;
    }
    CHECK(boostmap_striped_begin(&owner) == BOOSTMAP_DONE);
    for (uint64_t k = 0; k < KEYS; k++) {
        CHECK(boostmap_striped_get(&owner, k, &w) == BOOSTMAP_DONE);
        sum += w;
    }
    CHECK(boostmap_striped_commit(&owner, &place) == BOOSTMAP_DONE);
    CHECK(sum == EACH * KEYS && place == commits + 1);
    CHECK(commits > 1 && aborts > 0);
    CHECK(boostmap_striped_free(&owner) == BOOSTMAP_DONE);
    printf("%llu threads: %llu committed, %llu aborted, %llu busy\n", (unsigned long long)threads,
           (unsigned long long)commits, (unsigned long long)aborts, (unsigned long long)(busy + threads));
    return 0;
}
