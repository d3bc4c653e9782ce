/* What the manual page says that no status shows: its synopsis, which keys share a stripe, that a lock of the program keeps others out of
 * a snapshot, that handles move, how long waits take, and that calls need little stack. */
#include "boostmap.h"
#include "check.h"
#include <pthread.h>
#include <stdatomic.h>
#include <string.h>
#include <time.h>
#include <unistd.h>

enum { MOVERS = 4, KEYS = 40, EACH = 100, AUDITS = 100, MOVES = 10000, STACK = 16384, MANY = 1000, ENTRIES = 8 * MANY };

static void opens(boostmap_caller *callers, uint64_t count, uint64_t stripes, uint32_t keep) {
    uint64_t w;
    CHECK(boostmap_striped_open(&callers[0], count, stripes, 0, keep, 0, &w) == BOOSTMAP_DONE);
    for (uint64_t i = 1; i < count; i++) CHECK(boostmap_striped_join(&callers[0], &callers[i], &w) == BOOSTMAP_DONE);
}

static void frees(boostmap_caller *callers, uint64_t count) {
    for (uint64_t i = 0; i < count; i++) CHECK(boostmap_striped_free(&callers[i]) == BOOSTMAP_DONE);
}

/* The program of the synopsis. */
static void synopsis(void) {
    boostmap_caller mine = BOOSTMAP_INIT, yours = BOOSTMAP_INIT;
    boostmap map = BOOSTMAP_INIT;
    uint64_t word;
    CHECK(boostmap_striped_open(&mine, 2, 64, 0, BOOSTMAP_KEEP_NOTHING, 0, &word) == BOOSTMAP_DONE);
    CHECK(boostmap_striped_join(&mine, &yours, &word) == BOOSTMAP_DONE && boostmap_striped_begin(&mine) == BOOSTMAP_DONE);
    CHECK(boostmap_striped_put(&mine, 7, 70, &word) == BOOSTMAP_ABSENT && boostmap_striped_commit(&mine, &word) == BOOSTMAP_DONE);
    CHECK(boostmap_caller_add(&mine, 7, -5, &word) == BOOSTMAP_DONE && word == 70);
    CHECK(boostmap_caller_get(&yours, 7, &word) == BOOSTMAP_DONE && word == 65);
    CHECK(boostmap_striped_free(&mine) == BOOSTMAP_DONE && boostmap_striped_free(&yours) == BOOSTMAP_DONE);
    CHECK(boostmap_new(&map, 2, 64, 1024) == BOOSTMAP_DONE && boostmap_begin(&map, 0, &word) == BOOSTMAP_DONE);
    CHECK(boostmap_put(&map, 0, 7, 70, &word) == BOOSTMAP_ABSENT);
    CHECK(boostmap_get(&map, 0, 7, &word) == BOOSTMAP_DONE && word == 70);
    CHECK(boostmap_commit(&map, 0, &word) == BOOSTMAP_DONE && word == 1 && boostmap_free(&map) == BOOSTMAP_DONE);
}

/* How many of the keys 128, 192 .. 3904 are busy while another caller holds the key 64. */
static int busy_beside_64(uint64_t stripes) {
    boostmap_caller c[2] = {BOOSTMAP_INIT, BOOSTMAP_INIT};
    uint64_t w;
    int busy = 0;
    opens(c, 2, stripes, BOOSTMAP_KEEP_NOTHING);
    CHECK(boostmap_striped_begin(&c[0]) == BOOSTMAP_DONE && boostmap_striped_put(&c[0], 64, 1, &w) == BOOSTMAP_ABSENT);
    for (uint64_t i = 2; i <= 61; i++) {
        CHECK(boostmap_striped_begin(&c[1]) == BOOSTMAP_DONE);
        busy += boostmap_striped_get(&c[1], 64 * i, &w) == BOOSTMAP_BUSY;
        boostmap_striped_abort(&c[1]);
    }
    frees(c, 2);
    return busy;
}

static pthread_rwlock_t everything;
static atomic_int is_over;
static atomic_long made;

typedef struct {
    uint64_t from, to;
} move;

static boostmap_status moves_one(boostmap_caller *c, void *with) {
    const move *m = with;
    uint64_t w;
    boostmap_status status = boostmap_striped_add(c, m->from, -1, &w);
    return status == BOOSTMAP_DONE ? boostmap_striped_add(c, m->to, 1, &w) : status;
}

static void *moves(void *caller) {
    uint64_t seed = (uint64_t)(uintptr_t)caller, w;
    while (!is_over) {
        seed = seed * 6364136223846793005u + 1442695040888963407u;
        move m = {(seed >> 33) % KEYS, (seed >> 50) % KEYS};
        CHECK(!pthread_rwlock_rdlock(&everything));
        boostmap_status status = boostmap_caller_transact(caller, UINT64_MAX, moves_one, &m, &w);
        CHECK(!pthread_rwlock_unlock(&everything));
        CHECK(status == BOOSTMAP_DONE || status == BOOSTMAP_OVERFLOW);
        made += status == BOOSTMAP_DONE;
    }
    return NULL;
}

/* A snapshot that is made under the lock is never busy. There are so many, until so many moves were made. */
static void audits(boostmap_caller *c) {
    const struct timespec pause = {0, 200000};
    boostmap_pair pairs[KEYS];
    boostmap_counts counts;
    uint64_t count, w, audit;
    for (audit = 0; audit < AUDITS || made < MOVES; audit++) {
        uint64_t sum = 0;
        CHECK(!pthread_rwlock_wrlock(&everything));
        CHECK(boostmap_striped_begin(c) == BOOSTMAP_DONE);
        CHECK(boostmap_striped_read(c, pairs, KEYS, &count) == BOOSTMAP_DONE && count == KEYS);
        CHECK(boostmap_striped_commit(c, &w) == BOOSTMAP_DONE);
        CHECK(!pthread_rwlock_unlock(&everything));
        for (int i = 0; i < KEYS; i++) sum += pairs[i].value;
        CHECK(sum == KEYS * EACH);
        nanosleep(&pause, NULL);
    }
    CHECK(boostmap_striped_counts(c, &counts) == BOOSTMAP_DONE && counts.commits == audit && counts.busy == 0);
    printf("manual: %llu snapshots beside %ld moves\n", (unsigned long long)audit, (long)made);
}

static void snapshots(void) {
    static boostmap_caller c[MOVERS + 2];
    pthread_t threads[MOVERS];
    pthread_rwlockattr_t waits;
    uint64_t w;
    CHECK(!pthread_rwlockattr_init(&waits));
    CHECK(!pthread_rwlockattr_setkind_np(&waits, PTHREAD_RWLOCK_PREFER_WRITER_NONRECURSIVE_NP));
    CHECK(!pthread_rwlock_init(&everything, &waits));
    opens(c, MOVERS + 2, 16, BOOSTMAP_KEEP_NOTHING);
    for (uint64_t key = 0; key < KEYS; key++) CHECK(boostmap_caller_put(&c[0], key, EACH, &w) == BOOSTMAP_ABSENT);
    for (int i = 0; i < MOVERS; i++) CHECK(!pthread_create(&threads[i], NULL, moves, &c[i + 2]));
    audits(&c[1]);
    is_over = 1;
    for (int i = 0; i < MOVERS; i++) CHECK(!pthread_join(threads[i], NULL));
    frees(c, MOVERS + 2);
}

static void *commits(void *caller) {
    uint64_t w;
    CHECK(boostmap_striped_put(caller, 2, 20, &w) == BOOSTMAP_ABSENT);
    CHECK(boostmap_striped_commit(caller, &w) == BOOSTMAP_DONE);
    return NULL;
}

/* A handle moves to other bytes and to another thread within a transaction. */
static void moved(void) {
    boostmap_caller here = BOOSTMAP_INIT, there;
    boostmap map = BOOSTMAP_INIT, other;
    pthread_t thread;
    uint64_t w;
    opens(&here, 1, 8, BOOSTMAP_KEEP_NOTHING);
    CHECK(boostmap_striped_begin(&here) == BOOSTMAP_DONE && boostmap_striped_put(&here, 1, 10, &w) == BOOSTMAP_ABSENT);
    memcpy(&there, &here, sizeof there);
    memset(&here, 0, sizeof here);
    CHECK(!pthread_create(&thread, NULL, commits, &there) && !pthread_join(thread, NULL));
    CHECK(boostmap_caller_get(&there, 1, &w) == BOOSTMAP_DONE && w == 10);
    CHECK(boostmap_caller_get(&there, 2, &w) == BOOSTMAP_DONE && w == 20);
    CHECK(boostmap_striped_begin(&here) == BOOSTMAP_EMPTY && boostmap_striped_free(&there) == BOOSTMAP_DONE);
    CHECK(boostmap_new(&map, 1, 8, 8) == BOOSTMAP_DONE && boostmap_begin(&map, 0, &w) == BOOSTMAP_DONE);
    memcpy(&other, &map, sizeof other);
    memset(&map, 0, sizeof map);
    CHECK(boostmap_put(&other, 0, 1, 10, &w) == BOOSTMAP_ABSENT && boostmap_commit(&other, 0, &w) == BOOSTMAP_DONE);
    CHECK(boostmap_free(&map) == BOOSTMAP_EMPTY && boostmap_free(&other) == BOOSTMAP_DONE);
}

/* After the first thirteen, a thousand waits take a quarter of a second or more. */
static void waits(void) {
    struct timespec from, to;
    uint64_t nth = 13;
    clock_gettime(CLOCK_MONOTONIC, &from);
    while (nth < 13 + 1000) boostmap_wait(&nth);
    clock_gettime(CLOCK_MONOTONIC, &to);
    CHECK((double)(to.tv_sec - from.tv_sec) + (double)(to.tv_nsec - from.tv_nsec) / 1e9 >= 0.25);
}

static boostmap_pair pairs[MANY];
static boostmap_entry entries[ENTRIES];
static boostmap_link links[ENTRIES];

/* One transaction that puts many keys, with a savepoint before each, and takes a half of them back. */
static void puts_many(boostmap_caller *c) {
    uint64_t w;
    CHECK(boostmap_striped_begin(c) == BOOSTMAP_DONE);
    for (uint64_t i = 0; i < MANY; i++) {
        CHECK(boostmap_striped_save(c, &w) == BOOSTMAP_DONE && w == i + 1);
        CHECK(boostmap_striped_put(c, i * i, i, &w) == BOOSTMAP_ABSENT);
    }
    CHECK(boostmap_striped_back(c, MANY / 2) == BOOSTMAP_DONE);
    CHECK(boostmap_striped_read(c, pairs, MANY, &w) == BOOSTMAP_DONE && w == MANY / 2 - 1);
    CHECK(boostmap_striped_read_stripe(c, 0, pairs, MANY, &w) == BOOSTMAP_DONE);
    CHECK(boostmap_striped_count(c, &w) == BOOSTMAP_DONE && boostmap_striped_commit(c, &w) == BOOSTMAP_DONE);
}

static void judges(uint64_t count, uint64_t stripes) {
    boostmap_judge judge = BOOSTMAP_INIT;
    boostmap_verdict verdict;
    boostmap_finding finding;
    uint64_t w;
    for (uint32_t rule = BOOSTMAP_HOLDER_NOW; rule <= BOOSTMAP_BY_COMMITS; rule++) {
        CHECK(boostmap_judge_new(&judge, stripes, rule) == BOOSTMAP_DONE);
        CHECK(boostmap_judge_feed_all(&judge, entries, count, &w) == BOOSTMAP_DONE);
        CHECK(boostmap_judge_verdict(&judge, &verdict) == BOOSTMAP_DONE && verdict.is_legal);
        CHECK(boostmap_judge_free(&judge) == BOOSTMAP_DONE);
    }
    CHECK(boostmap_judge_any_order(entries, count, 0, links, ENTRIES, &finding) == BOOSTMAP_DONE);
    CHECK(finding.kind == BOOSTMAP_SERIALIZABLE);
}

static void striped_calls(void) {
    static boostmap_caller c[2];
    boostmap_host host = BOOSTMAP_INIT;
    boostmap_entry get = {.operation = BOOSTMAP_GET, .key = 4};
    boostmap_reply reply;
    uint64_t done, w;
    opens(c, 2, 8, BOOSTMAP_KEEP_ENTRIES);
    CHECK(boostmap_striped_host(&c[0], &host) == BOOSTMAP_DONE);
    puts_many(&c[0]);
    CHECK(boostmap_striped_run(&c[1], &get, 1, 1, &reply, 1, &done, &w) == BOOSTMAP_DONE && reply.value == 2);
    CHECK(boostmap_striped_begin(&c[1]) == BOOSTMAP_DONE && boostmap_striped_take(&c[1], 4, &w) == BOOSTMAP_DONE);
    frees(c, 2); /* which aborts */
    CHECK(boostmap_host_history(&host, entries, ENTRIES, &w) == BOOSTMAP_DONE);
    CHECK(boostmap_host_free(&host) == BOOSTMAP_DONE);
    judges(w, 8);
}

static void calls_of_one_owner(void) {
    boostmap map = BOOSTMAP_INIT;
    uint64_t w;
    CHECK(boostmap_new(&map, 2, 8, 256) == BOOSTMAP_DONE && boostmap_begin(&map, 0, &w) == BOOSTMAP_DONE);
    for (uint64_t i = 0; i < MANY; i++)
        CHECK(boostmap_save(&map, 0, &w) == BOOSTMAP_DONE && boostmap_put(&map, 0, i, i, &w) == BOOSTMAP_ABSENT);
    CHECK(boostmap_back(&map, 0, MANY / 2, &w) == BOOSTMAP_DONE && boostmap_commit(&map, 0, &w) == BOOSTMAP_DONE);
    CHECK(boostmap_read(&map, pairs, MANY, &w) == BOOSTMAP_DONE && w == MANY / 2 - 1);
    CHECK(boostmap_history(&map, 0, entries, ENTRIES, &w) == BOOSTMAP_DONE && w <= ENTRIES);
    judges(w, 8);
    CHECK(boostmap_trim(&map) == BOOSTMAP_DONE && boostmap_help(&map, 1, 7) == BOOSTMAP_DONE);
    CHECK(boostmap_begin(&map, 0, &w) == BOOSTMAP_DONE && boostmap_put(&map, 0, 1, 0, &w) == BOOSTMAP_DONE);
    CHECK(boostmap_abort(&map, 0, &w) == BOOSTMAP_DONE && boostmap_free(&map) == BOOSTMAP_DONE);
}

static void *calls_all(void *nothing) {
    striped_calls();
    calls_of_one_owner();
    return nothing;
}

/* Every kind of call, in a thread with a stack of STACK bytes, or more if the system asks for more. */
static void on_a_small_stack(void) {
    long least = sysconf(_SC_THREAD_STACK_MIN);
    pthread_attr_t small;
    pthread_t thread;
    CHECK(!pthread_attr_init(&small));
    CHECK(!pthread_attr_setstacksize(&small, least > STACK ? (size_t)least : STACK));
    CHECK(!pthread_create(&thread, &small, calls_all, NULL) && !pthread_join(thread, NULL));
}

int main(void) {
    synopsis();
    CHECK(busy_beside_64(64) == 60 && busy_beside_64(61) == 0);
    snapshots();
    moved();
    waits();
    on_a_small_stack();
    return 0;
}
