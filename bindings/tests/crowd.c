/* Threads come and go: each joins a striped map, moves values between keys, and leaves, some of them in
 * the middle of a transaction. An auditor reads the whole map again and again, and finds the same sum each
 * time. Memory is refused at random meanwhile. At the end the run is judged, and no block is left.
 * Linked with -Wl,--wrap= of malloc, calloc, realloc and free.
 * Usage: crowd [AT_ONCE [ONE_IN]]: so many threads at a time, and one in so many allocations refused */
#include "recorded.h"
#include "check.h"
#include <pthread.h>
#include <stdatomic.h>
#include <time.h>

enum {
    MOST = 16,
    VISITS = 400,
    MOVES = 40,
    KEYS = 24,
    STRIPES = 11,
    BALANCE = 100,
    AUDITS = 20,
    MOST_VISITS = 4000
};

static atomic_long live, refusals, refused_calls, visits, audits, broken_off;
static atomic_ulong one_in;
static _Thread_local uint64_t seed = 1;

void *__real_malloc(size_t bytes);
void *__real_calloc(size_t count, size_t bytes);
void *__real_realloc(void *block, size_t bytes);
void __real_free(void *block);

static uint64_t draw(uint64_t below) {
    seed = seed * 6364136223846793005u + 1442695040888963407u;
    return (seed >> 33) % below;
}

static int is_refused(void) {
    uint64_t in = one_in;
    if (!in || draw(in)) return 0;
    refusals++;
    return 1;
}

void *__wrap_malloc(size_t bytes) {
    void *block = is_refused() ? 0 : __real_malloc(bytes);
    if (block) live++;
    return block;
}

void *__wrap_calloc(size_t count, size_t bytes) {
    void *block = is_refused() ? 0 : __real_calloc(count, bytes);
    if (block) live++;
    return block;
}

void *__wrap_realloc(void *block, size_t bytes) {
    void *moved = is_refused() ? 0 : __real_realloc(block, bytes);
    if (moved && !block) live++;
    return moved;
}

void __wrap_free(void *block) {
    if (block) live--;
    __real_free(block);
}

static boostmap_recorded
    callers[MOST_VISITS + 2]; /* the first, the auditor, and one for each visit */
static pthread_mutex_t joining = PTHREAD_MUTEX_INITIALIZER;

/* Joins the map: each second caller as one of the opening, the others as one that the first caller makes. */
static void joins(boostmap_recorded *r) {
    boostmap_status status;
    uint64_t w;
    CHECK(!pthread_mutex_lock(&joining));
    while ((status = (r - callers) % 2 ? boostmap_recorded_join(&callers[0], r, &w)
                                       : boostmap_recorded_another(&callers[0], r, &w)) == BOOSTMAP_NO_MEMORY)
        refused_calls++;
    CHECK(!pthread_mutex_unlock(&joining));
    CHECK(status == BOOSTMAP_DONE);
}

typedef struct {
    uint64_t from, to;
} move;

/* Moves 1, if there is 1, at times by a savepoint and back. */
static boostmap_status moves(boostmap_recorded *r, void *with) {
    const move *m = with;
    uint64_t has, had, w;
    boostmap_status status = boostmap_recorded_get(r, m->from, &has);
    if (status != BOOSTMAP_DONE || !has) return status;
    if (draw(4) == 0) {
        if ((status = boostmap_recorded_save(r, &w)) != BOOSTMAP_DONE) return status;
        if ((status = boostmap_recorded_take(r, m->from, &w)) != BOOSTMAP_DONE) return status;
        if ((status = boostmap_recorded_back(r, 0)) != BOOSTMAP_DONE) return status;
    }
    if ((status = boostmap_recorded_put(r, m->from, has - 1, &w)) != BOOSTMAP_DONE) return status;
    if ((status = boostmap_recorded_get(r, m->to, &had)) != BOOSTMAP_DONE) return status;
    if (draw(16) == 0) return 99; /* takes it back */
    return boostmap_recorded_put_if_equal(r, m->to, had, had + 1, &w);
}

static void *visit(void *arg) {
    boostmap_recorded *r = arg;
    uint64_t w;
    seed = (uint64_t)(r - callers);
    joins(r);
    for (int i = 0; i < MOVES; i++) {
        move m = {draw(KEYS), draw(KEYS)};
        boostmap_status status = boostmap_recorded_transact(r, UINT64_MAX, moves, &m, &w);
        refused_calls += status == BOOSTMAP_NO_MEMORY;
        CHECK(status == BOOSTMAP_DONE || status == 99 || status == BOOSTMAP_NO_MEMORY);
    }
    if (draw(2) && boostmap_recorded_begin(r) == BOOSTMAP_DONE) {
        boostmap_recorded_put(r, draw(KEYS), 1000000, &w); /* is taken back with the caller */
        broken_off++;
    }
    CHECK(boostmap_striped_free(&r->caller) == BOOSTMAP_DONE);
    visits++;
    return 0;
}

/* Reads the whole map, and checks the sum. */
static boostmap_status audit(boostmap_recorded *r, void *with) {
    boostmap_pair pairs[KEYS];
    uint64_t count, sum = 0;
    boostmap_status status = boostmap_recorded_read(r, pairs, KEYS, &count);
    (void)with;
    if (status != BOOSTMAP_DONE) return status;
    for (uint64_t i = 0; i < count; i++) sum += pairs[i].value;
    CHECK(count == KEYS && sum == KEYS * BALANCE);
    return BOOSTMAP_DONE;
}

/* Audits until the visits are over, and until there were enough audits: on a loaded machine the last ones come after the
 * visits. */
static void *audits_all(void *is_over) {
    const struct timespec pause = {0, 200000};
    uint64_t w;
    joins(&callers[1]);
    while (!*(atomic_int *)is_over || audits < AUDITS) {
        boostmap_status status = boostmap_recorded_transact(&callers[1], UINT64_MAX, audit, 0, &w);
        CHECK(status == BOOSTMAP_DONE || status == BOOSTMAP_NO_MEMORY);
        audits += status == BOOSTMAP_DONE;
        nanosleep(&pause, 0);
    }
    return 0;
}

static boostmap_status fills(boostmap_recorded *r, void *with) {
    uint64_t w;
    (void)with;
    for (uint64_t k = 0; k < KEYS; k++)
        if (boostmap_recorded_put(r, k, BALANCE, &w) != BOOSTMAP_ABSENT) return BOOSTMAP_NO_MEMORY;
    return BOOSTMAP_DONE;
}

/* Visits, so many at a time, until there were enough of them and of audits, or no handle is left. */
static long all_visits(int at_once) {
    pthread_t threads[MOST];
    long next = 0;
    while (next < VISITS || (audits < AUDITS && next < MOST_VISITS))
        for (int i = 0; i < at_once && next < MOST_VISITS; i++, next++) {
            if (next >= at_once) CHECK(!pthread_join(threads[i], 0));
            CHECK(!pthread_create(&threads[i], 0, visit, &callers[2 + next]));
        }
    for (int i = 0; i < at_once; i++) CHECK(!pthread_join(threads[i], 0));
    return next;
}

static boostmap_verdict judged(size_t count) {
    boostmap_judge judge = BOOSTMAP_INIT;
    boostmap_verdict verdict;
    CHECK(boostmap_judge_new(&judge, 1, BOOSTMAP_BY_COMMITS) == BOOSTMAP_DONE);
    CHECK(boostmap_recorded_feed(&judge, callers, count) == BOOSTMAP_DONE);
    CHECK(boostmap_judge_verdict(&judge, &verdict) == BOOSTMAP_DONE);
    CHECK(boostmap_judge_free(&judge) == BOOSTMAP_DONE);
    return verdict;
}

/* Adds 1 to a reply of the run, the last to a get that found a value. */
static void forge(long count) {
    for (; count >= 0; count--)
        for (size_t i = callers[count].kept; i-- > 1;)
            if (callers[count].entries[i - 1].operation == BOOSTMAP_GET &&
                callers[count].entries[i].has) {
                callers[count].entries[i].value++;
                return;
            }
    CHECK(0);
}

int main(int argc, char **argv) {
    int at_once = argc > 1 ? atoi(argv[1]) : 4;
    pthread_t auditor;
    atomic_int is_over = 0;
    uint64_t w;
    CHECK(0 < at_once && at_once <= MOST);
    CHECK(boostmap_recorded_open(&callers[0], MOST_VISITS + 2, STRIPES, 0, 7, &w) == BOOSTMAP_DONE);
    CHECK(boostmap_recorded_transact(&callers[0], 0, fills, 0, &w) == BOOSTMAP_DONE && w == 1);
    one_in = argc > 2 ? strtoul(argv[2], 0, 10) : 50;
    CHECK(!pthread_create(&auditor, 0, audits_all, &is_over));
    long count = all_visits(at_once);
    is_over = 1;
    CHECK(!pthread_join(auditor, 0));
    int refuses = one_in != 0;
    one_in = 0;
    CHECK(boostmap_recorded_transact(&callers[0], 0, audit, 0, &w) == BOOSTMAP_DONE);
    boostmap_verdict verdict = judged((size_t)count + 2);
    printf("crowd: %d at a time, %ld visits, %ld broken off, %llu commits, %ld audits, %ld "
           "allocations refused\n",
           at_once, (long)visits, (long)broken_off, (unsigned long long)w, (long)audits,
           (long)refusals);
    CHECK(verdict.is_legal && verdict.commits == w && verdict.running == 0);
    CHECK(broken_off > 0 && (refusals > 0) == refuses && (refused_calls > 0) == refuses);
    forge(count + 1);
    verdict = judged((size_t)count + 2);
    CHECK(!verdict.is_legal && verdict.rule == 1);
    for (long i = 0; i < count + 2; i++) boostmap_recorded_free(&callers[i]);
    CHECK(live == 0);
    return 0;
}
