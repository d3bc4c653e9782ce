/* Each allocation refused in turn: the call that asked for it returns BOOSTMAP_NO_MEMORY, leaves the
 * map or the judge unchanged, and succeeds when it is made again; no other call fails, and nothing leaks.
 * A map with one owner grows and trims by itself; if that is refused memory, no call fails.
 * Linked with -Wl,--wrap=malloc -Wl,--wrap=realloc -Wl,--wrap=free. */
#include "boostmap.h"
#include "check.h"
#include <string.h>

/* The number of allocations before the one that is refused, or -1; and the number of live blocks. */
static long before_refusal = -1;
static long live;

void *__real_malloc(size_t bytes);
void *__real_realloc(void *block, size_t bytes);
void __real_free(void *block);

static int is_refused(void) {
    if (before_refusal < 0) return 0;
    return before_refusal-- == 0;
}

void *__wrap_malloc(size_t bytes) {
    void *block = is_refused() ? 0 : __real_malloc(bytes);
    if (block) live++;
    return block;
}

void *__wrap_realloc(void *block, size_t bytes) {
    void *moved = is_refused() ? 0 : __real_realloc(block, bytes);
    if (moved && !block) live++;
    return moved;
}

void __wrap_free(void *block) {
    if (block) live--;
    __real_free(block);
}

/* How often memory was refused in this round. AGAIN makes a call until memory is not refused. */
static long refusals;
#define AGAIN(call) do status = (call); while (status == BOOSTMAP_NO_MEMORY && ++refusals)

enum { TRANSACTIONS = 20, KEYS = 8 };

/* The operations of a transaction: KEYS new keys, and changes above a level that are taken back. */
static void operations(boostmap *m, uint64_t t) {
    boostmap_status status;
    uint64_t w;
    for (uint64_t k = 0; k < KEYS; k++) {
        AGAIN(boostmap_put(m, 0, KEYS * t + k, t, &w));
        CHECK(status == BOOSTMAP_ABSENT);
    }
    AGAIN(boostmap_save(m, 0, &w));
    CHECK(status == BOOSTMAP_DONE && w == 1);
    AGAIN(boostmap_take(m, 0, KEYS * t, &w));
    CHECK(status == BOOSTMAP_DONE && w == t);
    AGAIN(boostmap_put_if_absent(m, 0, KEYS * t, t + 1, &w));
    CHECK(status == BOOSTMAP_ABSENT);
    AGAIN(boostmap_put_if_equal(m, 0, KEYS * t + 1, t, t + 1, &w));
    CHECK(status == BOOSTMAP_DONE && w == t);
    AGAIN(boostmap_back(m, 0, 1, &w));
    CHECK(status == BOOSTMAP_DONE && w == 1);
    AGAIN(boostmap_get(m, 0, KEYS * t, &w));
    CHECK(status == BOOSTMAP_DONE && w == t);
}

/* Even transactions commit KEYS new keys, odd ones abort. */
static void round_trip(void) {
    static boostmap_pair pairs[KEYS * TRANSACTIONS];
    boostmap m = BOOSTMAP_INIT;
    boostmap_status status;
    uint64_t w;
    AGAIN(boostmap_new(&m, 2, 16, 64));
    CHECK(status == BOOSTMAP_DONE);
    for (uint64_t t = 0; t < TRANSACTIONS; t++) {
        AGAIN(boostmap_begin(&m, 0, &w));
        CHECK(status == BOOSTMAP_DONE && w == t + 1);
        operations(&m, t);
        if (t % 2) CHECK(boostmap_abort(&m, 0, &w) == BOOSTMAP_DONE);
        else CHECK(boostmap_commit(&m, 0, &w) == BOOSTMAP_DONE && w == t / 2 + 1);
        AGAIN(boostmap_help(&m, 0, KEYS * t));
        CHECK(status == BOOSTMAP_DONE);
        AGAIN(boostmap_read(&m, pairs, KEYS * TRANSACTIONS, &w));
        CHECK(status == BOOSTMAP_DONE && w == KEYS * (t / 2 + 1));
    }
    AGAIN(boostmap_trim(&m));
    CHECK(status == BOOSTMAP_DONE);
    CHECK(boostmap_entries(&m, &w) == BOOSTMAP_DONE && w == KEYS * TRANSACTIONS + 2);
    CHECK(boostmap_count(&m, &w) == BOOSTMAP_DONE && w == KEYS * TRANSACTIONS / 2);
    CHECK(boostmap_free(&m) == BOOSTMAP_DONE);
}

/* The same operations on a caller of a striped map, which then reads the whole map. */
static void striped_operations(boostmap_caller *c, uint64_t t) {
    static boostmap_pair pairs[KEYS * TRANSACTIONS];
    boostmap_status status;
    uint64_t w, keys = KEYS * ((t + 1) / 2 + 1);
    for (uint64_t k = 0; k < KEYS; k++) {
        AGAIN(boostmap_striped_put(c, KEYS * t + k, t, &w));
        CHECK(status == BOOSTMAP_ABSENT);
        AGAIN(boostmap_striped_get(c, KEYS * t + k, &w));
        CHECK(status == BOOSTMAP_DONE && w == t);
    }
    AGAIN(boostmap_striped_save(c, &w));
    CHECK(status == BOOSTMAP_DONE && w == 1);
    AGAIN(boostmap_striped_take(c, KEYS * t, &w));
    CHECK(status == BOOSTMAP_DONE && w == t);
    AGAIN(boostmap_striped_put_if_absent(c, KEYS * t, t + 1, &w));
    CHECK(status == BOOSTMAP_ABSENT);
    AGAIN(boostmap_striped_put_if_equal(c, KEYS * t + 1, t, t + 1, &w));
    CHECK(status == BOOSTMAP_DONE && w == t);
    CHECK(boostmap_striped_back(c, 1) == BOOSTMAP_DONE);
    /* Of 16 stripes this one has the first key of each even transaction, or, in an odd one, only its own. */
    AGAIN(boostmap_striped_read_stripe(c, KEYS * t, pairs, KEYS * TRANSACTIONS, &w));
    CHECK(status == BOOSTMAP_DONE && w == (t % 2 ? 1 : t / 2 + 1));
    AGAIN(boostmap_striped_count(c, &w));
    CHECK(status == BOOSTMAP_DONE && w == keys);
    AGAIN(boostmap_striped_read(c, pairs, KEYS * TRANSACTIONS, &w));
    CHECK(status == BOOSTMAP_DONE && w == keys);
}

/* Callers that are made by others, each by the one before it, which is in a transaction. */
static void others(void) {
    enum { OTHERS = 8 };
    static boostmap_caller c[OTHERS];
    boostmap_status status;
    uint64_t w;
    AGAIN(boostmap_striped_open(&c[0], 1, 16, 0, BOOSTMAP_KEEP_COMMITS, 0, &w));
    for (uint64_t i = 0; i < OTHERS; i++) {
        CHECK(boostmap_striped_begin(&c[i]) == BOOSTMAP_DONE);
        AGAIN(boostmap_striped_put(&c[i], i, i, &w));
        CHECK(status == BOOSTMAP_ABSENT);
        w = 0;
        while (i + 1 < OTHERS && boostmap_striped_another(&c[i], &c[i + 1], &w) == BOOSTMAP_NO_MEMORY && ++refusals)
            CHECK(c[i + 1].tag == 0 && c[i + 1].held == 0 && w == 0);
        CHECK((w != 0) == (i + 1 < OTHERS));
    }
    for (uint64_t i = 0; i < OTHERS; i++) {
        CHECK(boostmap_striped_commit(&c[i], &w) == BOOSTMAP_DONE && w == i + 1);
        CHECK(boostmap_striped_free(&c[i]) == BOOSTMAP_DONE);
    }
}

/* A round on a striped map, with two callers. */
static void striped_round_trip(void) {
    boostmap_caller first = BOOSTMAP_INIT, next = BOOSTMAP_INIT;
    boostmap_status status;
    uint64_t w;
    AGAIN(boostmap_striped_open(&first, 2, 16, 0, BOOSTMAP_KEEP_COMMITS, 0, &w));
    CHECK(status == BOOSTMAP_DONE && w == 2);
    AGAIN(boostmap_striped_join(&first, &next, &w));
    CHECK(status == BOOSTMAP_DONE && w == 1);
    for (uint64_t t = 0; t < TRANSACTIONS; t++) {
        boostmap_caller *c = t % 4 < 2 ? &first : &next;
        CHECK(boostmap_striped_begin(c) == BOOSTMAP_DONE);
        striped_operations(c, t);
        if (t % 2) CHECK(boostmap_striped_abort(c) == BOOSTMAP_DONE);
        else CHECK(boostmap_striped_commit(c, &w) == BOOSTMAP_DONE && w == t / 2 + 1);
    }
    CHECK(boostmap_striped_free(&first) == BOOSTMAP_DONE);
    CHECK(boostmap_striped_free(&next) == BOOSTMAP_DONE);
}

/* Runs that each put KEYS new keys, on a map that keeps its entries. One that is refused memory leaves no key, and is
 * counted neither as a commit nor as an abort. */
static void runs(void) {
    boostmap_caller c = BOOSTMAP_INIT;
    boostmap_entry operations[KEYS];
    boostmap_reply replies[KEYS];
    boostmap_counts counts;
    boostmap_status status;
    uint64_t w, done;
    AGAIN(boostmap_striped_open(&c, 1, 16, 0, BOOSTMAP_KEEP_ENTRIES, 0, &w));
    CHECK(status == BOOSTMAP_DONE && w == 1);
    for (uint64_t t = 0; t < TRANSACTIONS; t++) {
        for (uint64_t k = 0; k < KEYS; k++)
            operations[k] = (boostmap_entry){.operation = BOOSTMAP_PUT, .key = KEYS * t + k, .value = t};
        AGAIN(boostmap_striped_run(&c, operations, KEYS, 1, replies, KEYS, &done, &w));
        CHECK(status == BOOSTMAP_DONE && done == KEYS);
        for (uint64_t k = 0; k < KEYS; k++) CHECK(!replies[k].has);
    }
    CHECK(boostmap_striped_counts(&c, &counts) == BOOSTMAP_DONE);
    CHECK(counts.commits == TRANSACTIONS && counts.aborts == 0 && counts.busy == 0);
    CHECK(boostmap_striped_free(&c) == BOOSTMAP_DONE);
}

/* How often each of these calls was refused: they take memory only now and then. */
static long gets, put_ifs, helps, striped_gets;

#define COUNTED(counter, call) \
    while ((status = (call)) == BOOSTMAP_NO_MEMORY) refusals++, counter++

/* Calls on keys that no other call has touched, so that they take the memory themselves. With MANY keys the
 * map's nodes almost fill their block when it has grown by itself, so the help needs another one. */
static void first_calls(void) {
    enum { FEW = 64, MANY = 165 };
    boostmap m = BOOSTMAP_INIT;
    boostmap_caller c = BOOSTMAP_INIT;
    boostmap_status status;
    uint64_t w;
    AGAIN(boostmap_new(&m, 1, FEW, 1024));
    AGAIN(boostmap_begin(&m, 0, &w));
    for (uint64_t k = 0; k < FEW; k++) {
        COUNTED(gets, boostmap_get(&m, 0, k, &w));
        CHECK(status == BOOSTMAP_ABSENT);
    }
    for (uint64_t k = FEW; k < 2 * FEW; k++) {
        COUNTED(put_ifs, boostmap_put_if_equal(&m, 0, k, 1, 2, &w));
        CHECK(status == BOOSTMAP_ABSENT);
    }
    for (uint64_t k = 0; k < MANY; k++) AGAIN(boostmap_put(&m, 0, k, k, &w));
    CHECK(boostmap_commit(&m, 0, &w) == BOOSTMAP_DONE);
    for (uint64_t k = 0; k < MANY; k++) {
        COUNTED(helps, boostmap_help(&m, 0, k));
        CHECK(status == BOOSTMAP_DONE);
    }
    CHECK(boostmap_free(&m) == BOOSTMAP_DONE);
    AGAIN(boostmap_striped_open(&c, 1, FEW, 0, BOOSTMAP_KEEP_COMMITS, 0, &w));
    CHECK(boostmap_striped_begin(&c) == BOOSTMAP_DONE);
    for (uint64_t k = 0; k < FEW; k++) {
        COUNTED(striped_gets, boostmap_striped_get(&c, k, &w));
        CHECK(status == BOOSTMAP_ABSENT);
    }
    CHECK(boostmap_striped_free(&c) == BOOSTMAP_DONE);
}

/* Feeds a judge a transaction of each of 64 callers, entry by entry or as an array. What is refused is
 * fed again. */
static void judge_all(uint32_t rule) {
    enum { CALLERS = 64, ENTRIES = 6 };
    boostmap_judge judge = BOOSTMAP_INIT;
    boostmap_verdict verdict;
    boostmap_status status;
    uint64_t w;
    AGAIN(boostmap_judge_new(&judge, 16, rule));
    CHECK(status == BOOSTMAP_DONE);
    for (uint64_t c = 0; c < CALLERS; c++) {
        boostmap_entry entries[ENTRIES] = {{.kind = BOOSTMAP_BEGAN, .caller = c, .number = c + 1},
                                           {.kind = BOOSTMAP_SAVED, .caller = c},
                                           {.kind = BOOSTMAP_ASKED, .caller = c, .operation = BOOSTMAP_PUT, .key = c, .value = c},
                                           {.kind = BOOSTMAP_DID, .caller = c},
                                           {.kind = BOOSTMAP_SAVED, .caller = c},
                                           {.kind = BOOSTMAP_COMMITTED, .caller = c, .number = c + 1}};
        for (uint64_t fed = 0; fed < ENTRIES; fed += w) {
            if (c % 2) {
                status = boostmap_judge_feed_all(&judge, entries + fed, ENTRIES - fed, &w);
            } else {
                status = boostmap_judge_feed(&judge, &entries[fed]);
                w = status == BOOSTMAP_DONE;
            }
            if (status == BOOSTMAP_NO_MEMORY) refusals++;
            else CHECK(status == BOOSTMAP_DONE && w > 0);
        }
    }
    CHECK(boostmap_judge_verdict(&judge, &verdict) == BOOSTMAP_DONE);
    CHECK(verdict.is_legal && verdict.commits == CALLERS && verdict.running == 0);
    CHECK(boostmap_judge_free(&judge) == BOOSTMAP_DONE);
}

/* Judges a history by any order: refused, it leaves links and finding unchanged. */
static void judge_these(const boostmap_entry *entries, size_t count, boostmap_finding due) {
    boostmap_link links[8], before[8];
    boostmap_finding found = {.kind = 77};
    boostmap_status status;
    memset(before, 0x55, sizeof before);
    memcpy(links, before, sizeof before);
    while ((status = boostmap_judge_any_order(entries, count, 0, links, 8, &found)) == BOOSTMAP_NO_MEMORY && ++refusals)
        CHECK(found.kind == 77 && !memcmp(links, before, sizeof before));
    CHECK(status == BOOSTMAP_DONE && found.kind == due.kind && found.number == due.number && found.key == due.key);
    CHECK(found.has == 0 && found.count == due.count);
}

/* An operation, and its reply. */
#define OF(c, op, k, v, ...) {.kind = BOOSTMAP_ASKED, .caller = c, .operation = op, .key = k, .value = v}, \
                             {.kind = BOOSTMAP_DID, .caller = c, __VA_ARGS__}
#define BEGINS(c, n) {.kind = BOOSTMAP_BEGAN, .caller = c, .number = n}
#define COMMITS(c, n) {.kind = BOOSTMAP_COMMITTED, .caller = c, .number = n}
#define LENGTH(array) (sizeof(array) / sizeof *(array))

/* A reader before the writer that commits first; a write skew; a read of two states; and a value that was put three times
 * and taken once. any_order.c has them too. */
static void judge_by_any_order(void) {
    static const boostmap_entry before_it[] = {
        BEGINS(0, 1), BEGINS(1, 2), OF(0, BOOSTMAP_GET, 1, 0, .has = 0), OF(1, BOOSTMAP_PUT, 1, 5, .has = 0), COMMITS(1, 1),
        COMMITS(0, 2)};
    static const boostmap_entry skew[] = {
        BEGINS(0, 1), BEGINS(1, 2), OF(0, BOOSTMAP_GET, 1, 0, .has = 0), OF(1, BOOSTMAP_GET, 2, 0, .has = 0),
        OF(0, BOOSTMAP_PUT, 2, 5, .has = 0), OF(1, BOOSTMAP_PUT, 1, 6, .has = 0), COMMITS(0, 1), COMMITS(1, 2)};
    static const boostmap_entry two_states[] = {
        BEGINS(0, 1), OF(0, BOOSTMAP_PUT, 1, 5, .has = 0), OF(0, BOOSTMAP_PUT, 2, 6, .has = 0), COMMITS(0, 1),
        BEGINS(0, 2), OF(0, BOOSTMAP_TAKE, 1, 0, .has = 1, .value = 5), OF(0, BOOSTMAP_PUT, 2, 7, .has = 1, .value = 6),
        COMMITS(0, 2), BEGINS(0, 3), OF(0, BOOSTMAP_GET, 1, 0, .has = 0), OF(0, BOOSTMAP_GET, 2, 0, .has = 1, .value = 6),
        COMMITS(0, 3)};
    static const boostmap_entry thrice[] = {
        BEGINS(0, 1), OF(0, BOOSTMAP_PUT, 1, 5, .has = 0), COMMITS(0, 1), BEGINS(0, 2), OF(0, BOOSTMAP_PUT, 1, 5, .has = 0),
        COMMITS(0, 2), BEGINS(0, 3), OF(0, BOOSTMAP_PUT, 1, 5, .has = 0), COMMITS(0, 3), BEGINS(0, 4),
        OF(0, BOOSTMAP_TAKE, 1, 0, .has = 1, .value = 5), COMMITS(0, 4)};
    judge_these(before_it, LENGTH(before_it), (boostmap_finding){.kind = BOOSTMAP_SERIALIZABLE, .count = 2});
    judge_these(skew, LENGTH(skew), (boostmap_finding){.kind = BOOSTMAP_CYCLE, .count = 2});
    judge_these(two_states, LENGTH(two_states), (boostmap_finding){.kind = BOOSTMAP_IMPOSSIBLE, .number = 3, .key = 1});
    judge_these(thrice, LENGTH(thrice), (boostmap_finding){.kind = BOOSTMAP_UNDECIDED, .key = 1, .count = 1});
}

static void judge_by_locks(void) { judge_all(BOOSTMAP_HOLDER_NOW); }
static void judge_by_commits(void) { judge_all(BOOSTMAP_BY_COMMITS); }

/* A map that trims itself at the end of each transaction. */
static void trims_itself(void) {
    boostmap m = BOOSTMAP_INIT;
    boostmap_status status;
    uint64_t w;
    AGAIN(boostmap_new(&m, 1, 16, 64));
    CHECK(boostmap_trim_above(&m, 1) == BOOSTMAP_DONE);
    AGAIN(boostmap_begin(&m, 0, &w));
    AGAIN(boostmap_put(&m, 0, 1, 10, &w));
    CHECK(boostmap_commit(&m, 0, &w) == BOOSTMAP_DONE && w == 1);
    for (int i = 0; i < 4; i++) {
        AGAIN(boostmap_begin(&m, 0, &w));
        CHECK(status == BOOSTMAP_DONE);
        AGAIN(boostmap_get(&m, 0, 1, &w));
        CHECK(status == BOOSTMAP_DONE && w == 10);
        AGAIN(boostmap_get(&m, 0, 1, &w));
        if (i % 2) CHECK(boostmap_abort(&m, 0, &w) == BOOSTMAP_DONE);
        else CHECK(boostmap_commit(&m, 0, &w) == BOOSTMAP_DONE && w >= 2);
    }
    AGAIN(boostmap_trim(&m));
    CHECK(status == BOOSTMAP_DONE);
    CHECK(boostmap_entries(&m, &w) == BOOSTMAP_DONE && w == 4);
    CHECK(boostmap_free(&m) == BOOSTMAP_DONE);
}

/* Runs a round with each allocation refused in turn. A status tells each refusal, except of the memory
 * that a map takes by itself if this round has such a map; and nothing leaks. */
static void refuse_each(const char *name, int is_grown, void (*round)(void)) {
    long nth = 0, silent = 0;
    do {
        long live_before = live;
        before_refusal = nth++;
        refusals = 0;
        round();
        CHECK(refusals <= (before_refusal < 0));
        silent += refusals < (before_refusal < 0);
        CHECK(live == live_before);
    } while (before_refusal < 0);
    printf("no_memory: of %s each of %ld allocations refused in turn, %ld without a status\n", name, nth - 1, silent);
    CHECK(nth > 10 && (silent > 0) == is_grown);
}

int main(void) {
    refuse_each("a map", 1, round_trip);
    refuse_each("a map that trims itself", 1, trims_itself);
    refuse_each("a striped map", 0, striped_round_trip);
    refuse_each("runs", 0, runs);
    refuse_each("first calls", 1, first_calls);
    CHECK(gets > 0 && put_ifs > 0 && helps > 0 && striped_gets > 0);
    refuse_each("a judge by locks", 0, judge_by_locks);
    refuse_each("a judge by commits", 0, judge_by_commits);
    refuse_each("a judge by any order", 0, judge_by_any_order);
    refuse_each("other callers", 0, others);
    return 0;
}
