/* Threads run transactions on a striped map and record the answers, each entry with a stamp of one
 * shared counter. The entries are merged by their stamps, and the judge must find the history legal.
 *
 * A transaction holds each of its stripes from the operation that took it to its end. So each stamp is
 * taken while the stripes are held: for an operation after its answer, for a commit and an abort before
 * the call, and for an operation that is busy before its call, which ends the transaction. If two
 * transactions take one stripe, each stamp of the first, up to its end, is less than each stamp of the
 * second from its operation on that stripe on. So the replies fit in the order of the stamps.
 *
 * Commits that run at the same time may be placed in another order than that of their stamps. A commit
 * therefore gets the latest stamp of all commits up to its place. Each of these stamps was taken before
 * its own commit was placed, hence before the commit that gets the latest one gave its stripes back. So
 * a transaction that takes one of these stripes afterwards has a greater stamp.
 *
 * A busy entry names a caller that has begun a transaction: each caller runs one before the threads
 * start. Transactions get their numbers when the entries are merged.
 * Usage: striped_recorded [THREADS] */
#include "boostmap.h"
#include "check.h"
#include <pthread.h>
#include <stdatomic.h>
#include <string.h>

enum { MOST = 16, STRIPES = 16, KEYS = 64, CALLS = 20000, LEVELS = 4, ROOM = 8 * CALLS };

typedef struct { uint64_t stamp, order; boostmap_entry entry; } stamped;

/* For each caller: its entries; and the number of changes of its transaction that stand, and of those
 * below each level. */
typedef struct caller {
    boostmap_caller map;
    pthread_t thread;
    uint64_t number, seed, changes, levels, below[LEVELS + 1];
    int is_open;
    size_t count;
    stamped *entries;
} caller;

static caller callers[MOST];
static atomic_ullong clock_of_all;

static uint64_t stamp(void) { return atomic_fetch_add(&clock_of_all, 1) + 1; }

static uint64_t draw(caller *c, uint64_t below) {
    c->seed = c->seed * 6364136223846793005u + 1442695040888963407u;
    return (c->seed >> 33) % below;
}

static void note(caller *c, uint64_t at, boostmap_entry entry) {
    CHECK(c->count < ROOM);
    entry.caller = c->number;
    c->entries[c->count++] = (stamped){at, 0, entry};
}

static void note_kind(caller *c, uint64_t at, uint32_t kind, uint64_t has, uint64_t number) {
    note(c, at, (boostmap_entry){.kind = kind, .has = has, .number = number});
}

static void note_undone(caller *c, uint64_t at, uint64_t level) {
    for (; c->changes > c->below[level]; c->changes--) note_kind(c, at, BOOSTMAP_UNDONE, 0, 0);
}

static void begin_txn(caller *c) {
    note_kind(c, stamp(), BOOSTMAP_BEGAN, 0, 0);
    CHECK(boostmap_striped_begin(&c->map) == BOOSTMAP_DONE);
    c->changes = c->levels = 0;
    c->is_open = 1;
}

static void commit_txn(caller *c) {
    uint64_t at = stamp(), place;
    CHECK(boostmap_striped_commit(&c->map, &place) == BOOSTMAP_DONE);
    note_kind(c, at, BOOSTMAP_COMMITTED, 0, place);
    c->is_open = 0;
}

static void abort_txn(caller *c) {
    uint64_t at = stamp();
    CHECK(boostmap_striped_abort(&c->map) == BOOSTMAP_DONE);
    note_kind(c, at, BOOSTMAP_LEAVE, 0, 0);
    note_undone(c, at, 0);
    note_kind(c, at, BOOSTMAP_ABORTED, 0, 0);
    c->is_open = 0;
}

static void save(caller *c) {
    uint64_t level;
    if (c->levels == LEVELS) return;
    CHECK(boostmap_striped_save(&c->map, &level) == BOOSTMAP_DONE && level == ++c->levels);
    c->below[level] = c->changes;
    note_kind(c, stamp(), BOOSTMAP_SAVED, 0, 0);
}

static void go_back(caller *c) {
    uint64_t level = draw(c, c->levels + 1), at = stamp();
    CHECK(boostmap_striped_back(&c->map, level) == BOOSTMAP_DONE);
    note_kind(c, at, BOOSTMAP_LEAVE, 1, level);
    note_undone(c, at, level);
    note_kind(c, at, BOOSTMAP_RETURNED, 0, level);
    c->levels = level;
}

static boostmap_status ask(caller *c, const boostmap_entry *e, uint64_t *w) {
    switch (e->operation) {
    case BOOSTMAP_PUT: return boostmap_striped_put(&c->map, e->key, e->value, w);
    case BOOSTMAP_TAKE: return boostmap_striped_take(&c->map, e->key, w);
    case BOOSTMAP_GET: return boostmap_striped_get(&c->map, e->key, w);
    default:
        return e->has ? boostmap_striped_put_if_equal(&c->map, e->key, e->expected, e->value, w)
                      : boostmap_striped_put_if_absent(&c->map, e->key, e->value, w);
    }
}

static void operate(caller *c) {
    boostmap_entry e = {.kind = BOOSTMAP_ASKED, .operation = BOOSTMAP_PUT + (uint32_t)draw(c, 4), .key = draw(c, KEYS),
                        .value = draw(c, 4), .expected = draw(c, 4), .has = draw(c, 2)};
    uint64_t w = 0, before = stamp();
    boostmap_status status = ask(c, &e, &w);
    if (status == BOOSTMAP_BUSY) {
        e.kind = BOOSTMAP_FOUND_BUSY;
        e.number = w;
        note(c, before, e);
        note_undone(c, before, 0);
        note_kind(c, before, BOOSTMAP_ABORTED, 0, 0);
        c->is_open = 0;
        return;
    }
    CHECK(status == BOOSTMAP_DONE || status == BOOSTMAP_ABSENT);
    int has = status == BOOSTMAP_DONE;
    uint64_t after = stamp();
    note(c, after, e);
    note(c, after, (boostmap_entry){.kind = BOOSTMAP_DID, .has = has, .value = w});
    if (e.operation == BOOSTMAP_PUT || (e.operation == BOOSTMAP_TAKE && has) ||
        (e.operation == BOOSTMAP_PUT_IF && has == (int)e.has && (!has || w == e.expected)))
        c->changes++;
}

static void *make_calls(void *arg) {
    caller *c = arg;
    for (int call = 0; call < CALLS; call++) {
        uint64_t kind = draw(c, 16);
        if (!c->is_open) begin_txn(c);
        else if (kind == 0) abort_txn(c);
        else if (kind < 3) commit_txn(c);
        else if (kind == 3) save(c);
        else if (kind == 4) go_back(c);
        else operate(c);
    }
    if (c->is_open) abort_txn(c);
    return 0;
}

static int by_place(const void *a, const void *b) {
    const stamped *x = *(stamped *const *)a, *y = *(stamped *const *)b;
    return x->entry.number < y->entry.number ? -1 : x->entry.number > y->entry.number;
}

static int by_stamp(const void *a, const void *b) {
    const stamped *x = a, *y = b;
    if (x->stamp != y->stamp) return x->stamp < y->stamp ? -1 : 1;
    return x->order < y->order ? -1 : x->order > y->order;
}

/* Merges all entries into one order, and returns their number. */
static size_t merge(stamped *all, int threads) {
    size_t count = 0, placed = 0, begun = 0;
    for (int i = 0; i < threads; i++) {
        memcpy(all + count, callers[i].entries, callers[i].count * sizeof *all);
        count += callers[i].count;
    }
    stamped **commit = malloc(count * sizeof *commit);
    CHECK(commit);
    for (size_t i = 0; i < count; i++) {
        all[i].order = i;
        if (all[i].entry.kind == BOOSTMAP_COMMITTED) commit[placed++] = &all[i];
    }
    qsort(commit, placed, sizeof *commit, by_place);
    for (size_t i = 0, latest = 0; i < placed; i++) {
        if (commit[i]->stamp > latest) latest = commit[i]->stamp;
        commit[i]->stamp = latest;
        commit[i]->order = commit[i]->entry.number;
    }
    free(commit);
    qsort(all, count, sizeof *all, by_stamp);
    for (size_t i = 0; i < count; i++)
        if (all[i].entry.kind == BOOSTMAP_BEGAN) all[i].entry.number = ++begun;
    return count;
}

static boostmap_verdict judge_all(const stamped *all, size_t count) {
    boostmap_judge judge = BOOSTMAP_INIT;
    boostmap_verdict verdict;
    CHECK(boostmap_judge_new(&judge, STRIPES, BOOSTMAP_HOLDER_BEGUN) == BOOSTMAP_DONE);
    for (size_t i = 0; i < count; i++) CHECK(boostmap_judge_feed(&judge, &all[i].entry) == BOOSTMAP_DONE);
    CHECK(boostmap_judge_verdict(&judge, &verdict) == BOOSTMAP_DONE);
    CHECK(boostmap_judge_free(&judge) == BOOSTMAP_DONE);
    return verdict;
}

int main(int argc, char **argv) {
    int threads = argc > 1 ? atoi(argv[1]) : 4;
    uint64_t busy = 0, committed = 0;
    CHECK(0 < threads && threads <= MOST);
    for (int i = 0; i < threads; i++) {
        caller *c = &callers[i];
        c->entries = malloc(ROOM * sizeof *c->entries);
        CHECK(c->entries);
        c->seed = (uint64_t)i + 1;
        CHECK((i ? boostmap_striped_join(&callers[0].map, &c->map, &c->number)
                 : boostmap_striped_open(&c->map, (uint64_t)threads, STRIPES, 0, BOOSTMAP_KEEP_COMMITS, 0, &c->number)) == BOOSTMAP_DONE);
        begin_txn(c);
        commit_txn(c);
    }
    for (int i = 0; i < threads; i++) CHECK(!pthread_create(&callers[i].thread, 0, make_calls, &callers[i]));
    for (int i = 0; i < threads; i++) CHECK(!pthread_join(callers[i].thread, 0));
    stamped *all = malloc((size_t)threads * ROOM * sizeof *all);
    CHECK(all);
    size_t count = merge(all, threads), forged = count / 2;
    for (size_t i = 0; i < count; i++) {
        busy += all[i].entry.kind == BOOSTMAP_FOUND_BUSY;
        committed += all[i].entry.kind == BOOSTMAP_COMMITTED;
    }
    boostmap_verdict verdict = judge_all(all, count);
    printf("%d threads, %zu entries, %llu committed, %llu busy\n", threads, count, (unsigned long long)committed,
           (unsigned long long)busy);
    CHECK(verdict.is_legal && verdict.commits == committed && verdict.running == 0);
    /* A forged reply is found at once. */
    while (all[forged].entry.kind != BOOSTMAP_DID || !all[forged].entry.has) forged++;
    all[forged].entry.value++;
    verdict = judge_all(all, count);
    CHECK(!verdict.is_legal && verdict.entry == forged && verdict.rule == 1);
    for (int i = 0; i < threads; i++) {
        CHECK(boostmap_striped_free(&callers[i].map) == BOOSTMAP_DONE);
        free(callers[i].entries);
    }
    free(all);
    return 0;
}
