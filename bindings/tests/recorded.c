/* Four callers take turns at random in one map; the program notes each answer as an entry of a
 * history, and the judge must find the history legal. With one reply forged it must not. */
#include "boostmap.h"
#include "check.h"
#include <string.h>

enum { CALLERS = 4, STRIPES = 16, KEYS = 64, CALLS = 100000, LEVELS = 8 };

static boostmap map = BOOSTMAP_INIT;
static boostmap_judge judge = BOOSTMAP_INIT;

/* For each caller: whether it is in a transaction, or can only abort; the number of changes that stand,
 * and of those below each level. */
static struct caller {
    int is_open, is_leaving;
    uint64_t changes, levels, below[LEVELS + 1];
} callers[CALLERS];
static uint64_t commits, forged_call = UINT64_MAX;

static uint64_t draw(uint64_t below) {
    static uint64_t seed = 7;
    seed = seed * 6364136223846793005u + 1442695040888963407u;
    return (seed >> 33) % below;
}

static void note(boostmap_entry entry) { CHECK(boostmap_judge_feed(&judge, &entry) == BOOSTMAP_DONE); }

static void note_kind(uint32_t kind, uint64_t caller, uint64_t number) {
    note((boostmap_entry){.kind = kind, .caller = caller, .number = number});
}

static void note_undone(uint64_t caller, uint64_t level) {
    struct caller *c = &callers[caller];
    for (; c->changes > c->below[level]; c->changes--) note_kind(BOOSTMAP_UNDONE, caller, 0);
}

static void begin_txn(uint64_t caller) {
    uint64_t number;
    CHECK(boostmap_begin(&map, caller, &number) == BOOSTMAP_DONE);
    note_kind(BOOSTMAP_BEGAN, caller, number);
    memset(&callers[caller], 0, sizeof callers[caller]);
    callers[caller].is_open = 1;
}

static void abort_txn(uint64_t caller) {
    uint64_t w;
    CHECK(boostmap_abort(&map, caller, &w) == BOOSTMAP_DONE);
    if (!callers[caller].is_leaving) note_kind(BOOSTMAP_LEAVE, caller, 0);
    note_undone(caller, 0);
    note_kind(BOOSTMAP_ABORTED, caller, 0);
    callers[caller].is_open = 0;
}

static void end_txn(uint64_t caller) {
    uint64_t number;
    if (callers[caller].is_leaving || draw(8) == 0) {
        abort_txn(caller);
        return;
    }
    CHECK(boostmap_commit(&map, caller, &number) == BOOSTMAP_DONE && number == ++commits);
    note_kind(BOOSTMAP_COMMITTED, caller, number);
    callers[caller].is_open = 0;
}

static void save(uint64_t caller) {
    struct caller *c = &callers[caller];
    uint64_t level;
    if (c->levels == LEVELS) return;
    CHECK(boostmap_save(&map, caller, &level) == BOOSTMAP_DONE && level == ++c->levels);
    c->below[level] = c->changes;
    note_kind(BOOSTMAP_SAVED, caller, 0);
}

static void go_back(uint64_t caller) {
    struct caller *c = &callers[caller];
    uint64_t level = draw(c->levels + 1), w;
    CHECK(boostmap_back(&map, caller, level, &w) == BOOSTMAP_DONE && w == level);
    note((boostmap_entry){.kind = BOOSTMAP_LEAVE, .caller = caller, .number = level, .has = 1});
    note_undone(caller, level);
    note_kind(BOOSTMAP_RETURNED, caller, level);
    c->levels = level;
}

/* One operation: the entry that asks for it, its answer, and whether it is a change. */
static void operate(uint64_t caller, uint64_t call) {
    struct caller *c = &callers[caller];
    boostmap_entry e = {.kind = BOOSTMAP_ASKED, .operation = BOOSTMAP_PUT + (uint32_t)draw(4), .caller = caller,
                        .key = draw(KEYS), .value = draw(4), .expected = draw(4), .has = draw(2)};
    boostmap_status status;
    uint64_t w = 0;
    switch (e.operation) {
    case BOOSTMAP_PUT: status = boostmap_put(&map, caller, e.key, e.value, &w); break;
    case BOOSTMAP_TAKE: status = boostmap_take(&map, caller, e.key, &w); break;
    case BOOSTMAP_GET: status = boostmap_get(&map, caller, e.key, &w); break;
    default:
        status = e.has ? boostmap_put_if_equal(&map, caller, e.key, e.expected, e.value, &w)
                       : boostmap_put_if_absent(&map, caller, e.key, e.value, &w);
    }
    if (status == BOOSTMAP_BUSY) {
        e.kind = BOOSTMAP_FOUND_BUSY;
        e.number = w;
        note(e);
        c->is_leaving = 1;
        return;
    }
    CHECK(status == BOOSTMAP_DONE || status == BOOSTMAP_ABSENT);
    int has = status == BOOSTMAP_DONE;
    note(e);
    note((boostmap_entry){.kind = BOOSTMAP_DID, .caller = caller, .has = has, .value = w + (call == forged_call)});
    if (e.operation == BOOSTMAP_PUT || (e.operation == BOOSTMAP_TAKE && has) ||
        (e.operation == BOOSTMAP_PUT_IF && has == (int)e.has && (!has || w == e.expected)))
        c->changes++;
}

static boostmap_verdict run(void) {
    boostmap_verdict verdict;
    memset(callers, 0, sizeof callers);
    commits = 0;
    CHECK(boostmap_new(&map, CALLERS, STRIPES, 64) == BOOSTMAP_DONE);
    CHECK(boostmap_judge_new(&judge, STRIPES, BOOSTMAP_HOLDER_NOW) == BOOSTMAP_DONE);
    for (uint64_t call = 0; call < CALLS; call++) {
        uint64_t caller = draw(CALLERS), kind = draw(16);
        if (!callers[caller].is_open) begin_txn(caller);
        else if (callers[caller].is_leaving || kind == 0) end_txn(caller);
        else if (kind == 1) save(caller);
        else if (kind == 2) go_back(caller);
        else operate(caller, call);
    }
    for (uint64_t caller = 0; caller < CALLERS; caller++)
        if (callers[caller].is_open) abort_txn(caller);
    CHECK(boostmap_judge_verdict(&judge, &verdict) == BOOSTMAP_DONE);
    CHECK(boostmap_judge_free(&judge) == BOOSTMAP_DONE);
    CHECK(boostmap_free(&map) == BOOSTMAP_DONE);
    return verdict;
}

int main(void) {
    boostmap_verdict verdict = run();
    CHECK(verdict.is_legal && verdict.commits == commits && verdict.running == 0);
    CHECK(commits > 1000);
    /* Forges the reply of one call, the first from the middle on that replies with a value. */
    for (forged_call = CALLS / 2; (verdict = run()).is_legal; forged_call++) CHECK(forged_call < CALLS / 2 + 100);
    CHECK(verdict.rule == 1);
    return 0;
}
