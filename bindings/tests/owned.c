/* A map with one owner grows by itself, its history can be read and judged, and is trimmed, by hand and
 * by itself. Random calls of two callers are made beside a model, with trims between them. */
#include "boostmap.h"
#include "check.h"
#include <string.h>
#include <time.h>

static uint64_t draw(uint64_t below) {
    static uint64_t seed = 11;
    seed = seed * 6364136223846793005u + 1442695040888963407u;
    return (seed >> 33) % below;
}

static uint64_t entries(boostmap *m) {
    uint64_t w;
    CHECK(boostmap_entries(m, &w) == BOOSTMAP_DONE);
    return w;
}

/* One transaction of caller 0 that puts `count` keys from `first` on; the processor time that it took. */
static clock_t put_keys(boostmap *m, uint64_t first, uint64_t count) {
    uint64_t w;
    clock_t begun = clock();
    CHECK(boostmap_begin(m, 0, &w) == BOOSTMAP_DONE);
    for (uint64_t k = first; k < first + count; k++) CHECK(boostmap_put(m, 0, k, k + 1, &w) == BOOSTMAP_ABSENT);
    CHECK(boostmap_commit(m, 0, &w) == BOOSTMAP_DONE);
    return clock() - begun;
}

/* If the table did not grow, the last keys would take more than fifty times as long as the first. */
static void growth(void) {
    enum { PART = 2000, PARTS = 50 };
    boostmap m = BOOSTMAP_INIT;
    clock_t first, last = 0;
    uint64_t w;
    CHECK(boostmap_new(&m, 1, 64, 65536) == BOOSTMAP_DONE);
    first = put_keys(&m, 0, PART);
    for (uint64_t part = 1; part < PARTS; part++) last = put_keys(&m, part * PART, PART);
    CHECK(boostmap_count(&m, &w) == BOOSTMAP_DONE && w == PART * PARTS);
    printf("owned: the first %d keys took %ld us, the last %ld\n", PART, (long)(first * 1000000 / CLOCKS_PER_SEC),
           (long)(last * 1000000 / CLOCKS_PER_SEC));
    CHECK(last < 20 * first);
    CHECK(boostmap_free(&m) == BOOSTMAP_DONE);
}

/* Judges the history of a map, which is read in parts; the number of its commits. */
static uint64_t judged(boostmap *m, uint64_t stripes) {
    enum { PART = 1000 };
    static boostmap_entry part[PART];
    boostmap_judge judge = BOOSTMAP_INIT;
    boostmap_verdict verdict;
    uint64_t all = 1, fed = 0, w;
    CHECK(boostmap_judge_new(&judge, stripes, BOOSTMAP_HOLDER_NOW) == BOOSTMAP_DONE);
    while (fed < all) {
        CHECK(boostmap_history(m, fed, part, PART, &all) == BOOSTMAP_DONE && all == entries(m));
        uint64_t count = all - fed < PART ? all - fed : PART;
        CHECK(boostmap_judge_feed_all(&judge, part, count, &w) == BOOSTMAP_DONE && w == count);
        fed += count;
    }
    CHECK(boostmap_judge_verdict(&judge, &verdict) == BOOSTMAP_DONE && verdict.is_legal);
    CHECK(boostmap_judge_free(&judge) == BOOSTMAP_DONE);
    return verdict.commits;
}

/* Whether the history has this entry at this index. */
static int has_entry(boostmap *m, uint64_t index, boostmap_entry wanted) {
    boostmap_entry found[2];
    uint64_t w;
    memset(found, 7, sizeof found);
    CHECK(boostmap_history(m, index, found, 1, &w) == BOOSTMAP_DONE && found[1].kind == 0x07070707);
    return !memcmp(&found[0], &wanted, sizeof wanted);
}

/* Each kind of entry, as C gets it. */
static void entries_in_c(void) {
    boostmap m = BOOSTMAP_INIT;
    boostmap_entry none = {.kind = 99};
    uint64_t w = 77;
    CHECK(boostmap_history(&m, 0, &none, 1, &w) == BOOSTMAP_EMPTY && w == 77 && none.kind == 99);
    CHECK(boostmap_new(&m, 2, 4, 64) == BOOSTMAP_DONE);
    CHECK(boostmap_history(&m, 0, &none, 1, &w) == BOOSTMAP_DONE && w == 0 && none.kind == 99);
    CHECK(boostmap_begin(&m, 1, &w) == BOOSTMAP_DONE);
    CHECK(boostmap_put(&m, 1, 5, 50, &w) == BOOSTMAP_ABSENT);
    CHECK(boostmap_put_if_equal(&m, 1, 5, 50, 51, &w) == BOOSTMAP_DONE);
    CHECK(boostmap_save(&m, 1, &w) == BOOSTMAP_DONE);
    CHECK(boostmap_take(&m, 1, 5, &w) == BOOSTMAP_DONE);
    CHECK(boostmap_put_if_absent(&m, 1, 5, 52, &w) == BOOSTMAP_ABSENT);
    CHECK(boostmap_back(&m, 1, 1, &w) == BOOSTMAP_DONE);
    CHECK(boostmap_begin(&m, 0, &w) == BOOSTMAP_DONE);
    CHECK(boostmap_get(&m, 0, 9, &w) == BOOSTMAP_BUSY && w == 1);
    CHECK(boostmap_abort(&m, 0, &w) == BOOSTMAP_DONE);
    CHECK(boostmap_begin(&m, 0, &w) == BOOSTMAP_DONE && boostmap_abort(&m, 0, &w) == BOOSTMAP_DONE);
    CHECK(boostmap_commit(&m, 1, &w) == BOOSTMAP_DONE);
    static const boostmap_entry wanted[] = {
        {.kind = BOOSTMAP_BEGAN, .caller = 1, .number = 1},
        {.kind = BOOSTMAP_ASKED, .operation = BOOSTMAP_PUT, .caller = 1, .key = 5, .value = 50},
        {.kind = BOOSTMAP_DID, .caller = 1},
        {.kind = BOOSTMAP_ASKED, .operation = BOOSTMAP_PUT_IF, .caller = 1, .key = 5, .value = 51, .expected = 50, .has = 1},
        {.kind = BOOSTMAP_DID, .caller = 1, .value = 50, .has = 1},
        {.kind = BOOSTMAP_SAVED, .caller = 1},
        {.kind = BOOSTMAP_ASKED, .operation = BOOSTMAP_TAKE, .caller = 1, .key = 5},
        {.kind = BOOSTMAP_DID, .caller = 1, .value = 51, .has = 1},
        {.kind = BOOSTMAP_ASKED, .operation = BOOSTMAP_PUT_IF, .caller = 1, .key = 5, .value = 52},
        {.kind = BOOSTMAP_DID, .caller = 1},
        {.kind = BOOSTMAP_LEAVE, .caller = 1, .number = 1, .has = 1},
        {.kind = BOOSTMAP_UNDONE, .caller = 1},
        {.kind = BOOSTMAP_UNDONE, .caller = 1},
        {.kind = BOOSTMAP_RETURNED, .caller = 1, .number = 1},
        {.kind = BOOSTMAP_BEGAN, .number = 2},
        {.kind = BOOSTMAP_FOUND_BUSY, .operation = BOOSTMAP_GET, .key = 9, .number = 1},
        {.kind = BOOSTMAP_ABORTED},
        {.kind = BOOSTMAP_BEGAN, .number = 3},
        {.kind = BOOSTMAP_LEAVE},
        {.kind = BOOSTMAP_ABORTED},
        {.kind = BOOSTMAP_COMMITTED, .caller = 1, .number = 1},
    };
    enum { ALL = sizeof wanted / sizeof *wanted };
    CHECK(entries(&m) == ALL);
    for (uint64_t i = 0; i < ALL; i++) CHECK(has_entry(&m, i, wanted[i]));
    CHECK(boostmap_history(&m, ALL, &none, 1, &w) == BOOSTMAP_DONE && w == ALL && none.kind == 99);
    CHECK(boostmap_history(&m, UINT64_MAX, &none, 1, &w) == BOOSTMAP_DONE && w == ALL && none.kind == 99);
    CHECK(boostmap_history(&m, 0, &none, 0, &w) == BOOSTMAP_DONE && w == ALL && none.kind == 99);
    CHECK(judged(&m, 4) == 1);
    CHECK(boostmap_free(&m) == BOOSTMAP_DONE);
}

/* What a trim needs, what it leaves, and how transactions are numbered after it. */
static void trim_by_hand(void) {
    enum { KEYS = 100 };
    static boostmap_pair before[KEYS], after[KEYS];
    boostmap m = BOOSTMAP_INIT;
    uint64_t w;
    CHECK(boostmap_new(&m, 2, 64, 64) == BOOSTMAP_DONE);
    put_keys(&m, 0, KEYS);
    CHECK(entries(&m) == 2 * KEYS + 2);
    for (int i = 0; i < 10; i++) {
        CHECK(boostmap_begin(&m, 1, &w) == BOOSTMAP_DONE);
        CHECK(boostmap_get(&m, 1, 7, &w) == BOOSTMAP_DONE && w == 8);
        CHECK(boostmap_commit(&m, 1, &w) == BOOSTMAP_DONE);
    }
    CHECK(entries(&m) == 2 * KEYS + 2 + 40);
    CHECK(boostmap_begin(&m, 1, &w) == BOOSTMAP_DONE && w == 12);
    CHECK(boostmap_trim(&m) == BOOSTMAP_ALREADY_OPEN && entries(&m) == 2 * KEYS + 43);
    CHECK(boostmap_abort(&m, 1, &w) == BOOSTMAP_DONE);
    CHECK(boostmap_read(&m, before, KEYS, &w) == BOOSTMAP_DONE && w == KEYS);
    CHECK(boostmap_trim(&m) == BOOSTMAP_DONE && entries(&m) == 2 * KEYS + 2);
    CHECK(boostmap_read(&m, after, KEYS, &w) == BOOSTMAP_DONE && w == KEYS);
    CHECK(!memcmp(before, after, sizeof before));
    CHECK(boostmap_begin(&m, 1, &w) == BOOSTMAP_DONE && w == 2);
    CHECK(boostmap_take(&m, 1, 7, &w) == BOOSTMAP_DONE && w == 8);
    CHECK(boostmap_commit(&m, 1, &w) == BOOSTMAP_DONE && w == 2);
    CHECK(boostmap_count(&m, &w) == BOOSTMAP_DONE && w == KEYS - 1);
    CHECK(judged(&m, 64) == 2);
    CHECK(boostmap_free(&m) == BOOSTMAP_DONE);
}

/* One transaction of a caller: four gets, and a commit or an abort. */
static void read_four(boostmap *m, uint64_t caller, int commits) {
    uint64_t w;
    CHECK(boostmap_begin(m, caller, &w) == BOOSTMAP_DONE);
    for (uint64_t k = 0; k < 4; k++) CHECK(boostmap_get(m, caller, k, &w) == BOOSTMAP_DONE);
    CHECK((commits ? boostmap_commit(m, caller, &w) : boostmap_abort(m, caller, &w)) == BOOSTMAP_DONE);
}

/* A map that trims itself keeps its history short, unless a caller stays in a transaction. */
static void trim_by_itself(void) {
    enum { KEYS = 100, BOUND = 1000, TURNS = 20000, ONE = 11 };
    boostmap m = BOOSTMAP_INIT;
    uint64_t w, most = 0, trims = 0, was;
    CHECK(boostmap_new(&m, 2, 64, 64) == BOOSTMAP_DONE);
    put_keys(&m, 0, KEYS);
    for (int i = 0; i < 2 * BOUND / ONE; i++) read_four(&m, 0, 1);
    CHECK(entries(&m) > BOUND);
    CHECK(boostmap_trim_above(&m, BOUND) == BOOSTMAP_DONE && entries(&m) > BOUND);
    for (int i = 0; i < TURNS; i++) {
        was = entries(&m);
        read_four(&m, i % 2, i % 4 < 3);
        w = entries(&m);
        if (w < was) {
            trims++;
            CHECK(w == 2 * KEYS + 2 && (was > BOUND - ONE));
        }
        if (i > 0 && w > most) most = w;
    }
    CHECK(most <= BOUND && trims > TURNS / 100);
    CHECK(boostmap_begin(&m, 1, &w) == BOOSTMAP_DONE);
    for (int i = 0; i < BOUND; i++) read_four(&m, 0, 1);
    CHECK(entries(&m) > 10 * BOUND);
    CHECK(boostmap_commit(&m, 1, &w) == BOOSTMAP_DONE && entries(&m) == 2 * KEYS + 2);
    CHECK(boostmap_trim_above(&m, 0) == BOOSTMAP_DONE);
    for (int i = 0; i < BOUND; i++) read_four(&m, 0, 1);
    CHECK(entries(&m) > 10 * BOUND);
    CHECK(boostmap_free(&m) == BOOSTMAP_DONE);
}

/* The model: the value of each key, or NONE, now and before the transaction of each caller. */
enum { MODEL_KEYS = 512, NONE = 1000000, CALLS = 200000 };
static uint64_t model[MODEL_KEYS], kept[2][MODEL_KEYS];

/* One operation of a caller on one of its own keys, which are even for caller 0 and odd for caller 1. */
static void operate(boostmap *m, uint64_t caller) {
    uint64_t key = 2 * draw(MODEL_KEYS / 2) + caller, value = draw(NONE), w = NONE, had = model[key];
    boostmap_status status, wanted = had == NONE ? BOOSTMAP_ABSENT : BOOSTMAP_DONE;
    switch (draw(5)) {
    case 0:
        status = boostmap_take(m, caller, key, &w);
        model[key] = NONE;
        break;
    case 1:
        status = boostmap_get(m, caller, key, &w);
        break;
    case 2:
        status = boostmap_put_if_absent(m, caller, key, value, &w);
        if (had == NONE) model[key] = value;
        break;
    case 3:
        status = boostmap_put_if_equal(m, caller, key, had, value, &w);
        if (had != NONE) model[key] = value;
        break;
    default:
        status = boostmap_put(m, caller, key, value, &w);
        model[key] = value;
    }
    CHECK(status == wanted && w == had);
}

static void ends(boostmap *m, uint64_t caller) {
    uint64_t w;
    if (draw(4)) {
        CHECK(boostmap_commit(m, caller, &w) == BOOSTMAP_DONE);
    } else {
        CHECK(boostmap_abort(m, caller, &w) == BOOSTMAP_DONE);
        for (uint64_t k = caller; k < MODEL_KEYS; k += 2) model[k] = kept[caller][k];
    }
}

static void beside_a_model(void) {
    boostmap m = BOOSTMAP_INIT;
    uint64_t w, keys = 0;
    int is_open[2] = {0, 0};
    for (uint64_t k = 0; k < MODEL_KEYS; k++) model[k] = NONE;
    CHECK(boostmap_new(&m, 2, 64, 256) == BOOSTMAP_DONE);
    CHECK(boostmap_trim_above(&m, 5000) == BOOSTMAP_DONE);
    for (int i = 0; i < CALLS; i++) {
        uint64_t caller = draw(2), kind = draw(32);
        if (!is_open[caller]) {
            CHECK(boostmap_begin(&m, caller, &w) == BOOSTMAP_DONE);
            memcpy(kept[caller], model, sizeof model);
            is_open[caller] = 1;
        } else if (kind == 0) {
            ends(&m, caller);
            is_open[caller] = 0;
        } else if (kind == 1) {
            boostmap_status status = boostmap_trim(&m);
            CHECK(status == BOOSTMAP_ALREADY_OPEN);
        } else if (kind == 2) {
            CHECK(boostmap_help(&m, caller, draw(MODEL_KEYS)) == BOOSTMAP_DONE);
        } else {
            operate(&m, caller);
        }
        if (!is_open[0] && !is_open[1] && draw(8) == 0) CHECK(boostmap_trim(&m) == BOOSTMAP_DONE);
        if (draw(CALLS / 20) == 0) judged(&m, 64);
    }
    for (uint64_t c = 0; c < 2; c++)
        if (is_open[c]) ends(&m, c);
    for (uint64_t k = 0; k < MODEL_KEYS; k++) keys += model[k] != NONE;
    CHECK(boostmap_count(&m, &w) == BOOSTMAP_DONE && w == keys);
    CHECK(boostmap_begin(&m, 0, &w) == BOOSTMAP_DONE);
    for (uint64_t k = 0; k < MODEL_KEYS; k++) {
        w = NONE;
        CHECK(boostmap_get(&m, 0, k, &w) == (model[k] == NONE ? BOOSTMAP_ABSENT : BOOSTMAP_DONE) && w == model[k]);
    }
    CHECK(boostmap_free(&m) == BOOSTMAP_DONE);
}

int main(void) {
    growth();
    entries_in_c();
    trim_by_hand();
    trim_by_itself();
    beside_a_model();
    return 0;
}
