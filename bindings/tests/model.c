/* A million random calls of three callers of striped maps beside a model: each status and each word must
 * be the model's, and so must the pairs at the end of each map. Every other map is recorded, and judged
 * at its end; in the others, transactions of one call are made too.
 * Usage: model [CALLS] */
#include "recorded.h"
#include "check.h"

enum { CALLERS = 3, KEYS = 60, MOST_STRIPES = 9, LEVELS = 4, CHANGES = 4096, A_MAP = 20000 };

typedef struct {
    int has;
    uint64_t value;
} cell;

/* For each caller: the keys that its open transaction changed, with what they had before, and the
 * number of changes below each level. */
typedef struct {
    boostmap_recorded r;
    int is_open;
    struct {
        uint64_t key;
        cell before;
    } changed[CHANGES];
    size_t changes, below[LEVELS + 1];
    uint64_t levels, number;
} caller;

static caller callers[CALLERS];
static cell cells[KEYS];
static int holder[MOST_STRIPES]; /* the caller that holds a stripe, from 1, or 0 */
static uint64_t stripes, commits, busy, at_once, seed = 1;

static uint64_t draw(uint64_t below) {
    seed = seed * 6364136223846793005u + 1442695040888963407u;
    return (seed >> 33) % below;
}

static void take_back(caller *c, size_t down_to) {
    while (c->changes > down_to) {
        c->changes--;
        cells[c->changed[c->changes].key] = c->changed[c->changes].before;
    }
}

static void end(caller *c) {
    for (uint64_t s = 0; s < stripes; s++)
        if (holder[s] == c - callers + 1) holder[s] = 0;
    c->is_open = 0;
    c->changes = c->levels = 0;
}

/* Whether another caller holds the stripe; if not, this one takes it. */
static uint64_t is_held(caller *c, uint64_t stripe) {
    int me = (int)(c - callers) + 1;
    if (holder[stripe] && holder[stripe] != me) return 1;
    holder[stripe] = me;
    return 0;
}

static void set(caller *c, uint64_t key, cell to) {
    CHECK(c->changes < CHANGES);
    c->changed[c->changes].key = key;
    c->changed[c->changes++].before = cells[key];
    cells[key] = to;
}

/* What the model does for an operation; its result is the status, and *had the value before. */
static boostmap_status models(caller *c, const boostmap_entry *e, uint64_t *had) {
    cell before = cells[e->key], put = {1, e->value}, none = {0, 0};
    if (is_held(c, e->key % stripes)) {
        *had = callers[holder[e->key % stripes] - 1].number;
        take_back(c, 0);
        end(c);
        return BOOSTMAP_BUSY;
    }
    *had = before.value;
    if (e->operation == BOOSTMAP_PUT) set(c, e->key, put);
    if (e->operation == BOOSTMAP_TAKE) set(c, e->key, none);
    if (e->operation == BOOSTMAP_PUT_IF && before.has == (int)e->has &&
        (!e->has || before.value == e->expected))
        set(c, e->key, put);
    return before.has ? BOOSTMAP_DONE : BOOSTMAP_ABSENT;
}

static boostmap_status asks(boostmap_recorded *r, const boostmap_entry *e, uint64_t *w) {
    switch (e->operation) {
    case BOOSTMAP_PUT: return boostmap_recorded_put(r, e->key, e->value, w);
    case BOOSTMAP_TAKE: return boostmap_recorded_take(r, e->key, w);
    case BOOSTMAP_GET: return boostmap_recorded_get(r, e->key, w);
    default:
        return e->has ? boostmap_recorded_put_if_equal(r, e->key, e->expected, e->value, w)
                      : boostmap_recorded_put_if_absent(r, e->key, e->value, w);
    }
}

/* Draws an operation. Few values, so that expected ones are often right. */
static boostmap_entry drawn(void) {
    boostmap_entry e = {0};
    e.operation = (uint32_t)draw(4) + BOOSTMAP_PUT;
    e.key = draw(KEYS);
    e.value = draw(8) ? draw(4) : UINT64_MAX - draw(2);
    e.has = e.operation == BOOSTMAP_PUT_IF && draw(2);
    e.expected = draw(4);
    return e;
}

static void operate(caller *c) {
    boostmap_entry e = drawn();
    uint64_t had = 0, w = 0;
    boostmap_status due = models(c, &e, &had), status = asks(&c->r, &e, &w);
    CHECK(status == due && (status == BOOSTMAP_ABSENT || w == had));
    busy += status == BOOSTMAP_BUSY;
}

static void go_back(caller *c) {
    uint64_t level = draw(LEVELS + 1);
    boostmap_status due = level > c->levels ? BOOSTMAP_NO_SUCH_LEVEL : BOOSTMAP_DONE;
    CHECK(boostmap_recorded_back(&c->r, level) == due);
    if (due != BOOSTMAP_DONE) return;
    take_back(c, level ? c->below[level] : 0);
    c->levels = level;
}

static void save(caller *c) {
    uint64_t w;
    if (c->levels == LEVELS) return;
    CHECK(boostmap_recorded_save(&c->r, &w) == BOOSTMAP_DONE && w == ++c->levels);
    c->below[w] = c->changes;
}

/* Checks the pairs of the map, which is read with all stripes taken. */
static void reads(caller *c,
                  boostmap_status (*items)(boostmap_caller *, boostmap_pair **, uint64_t *)) {
    boostmap_pair *pairs;
    uint64_t count, at = 0;
    CHECK(items(&c->r.caller, &pairs, &count) == BOOSTMAP_DONE);
    for (uint64_t k = 0; k < KEYS; k++)
        if (cells[k].has)
            CHECK(at < count && pairs[at].key == k && pairs[at++].value == cells[k].value);
    CHECK(at == count);
    free(pairs);
}

static void look(caller *c) {
    uint64_t w;
    for (uint64_t s = 0; s < stripes; s++)
        if (is_held(c, s)) {
            CHECK(boostmap_recorded_count(&c->r, &w) == BOOSTMAP_BUSY);
            take_back(c, 0);
            end(c);
            return;
        }
    reads(c, boostmap_striped_items);
}

static boostmap_status flips(void *with, boostmap_status found, uint64_t *value) {
    if (found == BOOSTMAP_DONE) return BOOSTMAP_ABSENT;
    *value = *(uint64_t *)with;
    return BOOSTMAP_DONE;
}

/* A transaction of one call, on a key whose stripe nobody holds. */
static void call_at_once(caller *c) {
    boostmap_entry e = drawn();
    boostmap_caller *at = &c->r.caller;
    cell *on = &cells[e.key], before = *on;
    boostmap_status due = before.has ? BOOSTMAP_DONE : BOOSTMAP_ABSENT, status;
    uint64_t w = 0, had = before.has ? before.value : 0, delta = draw(10);
    if (holder[e.key % stripes]) return;
    at_once++;
    switch (draw(8)) {
    case 0: status = boostmap_caller_get(at, e.key, &w); break;
    case 1:
        status = boostmap_caller_put(at, e.key, e.value, &w), on->has = 1, on->value = e.value;
        break;
    case 2: status = boostmap_caller_take(at, e.key, &w), on->has = 0; break;
    case 3:
        status = boostmap_caller_put_if_equal(at, e.key, e.expected, e.value, &w);
        if (before.has && had == e.expected) on->value = e.value;
        break;
    case 4:
        status = boostmap_caller_update(at, e.key, flips, &e.value, &w);
        on->has = !before.has, on->value = e.value;
        break;
    case 5:
        status = boostmap_caller_get_or_put(at, e.key, e.value, &w);
        if (!before.has) on->has = 1, on->value = had = e.value;
        CHECK(w == had);
        break;
    case 6:
        if (had + delta < had) due = BOOSTMAP_OVERFLOW;
        else on->has = 1, on->value = had + delta;
        status = boostmap_caller_add(at, e.key, (int64_t)delta, &w);
        break;
    default:
        if (had < delta) due = BOOSTMAP_OVERFLOW;
        else on->has = 1, on->value = had - delta;
        status = boostmap_caller_add(at, e.key, -(int64_t)delta, &w);
    }
    CHECK(status == due && (status != BOOSTMAP_DONE || w == had));
}

static void call(caller *c) {
    uint64_t kind = draw(32), w;
    if (!c->is_open) {
        if (!c->r.is_recorded && kind < 24) {
            call_at_once(c);
            return;
        }
        CHECK(boostmap_recorded_commit(&c->r, &w) == BOOSTMAP_NOT_OPEN);
        CHECK(boostmap_recorded_begin(&c->r) == BOOSTMAP_DONE);
        c->is_open = 1;
    } else if (kind < 4 || c->changes + 1 == CHANGES) {
        CHECK(boostmap_recorded_begin(&c->r) == BOOSTMAP_ALREADY_OPEN);
        CHECK(boostmap_recorded_commit(&c->r, &w) == BOOSTMAP_DONE);
        CHECK(w == (c->r.is_recorded ? commits + 1 : 0));
        commits++;
        end(c);
    } else if (kind == 4) {
        CHECK(boostmap_recorded_abort(&c->r) == BOOSTMAP_DONE);
        take_back(c, 0);
        end(c);
    } else if (kind == 5) {
        save(c);
    } else if (kind == 6) {
        go_back(c);
    } else if (kind == 7 && !draw(8)) {
        look(c);
    } else {
        operate(c);
    }
}

/* Has the map judged, if it is recorded, and frees it. */
static void close_map(int is_recorded) {
    boostmap_recorded all[CALLERS];
    boostmap_judge judge = BOOSTMAP_INIT;
    boostmap_verdict verdict;
    for (int i = 0; i < CALLERS; i++) {
        if (callers[i].is_open) CHECK(boostmap_recorded_abort(&callers[i].r) == BOOSTMAP_DONE);
        take_back(&callers[i], 0);
        end(&callers[i]);
        all[i] = callers[i].r;
    }
    reads(&callers[0], boostmap_caller_items);
    CHECK(boostmap_judge_new(&judge, 1, BOOSTMAP_BY_COMMITS) == BOOSTMAP_DONE);
    CHECK(boostmap_recorded_feed(&judge, all, CALLERS) == BOOSTMAP_DONE);
    CHECK(boostmap_judge_verdict(&judge, &verdict) == BOOSTMAP_DONE);
    CHECK(verdict.is_legal && verdict.running == 0 &&
          verdict.commits == (is_recorded ? commits : 0));
    CHECK(boostmap_judge_free(&judge) == BOOSTMAP_DONE);
    for (int i = 0; i < CALLERS; i++) CHECK(boostmap_recorded_free(&callers[i].r) == BOOSTMAP_DONE);
}

static void one_map(int is_recorded) {
    boostmap_recorded none = {0};
    uint64_t w, keep = is_recorded ? BOOSTMAP_KEEP_COMMITS : BOOSTMAP_KEEP_NOTHING;
    stripes = 1 + draw(MOST_STRIPES);
    commits = 0;
    for (int k = 0; k < KEYS; k++) cells[k].has = 0;
    for (int i = 0; i < CALLERS; i++) {
        caller *c = &callers[i];
        c->r = none;
        c->r.is_recorded = is_recorded;
        CHECK((i ? boostmap_recorded_join(&callers[0].r, &c->r, &w)
                 : boostmap_striped_open(&c->r.caller, CALLERS, stripes, draw(100), (uint32_t)keep,
                                         draw(1000), &w)) == BOOSTMAP_DONE);
        c->number = w;
    }
    for (int i = 0; i < A_MAP; i++) call(&callers[draw(CALLERS)]);
    close_map(is_recorded);
}

int main(int argc, char **argv) {
    long calls = argc > 1 ? atol(argv[1]) : 1000000, maps = 0;
    uint64_t all = 0;
    for (; maps * A_MAP < calls; maps++) {
        one_map(maps % 2 == 0);
        all += commits;
    }
    printf("model: %ld calls, %ld maps, %llu committed, %llu busy, %llu at once\n", maps * A_MAP,
           maps, (unsigned long long)all, (unsigned long long)busy, (unsigned long long)at_once);
    CHECK(all > 0 && busy > 0 && at_once > 0);
    return 0;
}
