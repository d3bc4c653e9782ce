/* boostmap_striped_run: each status at its limits, with what it writes and what it leaves unchanged, and how it is
 * counted. Then drawn runs on one map, and the same operations one by one on a second map: each reply, the counts and
 * the pairs must be the same. The history of a map that keeps its entries is judged. */
#include "boostmap.h"
#include "check.h"

enum { UNTOUCHED = 77, MOST = 8, KEYS = 24, STRIPES = 5, RUNS = 20000 };

/* Members that a run does not read have wrong numbers. */
static boostmap_entry of(uint32_t operation, uint64_t key, uint64_t value, uint64_t has, uint64_t expected) {
    return (boostmap_entry){.kind = 99, .operation = operation, .caller = UINT64_MAX, .key = key, .value = value,
                            .expected = expected, .number = 12345, .has = has};
}
static boostmap_entry put(uint64_t key, uint64_t value) { return of(BOOSTMAP_PUT, key, value, 1, 5); }
static boostmap_entry take(uint64_t key) { return of(BOOSTMAP_TAKE, key, 6, 1, 5); }
static boostmap_entry get(uint64_t key) { return of(BOOSTMAP_GET, key, 6, 1, 5); }
static boostmap_entry put_if_absent(uint64_t key, uint64_t value) { return of(BOOSTMAP_PUT_IF, key, value, 0, 5); }
static boostmap_entry put_if(uint64_t key, uint64_t expected, uint64_t value) {
    return of(BOOSTMAP_PUT_IF, key, value, UINT64_MAX, expected);
}

/* What a run came to. Places that it did not write are UNTOUCHED. */
typedef struct {
    boostmap_status status;
    uint64_t done, word;
    boostmap_reply replies[MOST + 1];
} outcome;

static outcome blank(void) {
    outcome o = {.done = UNTOUCHED, .word = UNTOUCHED};
    for (int i = 0; i <= MOST; i++) o.replies[i] = (boostmap_reply){UNTOUCHED, UNTOUCHED};
    return o;
}

static outcome runs(boostmap_caller *c, const boostmap_entry *operations, size_t count, uint32_t strict, size_t places) {
    outcome o = blank();
    o.status = boostmap_striped_run(c, operations, count, strict, o.replies, places, &o.done, &o.word);
    return o;
}

static int are_equal(const outcome *a, const outcome *b) {
    for (int i = 0; i <= MOST; i++)
        if (a->replies[i].has != b->replies[i].has || a->replies[i].value != b->replies[i].value) return 0;
    return a->status == b->status && a->done == b->done && a->word == b->word;
}

/* A run that is over before it begins writes no reply and no word. */
static void is_not_run(outcome o, boostmap_status status, uint64_t done) {
    outcome due = blank();
    due.status = status;
    due.done = done;
    CHECK(are_equal(&o, &due));
}

static int counted(boostmap_caller *c, uint64_t commits, uint64_t aborts, uint64_t busy) {
    boostmap_counts counts;
    CHECK(boostmap_striped_counts(c, &counts) == BOOSTMAP_DONE);
    return counts.commits == commits && counts.aborts == aborts && counts.busy == busy;
}

/* Whether the map has the values 10 and 20 at the keys 1 and 2, and no other key. Commits once. */
static int is_as_filled(boostmap_caller *c) {
    boostmap_pair *pairs;
    uint64_t count;
    CHECK(boostmap_caller_items(c, &pairs, &count) == BOOSTMAP_DONE);
    int is_so = count == 2 && pairs[0].key == 1 && pairs[0].value == 10 && pairs[1].key == 2 && pairs[1].value == 20;
    free(pairs);
    return is_so;
}

/* All four operations, and one place for a reply too many; then none. */
static void committed(boostmap_caller *c) {
    const boostmap_entry filling[] = {put(1, 9), put(2, 20)};
    const boostmap_entry all[] = {put(1, 11), put_if(1, 11, 12), put_if(1, 11, 13), put_if_absent(3, 30),
                                  put_if_absent(3, 31), take(3), get(3), put_if(1, 12, 10)};
    const boostmap_reply replies[] = {{9, 1}, {11, 1}, {12, 1}, {0, 0}, {30, 1}, {30, 1}, {0, 0}, {12, 1}};
    outcome o = runs(c, filling, 2, 0, 2);
    CHECK(o.status == BOOSTMAP_DONE && o.done == 2 && o.word == 1);
    CHECK(o.replies[0].has == 0 && o.replies[0].value == 0 && o.replies[1].has == 0 && o.replies[2].has == UNTOUCHED);
    o = runs(c, all, MOST, 0, MOST + 1);
    CHECK(o.status == BOOSTMAP_DONE && o.done == MOST && o.word == 2);
    for (int i = 0; i < MOST; i++) CHECK(o.replies[i].value == replies[i].value && o.replies[i].has == replies[i].has);
    CHECK(o.replies[MOST].value == UNTOUCHED && o.replies[MOST].has == UNTOUCHED);
    for (uint32_t strict = 0; strict < 2; strict++) {
        o = runs(c, all, 0, strict, 0);
        CHECK(o.status == BOOSTMAP_DONE && o.done == 0 && o.word == 3 + strict && o.replies[0].has == UNTOUCHED);
    }
    CHECK(counted(c, 4, 0, 0) && is_as_filled(c));
}

/* Nothing was run: an empty handle, a place too few, an operation that is none, and an open transaction, which goes on. */
static void not_run(boostmap_caller *c) {
    static const uint32_t none[] = {0, 5, UINT32_MAX};
    boostmap_entry three[] = {put(4, 40), put(5, 50), put(6, 60)};
    boostmap_caller empty = BOOSTMAP_INIT;
    uint64_t w;
    is_not_run(runs(&empty, three, 3, 0, 3), BOOSTMAP_EMPTY, UNTOUCHED);
    is_not_run(runs(c, three, 3, 0, 2), BOOSTMAP_SHORT, 0);
    is_not_run(runs(c, three, 1, 1, 0), BOOSTMAP_SHORT, 0);
    for (int i = 0; i < 9; i++) {
        boostmap_entry wrong[] = {three[0], three[1], three[2]};
        wrong[i % 3].operation = none[i / 3];
        is_not_run(runs(c, wrong, 3, 0, 3), BOOSTMAP_NO_ENTRY, 0);
    }
    CHECK(boostmap_striped_begin(c) == BOOSTMAP_DONE);
    CHECK(boostmap_striped_put(c, 4, 41, &w) == BOOSTMAP_ABSENT);
    is_not_run(runs(c, three, 3, 0, 3), BOOSTMAP_ALREADY_OPEN, 0);
    is_not_run(runs(c, three, 0, 0, 0), BOOSTMAP_ALREADY_OPEN, 0);
    CHECK(counted(c, 5, 0, 0));
    CHECK(boostmap_striped_get(c, 4, &w) == BOOSTMAP_DONE && w == 41);
    CHECK(boostmap_striped_abort(c) == BOOSTMAP_DONE && counted(c, 5, 1, 0));
    CHECK(is_as_filled(c));
}

/* A put_if that misses at the first, the middle and the last place: it ends a strict run, and no other. */
static void missed(boostmap_caller *c) {
    for (int at = 0; at < 3; at++) {
        boostmap_entry three[] = {put(1, 11), put(2, 21), put(2, 22)};
        const boostmap_entry back[] = {put(1, 10), put(2, 20)};
        outcome o;
        three[at] = at == 0 ? put_if_absent(1, 11) : put_if(3, 30, 31);
        o = runs(c, three, 3, at ? 1 : UINT32_MAX, 3);
        CHECK(o.status == BOOSTMAP_MISSED && o.done == (uint64_t)at + 1 && o.word == UNTOUCHED);
        CHECK(o.replies[at].has == (at == 0) && o.replies[at].value == (at ? 0 : 10));
        if (at) CHECK(o.replies[0].has == 1 && o.replies[0].value == 10);
        CHECK(o.replies[at + 1].has == UNTOUCHED && boostmap_striped_abort(c) == BOOSTMAP_NOT_OPEN);
        CHECK(counted(c, 6 + 3 * (uint64_t)at, 2 + (uint64_t)at, 0) && is_as_filled(c));
        CHECK(runs(c, three, 3, 0, 3).status == BOOSTMAP_DONE && runs(c, back, 2, 1, 2).status == BOOSTMAP_DONE);
    }
    CHECK(is_as_filled(c) && counted(c, 16, 4, 0));
}

/* Another caller holds the stripe of key 2, which the run needs at the first, the middle or the last place. */
static void busy(boostmap_caller *c, boostmap_caller *other, uint64_t holder) {
    uint64_t w;
    CHECK(boostmap_striped_begin(other) == BOOSTMAP_DONE);
    CHECK(boostmap_striped_get(other, 2 + STRIPES, &w) == BOOSTMAP_ABSENT);
    for (int at = 0; at < 3; at++) {
        boostmap_entry three[] = {put(1, 11), put(1, 12), put(1, 13)};
        three[at] = put_if(2, 99, 1);
        outcome o = runs(c, three, 3, 1, 3);
        CHECK(o.status == BOOSTMAP_BUSY && o.done == (uint64_t)at && o.word == holder);
        if (at) CHECK(o.replies[0].has == 1 && o.replies[0].value == 10);
        CHECK(o.replies[at].has == UNTOUCHED && boostmap_striped_abort(c) == BOOSTMAP_NOT_OPEN);
        CHECK(counted(c, 16, 4, 1 + (uint64_t)at));
    }
    CHECK(boostmap_striped_abort(other) == BOOSTMAP_DONE && is_as_filled(c));
}

static void statuses(void) {
    boostmap_caller c = BOOSTMAP_INIT, other = BOOSTMAP_INIT;
    uint64_t w;
    CHECK(boostmap_striped_open(&c, 2, STRIPES, 0, BOOSTMAP_KEEP_COMMITS, 0, &w) == BOOSTMAP_DONE);
    CHECK(boostmap_striped_join(&c, &other, &w) == BOOSTMAP_DONE);
    committed(&c);
    not_run(&c);
    missed(&c);
    busy(&c, &other, w);
    CHECK(boostmap_striped_free(&c) == BOOSTMAP_DONE && boostmap_striped_free(&other) == BOOSTMAP_DONE);
}

static uint64_t draw(uint64_t below) {
    static uint64_t seed = 1;
    seed = seed * 6364136223846793005u + 1442695040888963407u;
    return (seed >> 33) % below;
}

/* Draws an operation. Few values, so that expected ones are often right. */
static boostmap_entry drawn(void) {
    static const uint64_t has[] = {0, 0, 1, UINT64_MAX};
    uint32_t operation = (uint32_t)draw(4) + BOOSTMAP_PUT;
    uint64_t key = draw(KEYS), value = draw(8) ? draw(2) : UINT64_MAX - draw(2);
    return of(operation, key, value, has[draw(4)], draw(2));
}

static boostmap_status asks(boostmap_caller *c, const boostmap_entry *e, uint64_t *w) {
    switch (e->operation) {
    case BOOSTMAP_PUT: return boostmap_striped_put(c, e->key, e->value, w);
    case BOOSTMAP_TAKE: return boostmap_striped_take(c, e->key, w);
    case BOOSTMAP_GET: return boostmap_striped_get(c, e->key, w);
    default:
        return e->has ? boostmap_striped_put_if_equal(c, e->key, e->expected, e->value, w)
                      : boostmap_striped_put_if_absent(c, e->key, e->value, w);
    }
}

static int misses(const boostmap_entry *e, boostmap_reply reply) {
    if (e->operation != BOOSTMAP_PUT_IF) return 0;
    return e->has ? !reply.has || reply.value != e->expected : reply.has != 0;
}

/* The same as a run, one call after the other. */
static outcome by_hand(boostmap_caller *c, const boostmap_entry *operations, size_t count, uint32_t strict) {
    outcome o = blank();
    CHECK(boostmap_striped_begin(c) == BOOSTMAP_DONE);
    for (o.done = 0; o.done < count;) {
        const boostmap_entry *e = &operations[o.done];
        uint64_t w = 0;
        o.status = asks(c, e, &w);
        if (o.status == BOOSTMAP_BUSY) {
            o.word = w;
            return o;
        }
        CHECK(o.status <= BOOSTMAP_ABSENT);
        boostmap_reply reply = {w, o.status == BOOSTMAP_DONE};
        o.replies[o.done++] = reply;
        if (strict && misses(e, reply)) {
            CHECK(boostmap_striped_abort(c) == BOOSTMAP_DONE);
            o.status = BOOSTMAP_MISSED;
            return o;
        }
    }
    o.status = boostmap_striped_commit(c, &o.word);
    CHECK(o.status == BOOSTMAP_DONE);
    return o;
}

static void has_same_pairs(boostmap_caller *a, boostmap_caller *b) {
    boostmap_pair *pairs, *others;
    uint64_t count, also;
    CHECK(boostmap_caller_items(a, &pairs, &count) == BOOSTMAP_DONE);
    CHECK(boostmap_caller_items(b, &others, &also) == BOOSTMAP_DONE && count == also);
    for (uint64_t i = 0; i < count; i++) CHECK(pairs[i].key == others[i].key && pairs[i].value == others[i].value);
    free(pairs);
    free(others);
}

/* One drawn run on both maps, at times while the second caller of each holds a stripe. Returns its status. */
static boostmap_status both(boostmap_caller a[2], boostmap_caller b[2]) {
    boostmap_entry operations[MOST];
    boostmap_counts ran, asked;
    size_t count = draw(MOST + 1);
    uint32_t strict = (uint32_t)draw(2);
    uint64_t held = draw(4 * STRIPES), w;
    outcome one, other;
    for (size_t i = 0; i < count; i++) operations[i] = drawn();
    for (int i = 0; i < 2 && held < STRIPES; i++) {
        CHECK(boostmap_striped_begin(i ? &b[1] : &a[1]) == BOOSTMAP_DONE);
        CHECK(boostmap_striped_get(i ? &b[1] : &a[1], held, &w) <= BOOSTMAP_ABSENT);
    }
    one = runs(&a[0], operations, count, strict, count + draw(2));
    other = by_hand(&b[0], operations, count, strict);
    CHECK(are_equal(&one, &other));
    for (int i = 0; i < 2 && held < STRIPES; i++) CHECK(boostmap_striped_abort(i ? &b[1] : &a[1]) == BOOSTMAP_DONE);
    CHECK(boostmap_striped_counts(&a[0], &ran) == BOOSTMAP_DONE && boostmap_striped_counts(&b[0], &asked) == BOOSTMAP_DONE);
    CHECK(ran.commits == asked.commits && ran.aborts == asked.aborts && ran.busy == asked.busy);
    return one.status;
}

static boostmap_verdict judged(const boostmap_entry *entries, uint64_t count) {
    boostmap_judge judge = BOOSTMAP_INIT;
    boostmap_verdict verdict;
    uint64_t fed;
    CHECK(boostmap_judge_new(&judge, STRIPES, BOOSTMAP_HOLDER_BEGUN) == BOOSTMAP_DONE);
    CHECK(boostmap_judge_feed_all(&judge, entries, count, &fed) == BOOSTMAP_DONE && fed == count);
    CHECK(boostmap_judge_verdict(&judge, &verdict) == BOOSTMAP_DONE && boostmap_judge_free(&judge) == BOOSTMAP_DONE);
    return verdict;
}

/* The histories of both maps are legal and equally long; with a forged reply the first is not. */
static void are_judged(boostmap_host hosts[2], uint64_t commits) {
    boostmap_entry *entries[2];
    uint64_t counts[2], forged;
    for (int i = 0; i < 2; i++) {
        CHECK(boostmap_host_entries(&hosts[i], &entries[i], &counts[i]) == BOOSTMAP_DONE);
        boostmap_verdict verdict = judged(entries[i], counts[i]);
        CHECK(verdict.is_legal && verdict.commits == commits && verdict.running == 0);
        CHECK(boostmap_host_free(&hosts[i]) == BOOSTMAP_DONE);
    }
    CHECK(counts[0] == counts[1]);
    for (forged = counts[0] / 2; entries[0][forged].kind != BOOSTMAP_DID; forged++) CHECK(forged + 1 < counts[0]);
    entries[0][forged].has = 1;
    entries[0][forged].value ^= 1u << 20;
    CHECK(!judged(entries[0], counts[0]).is_legal);
    free(entries[0]);
    free(entries[1]);
}

static void beside_the_calls(uint32_t keep) {
    boostmap_caller a[2] = {BOOSTMAP_INIT}, b[2] = {BOOSTMAP_INIT};
    boostmap_host hosts[2] = {BOOSTMAP_INIT};
    uint64_t w, ended[BOOSTMAP_MISSED + 1] = {0};
    for (int i = 0; i < 2; i++) {
        boostmap_caller *c = i ? b : a;
        CHECK(boostmap_striped_open(&c[0], 2, STRIPES, 0, keep, 0, &w) == BOOSTMAP_DONE);
        CHECK(boostmap_striped_host(&c[0], &hosts[i]) == BOOSTMAP_DONE);
        CHECK(boostmap_striped_join(&c[0], &c[1], &w) == BOOSTMAP_DONE);
    }
    for (int i = 0; i < RUNS; i++) {
        ended[both(a, b)]++;
        if (i % 500 == 0) has_same_pairs(&a[1], &b[1]);
    }
    has_same_pairs(&a[1], &b[1]);
    printf("run: %d runs, %llu committed, %llu missed, %llu busy\n", RUNS, (unsigned long long)ended[BOOSTMAP_DONE],
           (unsigned long long)ended[BOOSTMAP_MISSED], (unsigned long long)ended[BOOSTMAP_BUSY]);
    CHECK(ended[BOOSTMAP_DONE] > 100 && ended[BOOSTMAP_MISSED] > 100 && ended[BOOSTMAP_BUSY] > 100);
    for (int i = 0; i < 2; i++)
        CHECK(boostmap_striped_free(&a[i]) == BOOSTMAP_DONE && boostmap_striped_free(&b[i]) == BOOSTMAP_DONE);
    if (keep == BOOSTMAP_KEEP_ENTRIES) are_judged(hosts, ended[BOOSTMAP_DONE] + RUNS / 500 + 1);
    else CHECK(boostmap_host_free(&hosts[0]) == BOOSTMAP_DONE && boostmap_host_free(&hosts[1]) == BOOSTMAP_DONE);
}

int main(void) {
    statuses();
    beside_the_calls(BOOSTMAP_KEEP_NOTHING);
    beside_the_calls(BOOSTMAP_KEEP_COMMITS);
    beside_the_calls(BOOSTMAP_KEEP_ENTRIES);
    return 0;
}
