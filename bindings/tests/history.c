/* Threads run transactions on a striped map that keeps its entries, and are busy at times. Each makes another caller
 * halfway, frees its own, and goes on with that one. It frees it at the end, and the host hands out the whole history, which the judges must find legal and serializable; with one reply forged they must
 * not. The statuses of the host's calls come before. Usage: history [THREADS] */
#include "boostmap.h"
#include "check.h"
#include <pthread.h>
#include <string.h>

enum { MOST = 16, STRIPES = 8, KEYS = 32, ROUNDS = 2000 };

static boostmap_caller callers[MOST];
static uint64_t commits[MOST]; /* of each thread */

static uint64_t draw(uint64_t *seed, uint64_t below) {
    *seed = *seed * 6364136223846793005u + 1442695040888963407u;
    return (*seed >> 33) % below;
}

/* A transaction of some operations, with a savepoint at times, that commits, aborts or is busy. Returns whether it
 * has committed. */
static int round_of(boostmap_caller *caller, uint64_t *seed) {
    uint64_t w, level = 0;
    CHECK(boostmap_striped_begin(caller) == BOOSTMAP_DONE);
    for (uint64_t i = draw(seed, 6); i-- > 0;) {
        uint64_t key = draw(seed, KEYS), what = draw(seed, 7);
        boostmap_status status = BOOSTMAP_DONE;
        if (what == 0) status = boostmap_striped_take(caller, key, &w);
        else if (what == 1) status = boostmap_striped_get(caller, key, &w);
        else if (what == 2) status = boostmap_striped_put_if_absent(caller, key, i, &w);
        else if (what == 3) status = boostmap_striped_put_if_equal(caller, key, 1, i, &w);
        else if (what == 4) status = boostmap_striped_save(caller, &level);
        else if (what == 5 && level) status = boostmap_striped_back(caller, draw(seed, level + 1));
        else status = boostmap_striped_put(caller, key, i, &w);
        if (status == BOOSTMAP_BUSY) return 0;
        if (status == BOOSTMAP_NO_SUCH_LEVEL) continue;
        CHECK(status <= BOOSTMAP_ABSENT);
    }
    if (draw(seed, 4)) {
        CHECK(boostmap_striped_commit(caller, &w) == BOOSTMAP_DONE && w == 0);
        return 1;
    }
    CHECK(boostmap_striped_abort(caller) == BOOSTMAP_DONE);
    return 0;
}

/* The same by one call, without a savepoint, and strict at times. */
static int run_of(boostmap_caller *caller, uint64_t *seed) {
    boostmap_entry operations[6];
    boostmap_reply replies[6];
    uint64_t w, done, count = draw(seed, 6);
    for (uint64_t i = 0; i < count; i++)
        operations[i] = (boostmap_entry){.operation = BOOSTMAP_PUT + (uint32_t)draw(seed, 4), .key = draw(seed, KEYS),
                                         .value = i, .has = draw(seed, 2), .expected = 1};
    boostmap_status status = boostmap_striped_run(caller, operations, count, (uint32_t)draw(seed, 2), replies, 6, &done, &w);
    CHECK(status == BOOSTMAP_DONE || status == BOOSTMAP_BUSY || status == BOOSTMAP_MISSED);
    return status == BOOSTMAP_DONE;
}

/* Frees the caller, in a transaction or not, and puts another one in its place. */
static void passes_on(boostmap_caller *caller, size_t is_open) {
    boostmap_caller next = BOOSTMAP_INIT;
    uint64_t number;
    CHECK(boostmap_striped_another(caller, &next, &number) == BOOSTMAP_DONE && number > 0);
    if (is_open) CHECK(boostmap_striped_begin(caller) == BOOSTMAP_DONE);
    CHECK(boostmap_striped_free(caller) == BOOSTMAP_DONE);
    *caller = next; /* moved */
}

static void *run(void *caller) {
    size_t me = (size_t)((boostmap_caller *)caller - callers);
    uint64_t seed = me + 1;
    for (int i = 0; i < ROUNDS; i++) {
        if (i == ROUNDS / 2) passes_on(caller, me % 2);
        commits[me] += (uint64_t)(i % 4 ? round_of : run_of)(caller, &seed);
    }
    if (seed % 2) CHECK(boostmap_striped_begin(caller) == BOOSTMAP_DONE); /* aborted by the free */
    CHECK(boostmap_striped_free(caller) == BOOSTMAP_DONE);
    return NULL;
}

static boostmap_verdict judged(const boostmap_entry *entries, uint64_t count, uint32_t rule) {
    boostmap_judge judge = BOOSTMAP_INIT;
    boostmap_verdict verdict;
    uint64_t fed;
    CHECK(boostmap_judge_new(&judge, STRIPES, rule) == BOOSTMAP_DONE);
    CHECK(boostmap_judge_feed_all(&judge, entries, count, &fed) == BOOSTMAP_DONE && fed == count);
    CHECK(boostmap_judge_verdict(&judge, &verdict) == BOOSTMAP_DONE);
    CHECK(boostmap_judge_free(&judge) == BOOSTMAP_DONE);
    return verdict;
}

/* The history of a map is serializable, in the order of its commits. If it goes on with a transaction that reads what
 * nobody put, it is not. */
static void is_serializable(const boostmap_entry *entries, uint64_t count) {
    boostmap_entry *longer = malloc((count + 4) * sizeof *longer);
    boostmap_link *links = calloc(count, sizeof *links);
    uint64_t begun[2 * MOST + 1] = {0}, commits = 0, transactions = 0;
    boostmap_finding found;
    CHECK(longer && links);
    CHECK(boostmap_judge_any_order(entries, count, 0, links, count, &found) == BOOSTMAP_DONE);
    for (uint64_t i = 0; i < count; i++) {
        if (entries[i].kind == BOOSTMAP_BEGAN) begun[entries[i].caller] = ++transactions;
        if (entries[i].kind == BOOSTMAP_COMMITTED) CHECK(links[commits++].transaction == begun[entries[i].caller]);
    }
    CHECK(found.kind == BOOSTMAP_SERIALIZABLE && found.count == commits && commits > 0);
    memcpy(longer, entries, count * sizeof *longer);
    longer[count] = (boostmap_entry){.kind = BOOSTMAP_BEGAN, .number = transactions + 1};
    longer[count + 1] = (boostmap_entry){.kind = BOOSTMAP_ASKED, .operation = BOOSTMAP_GET, .key = 1};
    longer[count + 2] = (boostmap_entry){.kind = BOOSTMAP_DID, .value = UINT64_MAX, .has = 1};
    longer[count + 3] = (boostmap_entry){.kind = BOOSTMAP_COMMITTED, .number = commits + 1};
    CHECK(boostmap_judge_any_order(longer, count + 4, 0, links, 0, &found) == BOOSTMAP_DONE);
    CHECK(found.kind == BOOSTMAP_UNWRITTEN && found.number == transactions + 1);
    CHECK(found.key == 1 && found.has == 1 && found.value == UINT64_MAX && found.count == 0);
    free(longer);
    free(links);
}

/* Threads run, and their history is judged. */
static void threads_are_judged(uint64_t count) {
    boostmap_host host = BOOSTMAP_INIT;
    boostmap_entry *entries = NULL;
    boostmap_verdict verdict;
    pthread_t threads[MOST];
    uint64_t word, forged = 0, committed = 0;
    CHECK(boostmap_striped_open(&callers[0], count, STRIPES, 0, BOOSTMAP_KEEP_ENTRIES, 0, &word) == BOOSTMAP_DONE);
    CHECK(boostmap_striped_host(&callers[0], &host) == BOOSTMAP_DONE);
    for (uint64_t i = 1; i < count; i++) CHECK(boostmap_striped_join(&callers[0], &callers[i], &word) == BOOSTMAP_DONE);
    for (uint64_t i = 0; i < count; i++) CHECK(!pthread_create(&threads[i], NULL, run, &callers[i]));
    for (int i = 0; i < 100; i++) {
        boostmap_status status = boostmap_host_history(&host, entries ? entries : (boostmap_entry[1]){{0}}, 1, &word);
        CHECK(status == BOOSTMAP_MISSING || status == BOOSTMAP_SHORT);
    }
    for (uint64_t i = 0; i < count; i++) {
        CHECK(!pthread_join(threads[i], NULL));
        committed += commits[i];
    }
    CHECK(boostmap_host_entries(&host, &entries, &word) == BOOSTMAP_DONE && word > count * ROUNDS);
    verdict = judged(entries, word, BOOSTMAP_HOLDER_BEGUN);
    CHECK(verdict.is_legal == 1 && verdict.running == 0 && verdict.commits == committed && committed > 0);
    CHECK(judged(entries, word, BOOSTMAP_BY_COMMITS).is_legal == 1);
    is_serializable(entries, word);
    while (forged < word && entries[forged].kind != BOOSTMAP_DID) forged++;
    CHECK(forged < word);
    entries[forged].has = 1;
    entries[forged].value ^= 1u << 20;
    verdict = judged(entries, word, BOOSTMAP_HOLDER_BEGUN);
    CHECK(verdict.is_legal == 0 && verdict.entry == forged && verdict.rule == 1);
    free(entries);
    CHECK(boostmap_host_free(&host) == BOOSTMAP_DONE);
}

/* What the calls answer when there is no history. */
static void statuses(void) {
    boostmap_caller first = BOOSTMAP_INIT, next = BOOSTMAP_INIT, plain = BOOSTMAP_INIT;
    boostmap_host host = BOOSTMAP_INIT, other = BOOSTMAP_INIT, none = BOOSTMAP_INIT;
    boostmap_entry entries[8], before[8];
    uint64_t w;
    memset(before, 0x55, sizeof before);
    memcpy(entries, before, sizeof before);
    CHECK(boostmap_striped_host(&first, &host) == BOOSTMAP_EMPTY);
    CHECK(boostmap_host_history(&host, entries, 8, &w) == BOOSTMAP_EMPTY);
    CHECK(boostmap_host_free(&host) == BOOSTMAP_EMPTY);
    CHECK(boostmap_striped_open(&first, 3, 4, 0, BOOSTMAP_KEEP_ENTRIES, 0, &w) == BOOSTMAP_DONE);
    CHECK(boostmap_striped_option(&first, BOOSTMAP_OPTION_KEEP, &w) == BOOSTMAP_DONE && w == BOOSTMAP_KEEP_ENTRIES);
    CHECK(boostmap_striped_join(&first, &next, &w) == BOOSTMAP_DONE && w == 2);
    CHECK(boostmap_striped_host(&next, &host) == BOOSTMAP_NO_HOST);
    CHECK(boostmap_striped_host(&first, &host) == BOOSTMAP_DONE);
    CHECK(boostmap_striped_host(&first, &host) == BOOSTMAP_FULL);
    CHECK(boostmap_striped_host(&first, &other) == BOOSTMAP_NO_HOST);
    CHECK(memcmp(&other, &none, sizeof none) == 0);
    CHECK(boostmap_striped_begin(&next) == BOOSTMAP_DONE);
    CHECK(boostmap_striped_put(&next, 1, 10, &w) == BOOSTMAP_ABSENT);
    CHECK(boostmap_striped_commit(&next, &w) == BOOSTMAP_DONE && w == 0);
    CHECK(boostmap_host_history(&host, entries, 8, &w) == BOOSTMAP_MISSING && w == 1);
    CHECK(boostmap_striped_free(&first) == BOOSTMAP_DONE); /* and caller 1, which waits */
    CHECK(boostmap_host_history(&host, entries, 8, &w) == BOOSTMAP_MISSING && w == 2);
    CHECK(memcmp(entries, before, sizeof before) == 0);
    CHECK(boostmap_striped_free(&next) == BOOSTMAP_DONE);
    CHECK(boostmap_host_history(&host, entries, 3, &w) == BOOSTMAP_SHORT && w == 4);
    CHECK(memcmp(entries, before, sizeof before) == 0);
    for (int i = 0; i < 2; i++) {
        CHECK(boostmap_host_history(&host, entries, 8, &w) == BOOSTMAP_DONE && w == 4);
        CHECK(entries[0].kind == BOOSTMAP_BEGAN && entries[0].caller == 2 && entries[0].number == 1);
        CHECK(entries[1].kind == BOOSTMAP_ASKED && entries[1].operation == BOOSTMAP_PUT && entries[1].key == 1 && entries[1].value == 10);
        CHECK(entries[2].kind == BOOSTMAP_DID && entries[2].has == 0);
        CHECK(entries[3].kind == BOOSTMAP_COMMITTED && entries[3].number == 1);
        CHECK(memcmp(entries + 4, before + 4, 4 * sizeof *entries) == 0);
    }
    CHECK(boostmap_host_free(&host) == BOOSTMAP_DONE && memcmp(&host, &none, sizeof none) == 0);
    CHECK(boostmap_striped_open(&plain, 1, 4, 0, BOOSTMAP_KEEP_COMMITS, 0, &w) == BOOSTMAP_DONE);
    CHECK(boostmap_striped_host(&plain, &host) == BOOSTMAP_DONE);
    CHECK(boostmap_host_history(&host, entries, 8, &w) == BOOSTMAP_NOT_KEPT);
    CHECK(boostmap_striped_free(&plain) == BOOSTMAP_DONE);
    CHECK(boostmap_host_history(&host, entries, 8, &w) == BOOSTMAP_NOT_KEPT);
    CHECK(boostmap_host_free(&host) == BOOSTMAP_DONE);
    CHECK(boostmap_striped_open(&plain, 1, 4, 0, 3, 0, &w) == BOOSTMAP_LIMIT);
}

int main(int argc, char **argv) {
    statuses();
    threads_are_judged(argc > 1 ? strtoull(argv[1], NULL, 10) : 4);
    return 0;
}
