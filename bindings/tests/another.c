/* Callers that other callers make: each status, in a transaction that continues, numbers that differ, also from two threads,
 * and a map that lives as long as one of them. A million that are made and freed leave no memory behind. Status 30 is in
 * no_memory.c. Linked with -Wl,--wrap= of malloc, realloc and free.
 * Usage: another [COUNT]: so many instead of a million, and a tenth of them in each of the two threads, at most EACH */
#include "boostmap.h"
#include "check.h"
#include <pthread.h>
#include <stdatomic.h>
#include <string.h>

enum { UNTOUCHED = 77, STRIPES = 16, EACH = 100000 };

/* The blocks that are live, and their bytes. Each has its length before it. */
static atomic_long live, live_bytes;
enum { BEFORE = 16 };

void *__real_malloc(size_t bytes);
void *__real_realloc(void *block, size_t bytes);
void __real_free(void *block);

static void *counted(char *block, size_t bytes) {
    if (!block) return NULL;
    live++;
    live_bytes += (long)bytes;
    memcpy(block, &bytes, sizeof bytes);
    return block + BEFORE;
}

static void *uncounted(void *block) {
    size_t bytes;
    if (!block) return NULL;
    live--;
    memcpy(&bytes, (char *)block - BEFORE, sizeof bytes);
    live_bytes -= (long)bytes;
    return (char *)block - BEFORE;
}

void *__wrap_malloc(size_t bytes) { return counted(__real_malloc(bytes + BEFORE), bytes); }

void *__wrap_realloc(void *block, size_t bytes) {
    return counted(__real_realloc(uncounted(block), bytes + BEFORE), bytes);
}

void __wrap_free(void *block) { __real_free(uncounted(block)); }

/* One status, and the word after it, which was UNTOUCHED before. */
#define ANSWERS(call, status, after) \
    do {                             \
        w = UNTOUCHED;               \
        CHECK((call) == (status));   \
        CHECK(w == (after));         \
    } while (0)
#define IS(call, status) CHECK((call) == (status))

static int is_empty(const boostmap_caller *c) { return c->tag == 0 && c->held == 0; }

/* Makes a caller, and returns its number. */
static uint64_t makes(boostmap_caller *caller, boostmap_caller *next) {
    uint64_t number = 0;
    IS(boostmap_striped_another(caller, next, &number), BOOSTMAP_DONE);
    CHECK(number != 0 && !is_empty(next));
    return number;
}

static void statuses(void) {
    boostmap_caller first = BOOSTMAP_INIT, next = BOOSTMAP_INIT, third = BOOSTMAP_INIT, before;
    boostmap_counts counts;
    boostmap_host host = BOOSTMAP_INIT;
    uint64_t w;
    ANSWERS(boostmap_striped_another(&first, &next, &w), BOOSTMAP_EMPTY, UNTOUCHED);
    CHECK(is_empty(&first) && is_empty(&next));
    IS(boostmap_striped_open(&first, 2, STRIPES, 0, BOOSTMAP_KEEP_COMMITS, 7, &w), BOOSTMAP_DONE);
    makes(&first, &next);
    before = next;
    ANSWERS(boostmap_striped_another(&first, &next, &w), BOOSTMAP_FULL, UNTOUCHED);
    CHECK(!memcmp(&before, &next, sizeof next));
    IS(boostmap_striped_counts(&next, &counts), BOOSTMAP_DONE);
    CHECK(counts.commits == 0 && counts.aborts == 0 && counts.busy == 0);
    ANSWERS(boostmap_striped_option(&next, BOOSTMAP_OPTION_CALLERS, &w), BOOSTMAP_DONE, 2);
    ANSWERS(boostmap_striped_option(&next, BOOSTMAP_OPTION_SEED, &w), BOOSTMAP_DONE, 7);
    ANSWERS(boostmap_striped_join(&next, &third, &w), BOOSTMAP_NO_SUCH_CALLER, UNTOUCHED);
    IS(boostmap_striped_host(&next, &host), BOOSTMAP_NO_HOST);
    ANSWERS(boostmap_striped_join(&first, &third, &w), BOOSTMAP_DONE, 1);
    IS(boostmap_striped_free(&next), BOOSTMAP_DONE);
    CHECK(is_empty(&next));
    IS(boostmap_striped_free(&first), BOOSTMAP_DONE);
    IS(boostmap_striped_free(&third), BOOSTMAP_DONE);
    ANSWERS(boostmap_striped_another(&third, &next, &w), BOOSTMAP_EMPTY, UNTOUCHED);
}

/* A map that keeps its entries gives out 65,535 numbers to callers, and keeps the entries of each that is freed. */
static void keeping_entries(void) {
    boostmap_caller first = BOOSTMAP_INIT, next = BOOSTMAP_INIT, last = BOOSTMAP_INIT;
    boostmap_host host = BOOSTMAP_INIT;
    boostmap_entry *entries;
    uint64_t w, number = 2;
    IS(boostmap_striped_open(&first, 2, STRIPES, 0, BOOSTMAP_KEEP_ENTRIES, 0, &w), BOOSTMAP_DONE);
    IS(boostmap_striped_host(&first, &host), BOOSTMAP_DONE);
    CHECK(makes(&first, &last) == ++number);
    IS(boostmap_striped_begin(&first), BOOSTMAP_DONE);
    while (boostmap_striped_another(&first, &next, &w) == BOOSTMAP_DONE) {
        CHECK(w == ++number);
        if (number == 1000) IS(boostmap_striped_begin(&next), BOOSTMAP_DONE); /* aborted by the free */
        IS(boostmap_striped_free(&next), BOOSTMAP_DONE);
    }
    CHECK(number == 65535 && is_empty(&next));
    ANSWERS(boostmap_striped_another(&first, &next, &w), BOOSTMAP_LIMIT, UNTOUCHED);
    IS(boostmap_striped_abort(&first), BOOSTMAP_DONE);
    ANSWERS(boostmap_striped_join(&first, &next, &w), BOOSTMAP_DONE, 1);
    IS(boostmap_striped_free(&first), BOOSTMAP_DONE);
    IS(boostmap_striped_free(&next), BOOSTMAP_DONE);
    IS(boostmap_host_entries(&host, &entries, &w), BOOSTMAP_MISSING);
    CHECK(w == 3);
    IS(boostmap_striped_free(&last), BOOSTMAP_DONE);
    IS(boostmap_host_entries(&host, &entries, &w), BOOSTMAP_DONE);
    CHECK(w == 6 && entries[0].kind == BOOSTMAP_BEGAN && entries[0].caller == 2 && entries[5].caller == 2);
    for (int i = 1; i < 4; i++) CHECK(entries[i].caller == 1000 && (i > 1) == (entries[i].kind != BOOSTMAP_BEGAN));
    free(entries);
    IS(boostmap_host_free(&host), BOOSTMAP_DONE);
}

/* A caller makes one in a transaction, which continues, and so does that one. Each is named by its number, and the map is
 * one, until the last of them is freed. */
static void in_transactions(void) {
    boostmap_caller first = BOOSTMAP_INIT, second = BOOSTMAP_INIT, third = BOOSTMAP_INIT;
    long blocks = live;
    uint64_t w, two, three;
    ANSWERS(boostmap_striped_open(&first, 1, STRIPES, 0, BOOSTMAP_KEEP_COMMITS, 0, &w), BOOSTMAP_DONE, 1);
    IS(boostmap_striped_begin(&first), BOOSTMAP_DONE);
    ANSWERS(boostmap_striped_put(&first, 5, 50, &w), BOOSTMAP_ABSENT, UNTOUCHED);
    two = makes(&first, &second);
    IS(boostmap_striped_begin(&second), BOOSTMAP_DONE);
    ANSWERS(boostmap_striped_get(&second, 5 + STRIPES, &w), BOOSTMAP_BUSY, 1);
    IS(boostmap_striped_begin(&second), BOOSTMAP_DONE);
    ANSWERS(boostmap_striped_put(&second, 6, 60, &w), BOOSTMAP_ABSENT, UNTOUCHED);
    three = makes(&second, &third);
    CHECK(two != 1 && three != 1 && two != three);
    IS(boostmap_striped_begin(&third), BOOSTMAP_DONE);
    ANSWERS(boostmap_striped_get(&third, 6, &w), BOOSTMAP_BUSY, two);
    ANSWERS(boostmap_striped_put(&first, 6, 61, &w), BOOSTMAP_BUSY, two);
    IS(boostmap_striped_begin(&first), BOOSTMAP_DONE);
    ANSWERS(boostmap_striped_get(&first, 5, &w), BOOSTMAP_ABSENT, UNTOUCHED);
    ANSWERS(boostmap_striped_put(&first, 5, 51, &w), BOOSTMAP_ABSENT, UNTOUCHED);
    ANSWERS(boostmap_striped_commit(&first, &w), BOOSTMAP_DONE, 1);
    ANSWERS(boostmap_striped_commit(&second, &w), BOOSTMAP_DONE, 2);
    IS(boostmap_striped_begin(&third), BOOSTMAP_DONE);
    ANSWERS(boostmap_striped_put(&third, 7, 70, &w), BOOSTMAP_ABSENT, UNTOUCHED);
    IS(boostmap_striped_begin(&second), BOOSTMAP_DONE);
    ANSWERS(boostmap_striped_get(&second, 7, &w), BOOSTMAP_BUSY, three);
    IS(boostmap_striped_free(&first), BOOSTMAP_DONE);
    IS(boostmap_striped_free(&third), BOOSTMAP_DONE); /* aborts */
    makes(&second, &first);
    IS(boostmap_striped_free(&second), BOOSTMAP_DONE);
    IS(boostmap_striped_begin(&first), BOOSTMAP_DONE);
    ANSWERS(boostmap_striped_get(&first, 5, &w), BOOSTMAP_DONE, 51);
    ANSWERS(boostmap_striped_get(&first, 6, &w), BOOSTMAP_DONE, 60);
    ANSWERS(boostmap_striped_get(&first, 7, &w), BOOSTMAP_ABSENT, UNTOUCHED);
    ANSWERS(boostmap_striped_commit(&first, &w), BOOSTMAP_DONE, 3);
    CHECK(live > blocks);
    IS(boostmap_striped_free(&first), BOOSTMAP_DONE);
    CHECK(live == blocks);
}

/* Two threads make and free callers, each by the one before it, and keep the numbers. */
static struct maker {
    boostmap_caller caller;
    pthread_t thread;
    uint64_t numbers[EACH];
} makers[2];
static size_t each = EACH;

static void *make_each(void *arg) {
    struct maker *m = arg;
    boostmap_caller next = BOOSTMAP_INIT, none = BOOSTMAP_INIT;
    for (size_t i = 0; i < each; i++) {
        m->numbers[i] = makes(&m->caller, &next);
        CHECK(boostmap_striped_free(&m->caller) == BOOSTMAP_DONE);
        m->caller = next; /* moved */
        next = none;
    }
    return NULL;
}

static int by_number(const void *a, const void *b) {
    uint64_t x = *(const uint64_t *)a, y = *(const uint64_t *)b;
    return x < y ? -1 : x > y;
}

static void numbers(void) {
    static uint64_t all[2 * EACH + 2];
    IS(boostmap_striped_open(&makers[0].caller, 2, STRIPES, 0, BOOSTMAP_KEEP_NOTHING, 0, &all[2 * each]), BOOSTMAP_DONE);
    IS(boostmap_striped_join(&makers[0].caller, &makers[1].caller, &all[2 * each + 1]), BOOSTMAP_DONE);
    for (int i = 0; i < 2; i++) CHECK(!pthread_create(&makers[i].thread, NULL, make_each, &makers[i]));
    for (int i = 0; i < 2; i++) {
        CHECK(!pthread_join(makers[i].thread, NULL));
        memcpy(all + (size_t)i * each, makers[i].numbers, each * sizeof *all);
        IS(boostmap_striped_free(&makers[i].caller), BOOSTMAP_DONE);
    }
    qsort(all, 2 * each + 2, sizeof *all, by_number);
    for (size_t i = 0; i < 2 * each + 1; i++) CHECK(all[i] < all[i + 1]);
}

/* So many are made and freed, each after a transaction. */
static void made_and_freed(boostmap_caller *first, uint64_t count) {
    boostmap_caller next = BOOSTMAP_INIT;
    uint64_t w;
    for (uint64_t i = 0; i < count; i++) {
        makes(first, &next);
        IS(boostmap_striped_begin(&next), BOOSTMAP_DONE);
        CHECK(boostmap_striped_put(&next, i % 8, i, &w) <= BOOSTMAP_ABSENT);
        IS(boostmap_striped_commit(&next, &w), BOOSTMAP_DONE);
        IS(boostmap_striped_free(&next), BOOSTMAP_DONE);
    }
}

static void a_million(uint64_t count) {
    boostmap_caller first = BOOSTMAP_INIT;
    long blocks, bytes;
    uint64_t w;
    IS(boostmap_striped_open(&first, 1, STRIPES, 0, BOOSTMAP_KEEP_COMMITS, 0, &w), BOOSTMAP_DONE);
    made_and_freed(&first, 100);
    blocks = live, bytes = live_bytes;
    CHECK(blocks > 0 && bytes > 0);
    made_and_freed(&first, count);
    CHECK(live == blocks && live_bytes == bytes);
    IS(boostmap_striped_free(&first), BOOSTMAP_DONE);
}

int main(int argc, char **argv) {
    uint64_t count = argc > 1 ? strtoull(argv[1], NULL, 10) : 1000000;
    if (count / 10 < EACH) each = (size_t)(count / 10);
    statuses();
    keeping_entries();
    in_transactions();
    numbers();
    a_million(count);
    CHECK(live == 0 && live_bytes == 0);
    return 0;
}
