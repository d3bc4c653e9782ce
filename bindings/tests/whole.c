/* The functions of boostmap.h that run whole transactions: how jobs end, which busy calls are tried again,
 * what is counted, and the functions on all pairs. */
#include "boostmap.h"
#include "check.h"

static boostmap_caller one = BOOSTMAP_INIT, other = BOOSTMAP_INIT, apart = BOOSTMAP_INIT,
                       held = BOOSTMAP_INIT;
static int runs;

/* Jobs: each puts 60 at key 6 first. */
typedef struct {
    boostmap_caller *
        gets_from; /* and then gets key 5 here, in a transaction that this job begins, if it is another */
    boostmap_status ends_with; /* a status, or 100: the status of the get */
} plan;

static boostmap_status runs_plan(boostmap_caller *caller, void *with) {
    const plan *p = with;
    uint64_t word;
    boostmap_status status = boostmap_striped_put(caller, 6, 60, &word);
    runs++;
    if (status > BOOSTMAP_ABSENT || !p->gets_from)
        return status > BOOSTMAP_ABSENT ? status : p->ends_with;
    if (p->gets_from != caller) CHECK(boostmap_striped_begin(p->gets_from) == BOOSTMAP_DONE);
    status = boostmap_striped_get(p->gets_from, 5, &word);
    return p->ends_with == 100 ? status : p->ends_with;
}

/* Runs a plan with the caller `other`, while `one` and `held` hold key 5 in their maps. */
static void ends(boostmap_caller *gets_from, boostmap_status with, uint64_t tries,
                 boostmap_status status, int ran) {
    plan p = {gets_from, with};
    uint64_t word = 7, had;
    runs = 0;
    CHECK(boostmap_caller_transact(&other, tries, runs_plan, &p, &word) == status && runs == ran);
    CHECK(boostmap_caller_get(&other, 6, &had) ==
          (status <= BOOSTMAP_ABSENT ? BOOSTMAP_DONE : BOOSTMAP_ABSENT));
    if (status <= BOOSTMAP_ABSENT)
        CHECK(boostmap_caller_take(&other, 6, &had) == BOOSTMAP_DONE && had == 60);
}

static void jobs(void) {
    uint64_t word;
    boostmap_counts counts;
    CHECK(boostmap_striped_begin(&one) == BOOSTMAP_DONE &&
          boostmap_striped_begin(&held) == BOOSTMAP_DONE);
    CHECK(boostmap_striped_put(&one, 5, 50, &word) == BOOSTMAP_ABSENT);
    CHECK(boostmap_striped_put(&held, 5, 50, &word) == BOOSTMAP_ABSENT);
    ends(NULL, BOOSTMAP_DONE, 0, BOOSTMAP_DONE, 1);
    ends(NULL, BOOSTMAP_ABSENT, 0, BOOSTMAP_ABSENT, 1);
    ends(NULL, 77, UINT64_MAX, 77, 1);
    ends(NULL, BOOSTMAP_BUSY, UINT64_MAX, BOOSTMAP_BUSY, 1);
    ends(&other, 100, 0, BOOSTMAP_BUSY, 1);
    ends(&other, 100, 3, BOOSTMAP_BUSY, 4);
    ends(&apart, 100, UINT64_MAX, BOOSTMAP_BUSY, 1);
    ends(&other, BOOSTMAP_DONE, UINT64_MAX, BOOSTMAP_NOT_OPEN, 1);
    ends(&other, 77, UINT64_MAX, 77, 1);
    CHECK(boostmap_striped_counts(&other, &counts) == BOOSTMAP_DONE);
    CHECK(counts.commits == 2 + 9 + 2 && counts.aborts == 3 && counts.busy == 1 + 4 + 1 + 1);
    CHECK(boostmap_caller_get(&one, 1, &word) == BOOSTMAP_ALREADY_OPEN);
    CHECK(boostmap_striped_abort(&one) == BOOSTMAP_DONE &&
          boostmap_striped_abort(&held) == BOOSTMAP_DONE);
}

static boostmap_status fails(void *with, boostmap_status found, uint64_t *value) {
    (void)with;
    CHECK(found == BOOSTMAP_ABSENT);
    *value = 1;
    return 77;
}

static void on_all_pairs(void) {
    const boostmap_pair all[] = {{9, 90}, {3, 30}, {9, 91}};
    boostmap_pair *pairs;
    uint64_t word;
    CHECK(boostmap_caller_put_all(&one, all, 3) == BOOSTMAP_DONE);
    CHECK(boostmap_caller_count(&other, &word) == BOOSTMAP_DONE && word == 2);
    CHECK(boostmap_caller_items(&other, &pairs, &word) == BOOSTMAP_DONE && word == 2);
    CHECK(pairs[0].key == 3 && pairs[0].value == 30 && pairs[1].key == 9 && pairs[1].value == 91);
    free(pairs);
    CHECK(boostmap_caller_update(&one, 4, fails, NULL, &word) == 77);
    CHECK(boostmap_caller_put(&one, 3, 1, &word) == BOOSTMAP_DONE && word == 30);
    CHECK(boostmap_caller_add(&one, 3, INT64_MIN, &word) == BOOSTMAP_OVERFLOW);
    CHECK(boostmap_caller_add(&one, 3, INT64_MAX, &word) == BOOSTMAP_DONE && word == 1);
    CHECK(boostmap_caller_add(&one, 3, INT64_MAX, &word) == BOOSTMAP_DONE && word == (uint64_t)1
                                                                                         << 63);
    CHECK(boostmap_caller_add(&one, 3, 1, &word) == BOOSTMAP_OVERFLOW);
    CHECK(boostmap_caller_add(&one, 3, INT64_MIN, &word) == BOOSTMAP_DONE && word == UINT64_MAX);
    CHECK(boostmap_caller_add(&one, 3, -1, &word) == BOOSTMAP_DONE && word == INT64_MAX);
    CHECK(boostmap_caller_add(&one, 5, 0, &word) == BOOSTMAP_ABSENT && word == 0);
    boostmap_pair page[2];
    CHECK(boostmap_caller_read_stripe(&other, 9, page, 0, &word) == BOOSTMAP_SHORT && word == 1);
    CHECK(boostmap_caller_read_stripe(&other, 9 + 16, page, 2, &word) == BOOSTMAP_DONE && word == 1 && page[0].value == 91);
    CHECK(boostmap_caller_clear(&other, &word) == BOOSTMAP_DONE && word == 3);
    CHECK(boostmap_caller_items(&one, &pairs, &word) == BOOSTMAP_DONE && word == 0);
    free(pairs);
}

int main(void) {
    uint64_t word;
    CHECK(boostmap_striped_open(&one, 2, 16, 0, BOOSTMAP_KEEP_NOTHING, 0, &word) == BOOSTMAP_DONE &&
          word == 2);
    CHECK(boostmap_striped_join(&one, &other, &word) == BOOSTMAP_DONE);
    CHECK(boostmap_striped_open(&held, 2, 16, 0, BOOSTMAP_KEEP_NOTHING, 0, &word) == BOOSTMAP_DONE);
    CHECK(boostmap_striped_join(&held, &apart, &word) == BOOSTMAP_DONE);
    jobs();
    on_all_pairs();
    CHECK(boostmap_striped_free(&one) == BOOSTMAP_DONE &&
          boostmap_caller_get(&one, 1, &word) == BOOSTMAP_EMPTY);
    CHECK(boostmap_striped_free(&other) == BOOSTMAP_DONE &&
          boostmap_striped_free(&apart) == BOOSTMAP_DONE);
    CHECK(boostmap_striped_free(&held) == BOOSTMAP_DONE);
    return 0;
}
