/* The door: null, and a handle in another call, return a status; every other call goes through. */
#include "boostmap_checked.h"
#include "check.h"
#include <pthread.h>

enum { THREADS = 3, CALLS = 200000 };

static boostmap_door map = BOOSTMAP_DOOR_INIT;
static atomic_ulong in_call, other;

static void *count_often(void *arg) {
    uint64_t w;
    for (int i = 0; i < CALLS; i++) {
        boostmap_status status = boostmap_checked_count(&map, &w);
        if (status == BOOSTMAP_IN_CALL) in_call++;
        else if (status != BOOSTMAP_DONE || w != 1) other++;
    }
    return arg;
}

/* Three threads at the door of one caller: each call is done, or returns BOOSTMAP_IN_CALL. */
static boostmap_caller_door caller = BOOSTMAP_DOOR_INIT;

static void *get_often(void *arg) {
    uint64_t w;
    for (int i = 0; i < CALLS; i++) {
        boostmap_status status = boostmap_checked_striped_get(&caller, 1, &w);
        if (status == BOOSTMAP_IN_CALL) in_call++;
        else if (status != BOOSTMAP_DONE || w != 10) other++;
    }
    return arg;
}

/* Runs of one operation. */
static void runs_at_a_caller(void) {
    const boostmap_entry take = {.operation = BOOSTMAP_TAKE, .key = 1};
    boostmap_reply reply = {0, 0};
    uint64_t done = 7, w;
    CHECK(boostmap_checked_striped_run(0, &take, 1, 0, &reply, 1, &done, &w) == BOOSTMAP_NULL);
    CHECK(boostmap_checked_striped_run(&caller, 0, 1, 0, &reply, 1, &done, &w) == BOOSTMAP_NULL);
    CHECK(boostmap_checked_striped_run(&caller, &take, 1, 0, 0, 1, &done, &w) == BOOSTMAP_NULL);
    CHECK(boostmap_checked_striped_run(&caller, &take, 1, 0, &reply, 1, 0, &w) == BOOSTMAP_NULL);
    atomic_store(&caller.is_in_call, 1);
    CHECK(boostmap_checked_striped_run(&caller, &take, 1, 0, &reply, 1, &done, &w) == BOOSTMAP_IN_CALL);
    atomic_store(&caller.is_in_call, 0);
    CHECK(done == 7 && reply.has == 0);
    CHECK(boostmap_checked_striped_run(&caller, &take, 1, 0, &reply, 1, &done, 0) == BOOSTMAP_DONE);
    CHECK(done == 1 && reply.has == 1 && reply.value == 10);
}

static void at_a_caller(void) {
    uint64_t w;
    pthread_t threads[THREADS];
    boostmap_caller_door next = BOOSTMAP_DOOR_INIT;
    CHECK(boostmap_checked_striped_get(0, 1, &w) == BOOSTMAP_NULL);
    CHECK(boostmap_checked_striped_begin(&caller) == BOOSTMAP_EMPTY);
    CHECK(boostmap_checked_striped_open(&caller, 2, 16, 0, BOOSTMAP_KEEP_COMMITS, 0, &w) == BOOSTMAP_DONE && w == 2);
    CHECK(boostmap_checked_striped_join(&caller, 0, &w) == BOOSTMAP_NULL);
    CHECK(boostmap_checked_striped_join(&caller, &caller, &w) == BOOSTMAP_IN_CALL);
    CHECK(boostmap_checked_striped_join(&caller, &next, &w) == BOOSTMAP_DONE && w == 1);
    boostmap_caller_door other = BOOSTMAP_DOOR_INIT;
    CHECK(boostmap_checked_striped_another(0, &other, &w) == BOOSTMAP_NULL);
    CHECK(boostmap_checked_striped_another(&caller, 0, &w) == BOOSTMAP_NULL);
    CHECK(boostmap_checked_striped_another(&caller, &caller, &w) == BOOSTMAP_IN_CALL);
    atomic_store(&other.is_in_call, 1);
    CHECK(boostmap_checked_striped_another(&caller, &other, &w) == BOOSTMAP_IN_CALL);
    atomic_store(&other.is_in_call, 0);
    CHECK(boostmap_checked_striped_another(&caller, &next, 0) == BOOSTMAP_FULL);
    CHECK(boostmap_checked_striped_another(&caller, &other, 0) == BOOSTMAP_DONE);
    CHECK(boostmap_checked_striped_free(&other) == BOOSTMAP_DONE);
    CHECK(boostmap_checked_striped_begin(&caller) == BOOSTMAP_DONE);
    CHECK(boostmap_checked_striped_put(&caller, 1, 10, 0) == BOOSTMAP_ABSENT);
    CHECK(boostmap_checked_striped_begin(&next) == BOOSTMAP_DONE);
    CHECK(boostmap_checked_striped_take(&next, 1, &w) == BOOSTMAP_BUSY && w == 2);
    atomic_store(&caller.is_in_call, 1);
    CHECK(boostmap_checked_striped_get(&caller, 1, &w) == BOOSTMAP_IN_CALL);
    atomic_store(&caller.is_in_call, 0);
    for (int i = 0; i < THREADS; i++) CHECK(!pthread_create(&threads[i], 0, get_often, 0));
    for (int i = 0; i < THREADS; i++) CHECK(!pthread_join(threads[i], 0));
    CHECK(boostmap_checked_striped_read(&caller, 0, 0, &w) == BOOSTMAP_NULL);
    boostmap_pair pair;
    CHECK(boostmap_checked_striped_read(&caller, &pair, 1, 0) == BOOSTMAP_DONE && pair.value == 10);
    pair.value = 0;
    CHECK(boostmap_checked_striped_read_stripe(0, 1, &pair, 1, &w) == BOOSTMAP_NULL);
    CHECK(boostmap_checked_striped_read_stripe(&caller, 1, 0, 1, &w) == BOOSTMAP_NULL);
    CHECK(boostmap_checked_striped_read_stripe(&caller, 1, &pair, 1, 0) == BOOSTMAP_DONE && pair.value == 10);
    atomic_store(&caller.is_in_call, 1);
    CHECK(boostmap_checked_striped_read_stripe(&caller, 1, &pair, 1, &w) == BOOSTMAP_IN_CALL);
    atomic_store(&caller.is_in_call, 0);
    CHECK(boostmap_checked_striped_commit(&caller, &w) == BOOSTMAP_DONE && w == 1);
    runs_at_a_caller();
    CHECK(boostmap_checked_striped_free(&caller) == BOOSTMAP_DONE);
    CHECK(boostmap_checked_striped_free(&next) == BOOSTMAP_DONE);
}

static void at_a_judge(void) {
    uint64_t w;
    boostmap_judge_door judge = BOOSTMAP_DOOR_INIT;
    boostmap_entry entries[] = {{.kind = BOOSTMAP_BEGAN, .number = 1}, {.kind = BOOSTMAP_COMMITTED, .number = 1}};
    boostmap_verdict verdict;
    CHECK(boostmap_checked_judge_new(0, 8, 0) == BOOSTMAP_NULL);
    CHECK(boostmap_checked_judge_free(&judge) == BOOSTMAP_EMPTY);
    CHECK(boostmap_checked_judge_new(&judge, 8, 0) == BOOSTMAP_DONE);
    CHECK(boostmap_checked_judge_feed(&judge, 0) == BOOSTMAP_NULL);
    atomic_store(&judge.is_in_call, 1);
    CHECK(boostmap_checked_judge_verdict(&judge, &verdict) == BOOSTMAP_IN_CALL);
    atomic_store(&judge.is_in_call, 0);
    CHECK(boostmap_checked_judge_feed(&judge, &entries[0]) == BOOSTMAP_DONE);
    CHECK(boostmap_checked_judge_feed_all(&judge, 0, 1, &w) == BOOSTMAP_NULL);
    CHECK(boostmap_checked_judge_feed_all(&judge, entries + 1, 1, 0) == BOOSTMAP_DONE);
    CHECK(boostmap_checked_judge_verdict(&judge, 0) == BOOSTMAP_NULL);
    CHECK(boostmap_checked_judge_verdict(&judge, &verdict) == BOOSTMAP_DONE && verdict.commits == 1);
    CHECK(boostmap_checked_judge_free(&judge) == BOOSTMAP_DONE);
    boostmap_link link;
    boostmap_finding found;
    CHECK(boostmap_checked_judge_any_order(0, 2, 0, &link, 1, &found) == BOOSTMAP_NULL);
    CHECK(boostmap_checked_judge_any_order(entries, 2, 0, 0, 1, &found) == BOOSTMAP_NULL);
    CHECK(boostmap_checked_judge_any_order(entries, 2, 0, &link, 1, 0) == BOOSTMAP_NULL);
    CHECK(boostmap_checked_judge_any_order(entries, 2, 0, &link, 1, &found) == BOOSTMAP_DONE);
    CHECK(found.kind == BOOSTMAP_SERIALIZABLE && found.count == 1 && link.transaction == 1);
}

int main(void) {
    uint64_t w;
    boostmap_pair pair;
    pthread_t threads[THREADS];
    CHECK(boostmap_checked_get(0, 0, 0, &w) == BOOSTMAP_NULL);
    CHECK(boostmap_checked_free(&map) == BOOSTMAP_EMPTY);
    CHECK(boostmap_checked_new(&map, 2, 16, 16) == BOOSTMAP_DONE);
    CHECK(boostmap_checked_begin(&map, 0, 0) == BOOSTMAP_DONE);
    CHECK(boostmap_checked_put(&map, 0, 1, 2, 0) == BOOSTMAP_ABSENT);
    CHECK(boostmap_checked_commit(&map, 0, &w) == BOOSTMAP_DONE && w == 1);
    CHECK(boostmap_checked_read(&map, 0, 1, &w) == BOOSTMAP_NULL);
    CHECK(boostmap_checked_read(&map, &pair, 1, 0) == BOOSTMAP_DONE && pair.key == 1 && pair.value == 2);
    atomic_store(&map.is_in_call, 1);
    CHECK(boostmap_checked_count(&map, &w) == BOOSTMAP_IN_CALL);
    atomic_store(&map.is_in_call, 0);
    for (int i = 0; i < THREADS; i++) CHECK(!pthread_create(&threads[i], 0, count_often, 0));
    for (int i = 0; i < THREADS; i++) CHECK(!pthread_join(threads[i], 0));
    CHECK(boostmap_checked_free(&map) == BOOSTMAP_DONE);
    at_a_caller();
    at_a_judge();
    CHECK(other == 0);
    return 0;
}
