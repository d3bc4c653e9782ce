/* Four threads move money between two accounts, and the program has its own run judged. */
#include <boostmap.h>
#include <inttypes.h>
#include <pthread.h>
#include <stdio.h>

enum { THREADS = 4, ROUNDS = 100, STRIPES = 64 };

/* Moves 1 from account 1 to account 2. */
static boostmap_status move_one(boostmap_caller *accounts, void *nothing) {
    uint64_t one = ROUNDS * THREADS, two = 0, had;
    boostmap_status status = boostmap_striped_get(accounts, 1, &one);
    (void)nothing;
    if (status <= BOOSTMAP_ABSENT) status = boostmap_striped_put(accounts, 1, one - 1, &had);
    if (status <= BOOSTMAP_ABSENT) status = boostmap_striped_get(accounts, 2, &two);
    if (status <= BOOSTMAP_ABSENT) status = boostmap_striped_put(accounts, 2, two + 1, &had);
    return status;
}

static void *run(void *caller) {
    uint64_t place;
    for (int i = 0; i < ROUNDS; i++)
        if (boostmap_caller_transact(caller, UINT64_MAX, move_one, NULL, &place) > BOOSTMAP_ABSENT)
            return caller;
    boostmap_striped_free(caller); /* the map's host gets its entries */
    return NULL;
}

int main(void) {
    boostmap_caller callers[THREADS] = {BOOSTMAP_INIT};
    boostmap_host host = BOOSTMAP_INIT;
    boostmap_judge judge = BOOSTMAP_INIT;
    boostmap_verdict verdict = {0};
    boostmap_entry *entries;
    pthread_t threads[THREADS];
    uint64_t word;
    if (boostmap_striped_open(&callers[0], THREADS, STRIPES, 0, BOOSTMAP_KEEP_ENTRIES, 0, &word)) return 1;
    if (boostmap_striped_host(&callers[0], &host)) return 1;
    for (int i = 1; i < THREADS; i++)
        if (boostmap_striped_join(&callers[0], &callers[i], &word)) return 1;
    for (int i = 0; i < THREADS; i++)
        if (pthread_create(&threads[i], NULL, run, &callers[i])) return 1;
    for (int i = 0; i < THREADS; i++) {
        void *stopped = NULL;
        if (pthread_join(threads[i], &stopped) || stopped) return 1;
    }
    if (boostmap_host_entries(&host, &entries, &word)) return 1;
    if (boostmap_judge_new(&judge, STRIPES, BOOSTMAP_HOLDER_BEGUN)) return 1;
    if (boostmap_judge_feed_all(&judge, entries, word, &word)) return 1;
    if (boostmap_judge_verdict(&judge, &verdict)) return 1;
    printf("%s, %" PRIu64 " commits\n", verdict.is_legal ? "legal" : "illegal", verdict.commits);
    free(entries);
    boostmap_judge_free(&judge);
    boostmap_host_free(&host);
    return 0;
}
