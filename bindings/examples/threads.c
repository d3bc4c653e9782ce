/* Four threads move money between two accounts of one striped map. Each has its own caller. */
#include <boostmap.h>
#include <inttypes.h>
#include <pthread.h>
#include <stdio.h>

enum { THREADS = 4, ROUNDS = 1000 };

/* Moves 1 from account 1 to account 2. */
static boostmap_status move_one(boostmap_caller *accounts, void *nothing) {
    uint64_t had;
    boostmap_status status = boostmap_striped_add(accounts, 1, -1, &had);
    (void)nothing;
    return status == BOOSTMAP_DONE ? boostmap_striped_add(accounts, 2, 1, &had) : status;
}

/* Moves ROUNDS times; a move that finds a stripe held waits and tries again. Returns null if all were
 * made. */
static void *run(void *caller) {
    uint64_t place;
    for (int i = 0; i < ROUNDS; i++)
        if (boostmap_caller_transact(caller, UINT64_MAX, move_one, NULL, &place) != BOOSTMAP_DONE)
            return caller;
    return NULL;
}

int main(void) {
    boostmap_caller callers[THREADS] = {BOOSTMAP_INIT};
    const boostmap_pair accounts[] = {{1, 5000}, {2, 0}};
    pthread_t threads[THREADS];
    uint64_t word, one = 0, two = 0;
    if (boostmap_striped_open(&callers[0], THREADS, 64, 0, BOOSTMAP_KEEP_NOTHING, 0, &word) !=
        BOOSTMAP_DONE)
        return 1;
    for (int i = 1; i < THREADS; i++)
        if (boostmap_striped_join(&callers[0], &callers[i], &word) != BOOSTMAP_DONE) return 1;
    if (boostmap_caller_put_all(&callers[0], accounts, 2) != BOOSTMAP_DONE) return 1;
    for (int i = 0; i < THREADS; i++)
        if (pthread_create(&threads[i], NULL, run, &callers[i])) return 1;
    for (int i = 0; i < THREADS; i++) {
        void *stopped = NULL;
        if (pthread_join(threads[i], &stopped) || stopped) return 1;
    }
    boostmap_caller_get(&callers[0], 1, &one);
    boostmap_caller_get(&callers[0], 2, &two);
    printf("1 has %" PRIu64 ", 2 has %" PRIu64 "\n", one, two);
    for (int i = 0; i < THREADS; i++) boostmap_striped_free(&callers[i]);
    return 0;
}
