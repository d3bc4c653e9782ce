/* Moves 30 from account 1 to account 2, and fails to move 100 back. */
#include <boostmap.h>
#include <inttypes.h>
#include <stdio.h>

typedef struct {
    uint64_t from, to;
    int64_t sum;
} order;

/* Moves a sum. If the account has less, the first add is refused, and the transaction aborts. */
static boostmap_status moves(boostmap_caller *accounts, void *with) {
    const order *wanted = with;
    uint64_t had;
    boostmap_status status = boostmap_striped_add(accounts, wanted->from, -wanted->sum, &had);
    if (status > BOOSTMAP_ABSENT) return status;
    return boostmap_striped_add(accounts, wanted->to, wanted->sum, &had);
}

/* Moves a sum in one transaction. Returns 1 if it was moved, else 0, and then nothing has changed. */
static int transfer(boostmap_caller *accounts, uint64_t from, uint64_t to, int64_t sum) {
    order wanted = {from, to, sum};
    uint64_t place;
    return boostmap_caller_transact(accounts, UINT64_MAX, moves, &wanted, &place) <=
           BOOSTMAP_ABSENT;
}

int main(void) {
    boostmap_caller accounts = BOOSTMAP_INIT;
    uint64_t word, one = 0, two = 0;
    if (boostmap_striped_open(&accounts, 1, 64, 0, BOOSTMAP_KEEP_NOTHING, 0, &word) !=
        BOOSTMAP_DONE)
        return 1;
    boostmap_caller_put(&accounts, 1, 100, &word);
    boostmap_caller_put(&accounts, 2, 50, &word);
    printf("moved 30: %s\n", transfer(&accounts, 1, 2, 30) ? "yes" : "no");
    printf("moved 100: %s\n", transfer(&accounts, 2, 1, 100) ? "yes" : "no");
    boostmap_caller_get(&accounts, 1, &one);
    boostmap_caller_get(&accounts, 2, &two);
    printf("1 has %" PRIu64 ", 2 has %" PRIu64 "\n", one, two);
    boostmap_striped_free(&accounts);
    return 0;
}
