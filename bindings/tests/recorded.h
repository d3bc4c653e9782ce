/* For the tests: callers of a striped map that note what the program was told, the entries of their
 * committed transactions, without the help of the archive. A call does what the call boostmap_striped_NAME
 * does, and returns what it returns; it may also return 30.
 *
 *     boostmap_recorded callers[2] = {0};           all zeros
 *     boostmap_recorded_open(&callers[0], 2, 64, 0, 0, &word);
 *     boostmap_recorded_join(&callers[0], &callers[1], &word);
 *     boostmap_judge_new(&judge, 1, BOOSTMAP_BY_COMMITS);
 *     boostmap_recorded_feed(&judge, callers, 2); */
#ifndef BOOSTMAP_RECORDED_H
#define BOOSTMAP_RECORDED_H

#include "boostmap.h"
#include <string.h>

#ifdef __cplusplus
extern "C" {
#endif

/* A caller with its entries: those of its committed transactions, in their order, up to `kept`, and
 * then those of the transaction that has begun last, up to `count`. If it is not recorded, it keeps none. */
typedef struct boostmap_recorded {
    boostmap_caller caller;
    boostmap_entry *entries;
    size_t count, kept, room;
    int is_recorded;
} boostmap_recorded;

/* Makes room for this number of entries and for one that ends the transaction.    0; 30 */
static inline boostmap_status boostmap_record_room(boostmap_recorded *r, size_t more) {
    size_t room = 2 * r->room + more + 1;
    boostmap_entry *entries;
    if (!r->is_recorded || r->room - r->count > more) return BOOSTMAP_DONE;
    entries = (boostmap_entry *)realloc(r->entries, room * sizeof *entries);
    if (!entries) return BOOSTMAP_NO_MEMORY;
    r->entries = entries;
    r->room = room;
    return BOOSTMAP_DONE;
}

/* Keeps an entry, for which there is room, and returns it. */
static inline boostmap_entry *boostmap_record_note(boostmap_recorded *r, uint32_t kind,
                                                   uint64_t number) {
    boostmap_entry *entry = &r->entries[r->count++];
    memset(entry, 0, sizeof *entry);
    entry->kind = kind;
    entry->number = number;
    return entry;
}

/* Keeps the entries of a transaction that has committed. */
static inline void boostmap_record_commit(boostmap_recorded *r, uint64_t place) {
    if (!r->is_recorded) return;
    boostmap_record_note(r, BOOSTMAP_COMMITTED, place);
    r->entries[r->kept].number = place;
    r->kept = r->count;
}

/* Whether the operation that was asked for changed the map, by its reply. */
static inline int boostmap_record_changes(const boostmap_entry *asked, const boostmap_entry *did) {
    if (asked->operation == BOOSTMAP_PUT_IF)
        return did->has == asked->has && (!did->has || did->value == asked->expected);
    return asked->operation == BOOSTMAP_PUT || (asked->operation == BOOSTMAP_TAKE && did->has);
}

/* The number of changes of the open transaction that stand above a level. */
static inline size_t boostmap_record_above(const boostmap_recorded *r, uint64_t level) {
    size_t standing = 0, below = 0, i;
    uint64_t levels = 0;
    for (i = r->kept; i < r->count; i++) {
        const boostmap_entry *entry = &r->entries[i];
        if (entry->kind == BOOSTMAP_DID)
            standing += (size_t)boostmap_record_changes(entry - 1, entry);
        if (entry->kind == BOOSTMAP_UNDONE) standing--;
        if (entry->kind == BOOSTMAP_RETURNED) levels = entry->number;
        if (entry->kind == BOOSTMAP_SAVED && ++levels == level) below = standing;
    }
    return standing - below;
}

static inline boostmap_status boostmap_recorded_open(boostmap_recorded *first, uint64_t callers,
                                                     uint64_t stripes, uint64_t keys, uint64_t seed,
                                                     uint64_t *word) {
    first->is_recorded = 1;
    return boostmap_striped_open(&first->caller, callers, stripes, keys, BOOSTMAP_KEEP_COMMITS,
                                 seed, word);
}

static inline boostmap_status boostmap_recorded_join(boostmap_recorded *first,
                                                     boostmap_recorded *next, uint64_t *word) {
    next->is_recorded = first->is_recorded;
    return boostmap_striped_join(&first->caller, &next->caller, word);
}

static inline boostmap_status boostmap_recorded_another(boostmap_recorded *r,
                                                        boostmap_recorded *next, uint64_t *word) {
    next->is_recorded = r->is_recorded;
    return boostmap_striped_another(&r->caller, &next->caller, word);
}

/* Frees the caller and its entries. To free only the caller, call boostmap_striped_free on r->caller. */
static inline boostmap_status boostmap_recorded_free(boostmap_recorded *r) {
    free(r->entries);
    r->entries = NULL;
    r->count = r->kept = r->room = 0;
    return boostmap_striped_free(&r->caller);
}

static inline boostmap_status boostmap_recorded_begin(boostmap_recorded *r) {
    boostmap_status status = boostmap_record_room(r, 1);
    if (status == BOOSTMAP_DONE) status = boostmap_striped_begin(&r->caller);
    if (status != BOOSTMAP_DONE || !r->is_recorded) return status;
    r->count = r->kept; /* forgets a transaction that did not commit */
    boostmap_record_note(r, BOOSTMAP_BEGAN, 0);
    return status;
}

static inline boostmap_status boostmap_recorded_commit(boostmap_recorded *r, uint64_t *word) {
    boostmap_status status = boostmap_striped_commit(&r->caller, word);
    if (status == BOOSTMAP_DONE) boostmap_record_commit(r, *word);
    return status;
}

static inline boostmap_status boostmap_recorded_abort(boostmap_recorded *r) {
    return boostmap_striped_abort(&r->caller);
}

/* Keeps an operation that is done. */
static inline boostmap_status boostmap_record_did(boostmap_recorded *r, boostmap_status status,
                                                  uint32_t operation, boostmap_pair pair,
                                                  const uint64_t *expected, const uint64_t *had) {
    boostmap_entry *entry;
    if (!r->is_recorded || status > BOOSTMAP_ABSENT) return status;
    entry = boostmap_record_note(r, BOOSTMAP_ASKED, 0);
    entry->operation = operation;
    entry->key = pair.key;
    entry->value = pair.value;
    entry->has = expected != NULL;
    if (expected) entry->expected = *expected;
    entry = boostmap_record_note(r, BOOSTMAP_DID, 0);
    entry->has = status == BOOSTMAP_DONE;
    if (entry->has) entry->value = *had;
    return status;
}

/* Defines an operation by its parameters after the caller, its call, and its entry. */
#define BOOSTMAP_RECORDED(NAME, PARAMETERS, CALL, OPERATION, KEY, VALUE, EXPECTED)                 \
    static inline boostmap_status boostmap_recorded_##NAME PARAMETERS {                            \
        boostmap_pair pair = {KEY, VALUE};                                                         \
        boostmap_status status = boostmap_record_room(r, 2);                                       \
        if (status != BOOSTMAP_DONE) return status;                                                \
        status = CALL;                                                                             \
        return boostmap_record_did(r, status, OPERATION, pair, EXPECTED, word);                    \
    }

BOOSTMAP_RECORDED(get, (boostmap_recorded *r, uint64_t key, uint64_t *word),
                  boostmap_striped_get(&r->caller, key, word), BOOSTMAP_GET, key, 0, NULL)
BOOSTMAP_RECORDED(take, (boostmap_recorded *r, uint64_t key, uint64_t *word),
                  boostmap_striped_take(&r->caller, key, word), BOOSTMAP_TAKE, key, 0, NULL)
BOOSTMAP_RECORDED(put, (boostmap_recorded *r, uint64_t key, uint64_t value, uint64_t *word),
                  boostmap_striped_put(&r->caller, key, value, word), BOOSTMAP_PUT, key, value,
                  NULL)
BOOSTMAP_RECORDED(put_if_absent,
                  (boostmap_recorded *r, uint64_t key, uint64_t value, uint64_t *word),
                  boostmap_striped_put_if_absent(&r->caller, key, value, word), BOOSTMAP_PUT_IF,
                  key, value, NULL)
BOOSTMAP_RECORDED(put_if_equal,
                  (boostmap_recorded *r, uint64_t key, uint64_t expected, uint64_t value,
                   uint64_t *word),
                  boostmap_striped_put_if_equal(&r->caller, key, expected, value, word),
                  BOOSTMAP_PUT_IF, key, value, &expected)
#undef BOOSTMAP_RECORDED

static inline boostmap_status boostmap_recorded_save(boostmap_recorded *r, uint64_t *word) {
    boostmap_status status = boostmap_record_room(r, 1);
    if (status == BOOSTMAP_DONE) status = boostmap_striped_save(&r->caller, word);
    if (status == BOOSTMAP_DONE && r->is_recorded) boostmap_record_note(r, BOOSTMAP_SAVED, 0);
    return status;
}

static inline boostmap_status boostmap_recorded_back(boostmap_recorded *r, uint64_t level) {
    size_t undone = r->is_recorded ? boostmap_record_above(r, level) : 0;
    boostmap_status status = boostmap_record_room(r, undone + 2);
    if (status == BOOSTMAP_DONE) status = boostmap_striped_back(&r->caller, level);
    if (status != BOOSTMAP_DONE || !r->is_recorded) return status;
    boostmap_record_note(r, BOOSTMAP_LEAVE, level)->has = 1;
    while (undone--) boostmap_record_note(r, BOOSTMAP_UNDONE, 0);
    boostmap_record_note(r, BOOSTMAP_RETURNED, level);
    return status;
}

/* No entry says a number of keys. */
static inline boostmap_status boostmap_recorded_count(boostmap_recorded *r, uint64_t *word) {
    return boostmap_striped_count(&r->caller, word);
}

/* Keeps a get of each pair. */
static inline boostmap_status boostmap_recorded_read(boostmap_recorded *r, boostmap_pair *pairs,
                                                     size_t places, uint64_t *word) {
    boostmap_status status = boostmap_record_room(r, 2 * places);
    uint64_t i;
    if (status == BOOSTMAP_DONE) status = boostmap_striped_read(&r->caller, pairs, places, word);
    for (i = 0; status == BOOSTMAP_DONE && i < *word; i++) {
        boostmap_pair pair = {pairs[i].key, 0};
        boostmap_record_did(r, status, BOOSTMAP_GET, pair, NULL, &pairs[i].value);
    }
    return status;
}

/* What a transaction does, as a boostmap_job. */
typedef boostmap_status boostmap_recorded_job(boostmap_recorded *r, void *with);

/* Runs a job in a transaction, as boostmap_caller_transact does. */
static inline boostmap_status boostmap_recorded_transact(boostmap_recorded *r, uint64_t tries,
                                                         boostmap_recorded_job *job, void *with,
                                                         uint64_t *word) {
    uint64_t waits = 0;
    for (;;) {
        boostmap_status status = boostmap_recorded_begin(r);
        int is_over;
        if (status != BOOSTMAP_DONE) return status;
        status = job(r, with);
        is_over = boostmap_caller_ends(&r->caller, &status, word);
        if (status <= BOOSTMAP_ABSENT) boostmap_record_commit(r, *word);
        if (is_over || waits == tries) return status;
        boostmap_wait(&waits);
    }
}

/* The caller whose next transaction, from the entry `at[i]` on, committed first, or `count`. */
static inline size_t boostmap_record_first(const boostmap_recorded *callers, size_t count,
                                           const size_t *at) {
    size_t first = count, i;
    for (i = 0; i < count; i++)
        if (at[i] < callers[i].kept &&
            (first == count ||
             callers[i].entries[at[i]].number < callers[first].entries[at[first]].number))
            first = i;
    return first;
}

/* Feeds the committed transactions of all callers of a map, which are in no transaction, to a new judge
 * by the order of commits. Each is fed as a whole, as caller 0.    0; 3; 30 */
static inline boostmap_status
boostmap_recorded_feed(boostmap_judge *judge, const boostmap_recorded *callers, size_t count) {
    size_t *at = (size_t *)calloc(count + 1, sizeof *at), next;
    boostmap_status status = at ? BOOSTMAP_DONE : BOOSTMAP_NO_MEMORY;
    while (status == BOOSTMAP_DONE && (next = boostmap_record_first(callers, count, at)) < count) {
        const boostmap_entry *entries = callers[next].entries + at[next];
        size_t length = 1;
        uint64_t fed;
        while (entries[length - 1].kind != BOOSTMAP_COMMITTED) length++;
        status = boostmap_judge_feed_all(judge, entries, length, &fed);
        at[next] += length;
    }
    free(at);
    return status;
}

#ifdef __cplusplus
}
#endif
#endif
