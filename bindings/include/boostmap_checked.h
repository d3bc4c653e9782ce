/* The calls of boostmap.h behind a door: instead of undefined behaviour, a null handle, array, entry,
 * verdict, finding or `done` returns BOOSTMAP_NULL, and a handle that is in another call BOOSTMAP_IN_CALL. So any
 * thread may call at any time: the door is a seq_cst exchange, which also orders the calls. `word` may
 * be null if the number is not needed. This header needs C11 or C++11 and is only tested. A door costs
 * about 20 ns a call. Whole transactions (boostmap_caller_NAME) and what boostmap.h makes of several
 * calls have no door.
 *
 *     boostmap_door map = BOOSTMAP_DOOR_INIT;
 *     boostmap_checked_new(&map, 2, 64, 1024);
 *     boostmap_caller_door caller = BOOSTMAP_DOOR_INIT;
 *     boostmap_checked_striped_open(&caller, 2, 64, 0, BOOSTMAP_KEEP_NOTHING, 0, 0);
 */
#ifndef BOOSTMAP_CHECKED_H
#define BOOSTMAP_CHECKED_H

#include "boostmap.h"
#ifdef __cplusplus
#include <atomic>
typedef std::atomic<unsigned> boostmap_flag;
#define BOOSTMAP_DOOR_INIT { BOOSTMAP_INIT, {0} }
#define BOOSTMAP_ENTER(FLAG) (FLAG).exchange(1)
#define BOOSTMAP_EXIT(FLAG) (FLAG).store(0)
#else
#include <stdatomic.h>
typedef atomic_uint boostmap_flag;
#define BOOSTMAP_DOOR_INIT { BOOSTMAP_INIT, 0 }
#define BOOSTMAP_ENTER(FLAG) atomic_exchange(&(FLAG), 1)
#define BOOSTMAP_EXIT(FLAG) atomic_store(&(FLAG), 0)
#endif

typedef struct boostmap_door {
    boostmap map;
    boostmap_flag is_in_call;
} boostmap_door;

/* Defines boostmap_checked_NAME by its parameters, of which the first is the door, and by the call
 * behind the door. */
#define BOOSTMAP_CHECKED(NAME, PARAMETERS, CALL)                                                    \
    static inline boostmap_status boostmap_checked_##NAME PARAMETERS {                             \
        boostmap_status status;                                                                    \
        if (!door) return BOOSTMAP_NULL;                                                            \
        if (BOOSTMAP_ENTER(door->is_in_call)) return BOOSTMAP_IN_CALL;                              \
        status = CALL;                                                                             \
        BOOSTMAP_EXIT(door->is_in_call);                                                            \
        return status;                                                                             \
    }

/* Defines boostmap_checked_NAME for a call with a word, which may be null. */
#define BOOSTMAP_CHECKED_WORD(NAME, PARAMETERS, CALL)                                               \
    static inline boostmap_status boostmap_checked_##NAME PARAMETERS {                             \
        boostmap_status status;                                                                    \
        uint64_t unwanted = 0;                                                                     \
        if (!door) return BOOSTMAP_NULL;                                                            \
        if (!word) word = &unwanted;                                                               \
        if (BOOSTMAP_ENTER(door->is_in_call)) return BOOSTMAP_IN_CALL;                              \
        status = CALL;                                                                             \
        BOOSTMAP_EXIT(door->is_in_call);                                                            \
        return status;                                                                             \
    }

BOOSTMAP_CHECKED(new, (boostmap_door *door, uint64_t callers, uint64_t stripes, uint64_t buckets),
                 boostmap_new(&door->map, callers, stripes, buckets))
BOOSTMAP_CHECKED(free, (boostmap_door *door), boostmap_free(&door->map))
BOOSTMAP_CHECKED(trim, (boostmap_door *door), boostmap_trim(&door->map))
BOOSTMAP_CHECKED(trim_above, (boostmap_door *door, uint64_t entries), boostmap_trim_above(&door->map, entries))
BOOSTMAP_CHECKED_WORD(entries, (boostmap_door *door, uint64_t *word), boostmap_entries(&door->map, word))
BOOSTMAP_CHECKED(help, (boostmap_door *door, uint64_t caller, uint64_t key), boostmap_help(&door->map, caller, key))
BOOSTMAP_CHECKED_WORD(count, (boostmap_door *door, uint64_t *word), boostmap_count(&door->map, word))
BOOSTMAP_CHECKED_WORD(read, (boostmap_door *door, boostmap_pair *pairs, size_t places, uint64_t *word),
                      pairs ? boostmap_read(&door->map, pairs, places, word) : (boostmap_status)BOOSTMAP_NULL)
BOOSTMAP_CHECKED_WORD(begin, (boostmap_door *door, uint64_t caller, uint64_t *word),
                      boostmap_begin(&door->map, caller, word))
BOOSTMAP_CHECKED_WORD(commit, (boostmap_door *door, uint64_t caller, uint64_t *word),
                      boostmap_commit(&door->map, caller, word))
BOOSTMAP_CHECKED_WORD(abort, (boostmap_door *door, uint64_t caller, uint64_t *word),
                      boostmap_abort(&door->map, caller, word))
BOOSTMAP_CHECKED_WORD(get, (boostmap_door *door, uint64_t caller, uint64_t key, uint64_t *word),
                      boostmap_get(&door->map, caller, key, word))
BOOSTMAP_CHECKED_WORD(take, (boostmap_door *door, uint64_t caller, uint64_t key, uint64_t *word),
                      boostmap_take(&door->map, caller, key, word))
BOOSTMAP_CHECKED_WORD(put, (boostmap_door *door, uint64_t caller, uint64_t key, uint64_t value, uint64_t *word),
                      boostmap_put(&door->map, caller, key, value, word))
BOOSTMAP_CHECKED_WORD(put_if_absent,
                      (boostmap_door *door, uint64_t caller, uint64_t key, uint64_t value, uint64_t *word),
                      boostmap_put_if_absent(&door->map, caller, key, value, word))
BOOSTMAP_CHECKED_WORD(put_if_equal,
                      (boostmap_door *door, uint64_t caller, uint64_t key, uint64_t expected, uint64_t value,
                       uint64_t *word),
                      boostmap_put_if_equal(&door->map, caller, key, expected, value, word))
BOOSTMAP_CHECKED_WORD(save, (boostmap_door *door, uint64_t caller, uint64_t *word),
                      boostmap_save(&door->map, caller, word))
BOOSTMAP_CHECKED_WORD(back, (boostmap_door *door, uint64_t caller, uint64_t level, uint64_t *word),
                      boostmap_back(&door->map, caller, level, word))

/* A caller of a striped map behind its own door. */
typedef struct boostmap_caller_door {
    boostmap_caller caller;
    boostmap_flag is_in_call;
} boostmap_caller_door;

BOOSTMAP_CHECKED_WORD(striped_open,
                      (boostmap_caller_door *door, uint64_t callers, uint64_t stripes, uint64_t keys, uint32_t keep,
                       uint64_t seed, uint64_t *word),
                      boostmap_striped_open(&door->caller, callers, stripes, keys, keep, seed, word))
BOOSTMAP_CHECKED_WORD(striped_open_with,
                      (boostmap_caller_door *door, const boostmap_options *options, uint64_t *word),
                      options ? boostmap_striped_open_with(&door->caller, options, word) : (boostmap_status)BOOSTMAP_NULL)
BOOSTMAP_CHECKED_WORD(striped_option, (boostmap_caller_door *door, uint64_t option, uint64_t *word),
                      boostmap_striped_option(&door->caller, option, word))
BOOSTMAP_CHECKED(striped_counts, (boostmap_caller_door *door, boostmap_counts *counts),
                 counts ? boostmap_striped_counts(&door->caller, counts) : (boostmap_status)BOOSTMAP_NULL)
BOOSTMAP_CHECKED(striped_free, (boostmap_caller_door *door), boostmap_striped_free(&door->caller))
BOOSTMAP_CHECKED(striped_begin, (boostmap_caller_door *door), boostmap_striped_begin(&door->caller))
BOOSTMAP_CHECKED(striped_abort, (boostmap_caller_door *door), boostmap_striped_abort(&door->caller))
BOOSTMAP_CHECKED(striped_back, (boostmap_caller_door *door, uint64_t level), boostmap_striped_back(&door->caller, level))
BOOSTMAP_CHECKED_WORD(striped_commit, (boostmap_caller_door *door, uint64_t *word),
                      boostmap_striped_commit(&door->caller, word))
BOOSTMAP_CHECKED_WORD(striped_get, (boostmap_caller_door *door, uint64_t key, uint64_t *word),
                      boostmap_striped_get(&door->caller, key, word))
BOOSTMAP_CHECKED_WORD(striped_take, (boostmap_caller_door *door, uint64_t key, uint64_t *word),
                      boostmap_striped_take(&door->caller, key, word))
BOOSTMAP_CHECKED_WORD(striped_put, (boostmap_caller_door *door, uint64_t key, uint64_t value, uint64_t *word),
                      boostmap_striped_put(&door->caller, key, value, word))
BOOSTMAP_CHECKED_WORD(striped_put_if_absent,
                      (boostmap_caller_door *door, uint64_t key, uint64_t value, uint64_t *word),
                      boostmap_striped_put_if_absent(&door->caller, key, value, word))
BOOSTMAP_CHECKED_WORD(striped_put_if_equal,
                      (boostmap_caller_door *door, uint64_t key, uint64_t expected, uint64_t value, uint64_t *word),
                      boostmap_striped_put_if_equal(&door->caller, key, expected, value, word))
BOOSTMAP_CHECKED_WORD(striped_save, (boostmap_caller_door *door, uint64_t *word),
                      boostmap_striped_save(&door->caller, word))
BOOSTMAP_CHECKED_WORD(striped_count, (boostmap_caller_door *door, uint64_t *word),
                      boostmap_striped_count(&door->caller, word))
BOOSTMAP_CHECKED_WORD(striped_read, (boostmap_caller_door *door, boostmap_pair *pairs, size_t places, uint64_t *word),
                      pairs ? boostmap_striped_read(&door->caller, pairs, places, word) : (boostmap_status)BOOSTMAP_NULL)
BOOSTMAP_CHECKED_WORD(striped_read_stripe,
                      (boostmap_caller_door *door, uint64_t key, boostmap_pair *pairs, size_t places, uint64_t *word),
                      pairs ? boostmap_striped_read_stripe(&door->caller, key, pairs, places, word)
                            : (boostmap_status)BOOSTMAP_NULL)
BOOSTMAP_CHECKED_WORD(striped_run,
                      (boostmap_caller_door *door, const boostmap_entry *operations, size_t count, uint32_t strict,
                       boostmap_reply *replies, size_t places, uint64_t *done, uint64_t *word),
                      operations && replies && done
                          ? boostmap_striped_run(&door->caller, operations, count, strict, replies, places, done, word)
                          : (boostmap_status)BOOSTMAP_NULL)

/* The inner half of a join, behind the second door. */
BOOSTMAP_CHECKED_WORD(striped_joined_to, (boostmap_caller_door *door, boostmap_caller *first, uint64_t *word),
                      boostmap_striped_join(first, &door->caller, word))
BOOSTMAP_CHECKED(striped_join, (boostmap_caller_door *door, boostmap_caller_door *next, uint64_t *word),
                 boostmap_checked_striped_joined_to(next, &door->caller, word))

/* The same for a caller that another one makes. */
BOOSTMAP_CHECKED_WORD(striped_another_of, (boostmap_caller_door *door, boostmap_caller *caller, uint64_t *word),
                      boostmap_striped_another(caller, &door->caller, word))
BOOSTMAP_CHECKED(striped_another, (boostmap_caller_door *door, boostmap_caller_door *next, uint64_t *word),
                 boostmap_checked_striped_another_of(next, &door->caller, word))

/* A judge behind its own door. */
typedef struct boostmap_judge_door {
    boostmap_judge judge;
    boostmap_flag is_in_call;
} boostmap_judge_door;

BOOSTMAP_CHECKED(judge_new, (boostmap_judge_door *door, uint64_t stripes, uint32_t rule),
                 boostmap_judge_new(&door->judge, stripes, rule))
BOOSTMAP_CHECKED(judge_free, (boostmap_judge_door *door), boostmap_judge_free(&door->judge))
BOOSTMAP_CHECKED(judge_feed, (boostmap_judge_door *door, const boostmap_entry *entry),
                 entry ? boostmap_judge_feed(&door->judge, entry) : (boostmap_status)BOOSTMAP_NULL)
BOOSTMAP_CHECKED_WORD(judge_feed_all,
                      (boostmap_judge_door *door, const boostmap_entry *entries, size_t count, uint64_t *word),
                      entries ? boostmap_judge_feed_all(&door->judge, entries, count, word) : (boostmap_status)BOOSTMAP_NULL)
BOOSTMAP_CHECKED_WORD(history,
                      (boostmap_door *door, uint64_t first, boostmap_entry *entries, size_t places, uint64_t *word),
                      entries ? boostmap_history(&door->map, first, entries, places, word) : (boostmap_status)BOOSTMAP_NULL)
BOOSTMAP_CHECKED(judge_verdict, (boostmap_judge_door *door, boostmap_verdict *verdict),
                 verdict ? boostmap_judge_verdict(&door->judge, verdict) : (boostmap_status)BOOSTMAP_NULL)

/* This call has no handle, and no door. */
static inline boostmap_status boostmap_checked_judge_any_order(const boostmap_entry *entries, size_t count,
                                                               uint32_t real_time, boostmap_link *links,
                                                               size_t places, boostmap_finding *finding) {
    return entries && links && finding ? boostmap_judge_any_order(entries, count, real_time, links, places, finding)
                                       : (boostmap_status)BOOSTMAP_NULL;
}

/* A host behind its own door. */
typedef struct boostmap_host_door {
    boostmap_host host;
    boostmap_flag is_in_call;
} boostmap_host_door;

/* The inner half of the call that gives a host its handle, behind the second door. */
BOOSTMAP_CHECKED(striped_host_of, (boostmap_host_door *door, boostmap_caller *first),
                 boostmap_striped_host(first, &door->host))
BOOSTMAP_CHECKED(striped_host, (boostmap_caller_door *door, boostmap_host_door *host),
                 boostmap_checked_striped_host_of(host, &door->caller))
BOOSTMAP_CHECKED_WORD(host_history, (boostmap_host_door *door, boostmap_entry *entries, size_t places, uint64_t *word),
                      entries ? boostmap_host_history(&door->host, entries, places, word) : (boostmap_status)BOOSTMAP_NULL)
BOOSTMAP_CHECKED(host_free, (boostmap_host_door *door), boostmap_host_free(&door->host))

#undef BOOSTMAP_CHECKED
#undef BOOSTMAP_CHECKED_WORD
#undef BOOSTMAP_ENTER
#undef BOOSTMAP_EXIT
#endif
