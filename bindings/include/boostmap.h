/* BOOSTMAP(3)
 *
 * NAME
 *     boostmap - transactional maps from 64-bit keys to 64-bit values, and a judge of histories
 *
 * SYNOPSIS
 *     #include <boostmap.h>            cc program.c $(pkg-config --cflags --libs boostmap)
 *
 *     boostmap_caller mine = BOOSTMAP_INIT, yours = BOOSTMAP_INIT;   a striped map for two threads
 *     uint64_t word;
 *     if (boostmap_striped_open(&mine, 2, 64, 0, BOOSTMAP_KEEP_NOTHING, 0, &word) != BOOSTMAP_DONE)
 *         return 1;                                              2 callers, 64 stripes
 *     boostmap_striped_join(&mine, &yours, &word);               `yours` goes to the other thread
 *     boostmap_striped_begin(&mine);
 *     boostmap_striped_put(&mine, 7, 70, &word);                 BOOSTMAP_BUSY if the other has it
 *     boostmap_striped_commit(&mine, &word);
 *     boostmap_caller_add(&mine, 7, -5, &word);                  one call: a transaction, which waits if busy
 *     boostmap_striped_free(&mine);
 *
 *     boostmap map = BOOSTMAP_INIT;                              a map with one owner
 *     boostmap_new(&map, 2, 64, 1024);                           2 callers, 64 stripes, 1024 buckets
 *     boostmap_begin(&map, 0, &word);                            caller 0 begins a transaction
 *     boostmap_put(&map, 0, 7, 70, &word);                       BOOSTMAP_ABSENT: 7 had no value
 *     boostmap_get(&map, 0, 7, &word);                           BOOSTMAP_DONE: word is 70
 *     boostmap_commit(&map, 0, &word);                           word is 1: the first commit
 *     boostmap_free(&map);
 *
 * DESCRIPTION
 *     There are two kinds of maps. Use the striped map, with one caller or with many.
 *
 *     A striped map is for threads: each of its callers has its own handle, a
 *     `boostmap_caller`, and callers run in parallel without a lock. It grows by itself, hashes its
 *     keys and, unless asked, keeps no history, so it may run forever.
 *
 *     A map with one owner, a `boostmap`, is for tests and simulations: the program makes the calls of
 *     up to 64 callers, numbered from 0, in any order, and the map keeps their history
 *     (boostmap_history). Each caller may have one transaction open.
 *       Its memory grows with its history: 32 bytes an entry, 320 bytes for a transaction of four
 *     operations, also of gets. boostmap_trim cuts the history off, and after boostmap_trim_above the
 *     map does so by itself. The map also grows by itself, but it does not hash: a key belongs to the
 *     bucket that its low bits name. Consecutive and random keys are fast. Keys whose low bits are all
 *     alike, as multiples of 65536, form one long list: mix such keys before.
 *
 *     In both maps a key belongs to the stripe key % stripes. An operation takes the stripe of its key,
 *     and its transaction keeps the stripe to the end, so committed transactions have the replies of
 *     running one after another, in the order of their commits.
 *       Take several times as many stripes as keys are in open transactions at a time. If all your keys
 *     are multiples of a number, take stripes that have no factor in common with it: of 64 stripes the
 *     keys 64, 128, 192 .. use one, of 61 stripes all.
 *
 * AFTER BOOSTMAP_BUSY
 *     Another caller held a stripe that the call needs; `word` is its number, for messages.
 *       On a striped map the transaction has been aborted, with all its changes taken back. Wait as
 *     boostmap_wait does, and begin again; boostmap_caller_transact and boostmap_caller_NAME do both.
 *       On a map with one owner the transaction can only abort, and keeps its stripes until then: call
 *     boostmap_abort, and begin again after the other caller has ended its transaction.
 *
 * WHAT IS NOT THERE, AND WHAT TO DO INSTEAD (on a striped map)
 *     keys or values of bytes       number them in a map of your own, with its own lock. A value may
 *                                   be a pointer: no call follows or frees it
 *     shared locks, snapshots       a get also excludes other callers from the stripe. For a read of
 *                                   the whole map that gets through, hold a pthread_rwlock_t that
 *                                   prefers writers: for writing around this read, for reading around
 *                                   all transactions
 *     ranges of keys, keys alone    choose from boostmap_striped_items, or from a stripe's pairs
 *     a size that stops nobody      count in the program
 *     shrinking                     put the pairs into a new map, and free the old one
 *     export to a file              write the pairs of boostmap_caller_items; import them by
 *                                   boostmap_caller_put_all
 *     busy calls of each stripe     boostmap_striped_counts has those of each caller
 *     waiting for the holder, a     boostmap_wait, which draws its times. No caller is promised
 *     queue, priorities, fairness   that it ever gets through
 *     a deadline                    give boostmap_caller_transact a number of tries, or a job that
 *                                   looks at the clock
 *     a caller for each thread      keep one in a variable of the thread, made by
 *     by itself                     boostmap_striped_another
 *
 * RETURN VALUE
 *     Every call returns a status. Most take a pointer `word`: with BOOSTMAP_DONE and BOOSTMAP_BUSY
 *     they write a number there (boostmap_abort never does), with another status only if their
 *     comment says so. The comment of a call ends with the statuses that it may return, and
 *     boostmap_text says a status in words:
 *
 *     0, 1      done; 1 at a key without a value
 *     2         another caller holds a stripe that the call needs
 *     3, 4      the handle is empty, or in use already; nothing was done
 *     5, 6      of boostmap_checked.h: a null pointer, or a handle that is in another call
 *     7, 8, 9   an array that is too short, numbers that are no entry, a sum beyond 64 bits
 *     10 to 12  of a map's history: no host, no entries kept, a caller that has not ended
 *     13        a put_if of a strict run found another value than it expects
 *     16 + n    refused; n is the number of the refusal, from 2 to 22
 *
 * OWNERSHIP
 *     A `boostmap` is a handle of 16 bytes in the program's memory, all zeros at first
 *     (BOOSTMAP_INIT). boostmap_new gives it a map; boostmap_free frees the map and makes the handle
 *     all zeros again. A handle may be moved by copying its bytes, if only the copy is used
 *     afterwards. Never read or write its fields. The same holds for a `boostmap_judge`, a
 *     `boostmap_host`, and a `boostmap_caller`, which takes 64 bytes and is aligned to 64. A striped
 *     map is freed with the last of its callers; a caller that is freed in a transaction aborts it.
 *
 * THREADS
 *     Make one call at a time on one handle. Any thread may make the next call, if a mutex, a
 *     thread's start or join, or a seq_cst atomic orders it after the last one. Different handles
 *     may be in calls at the same time, also those of callers of one striped map. No call of the
 *     archive waits, takes a lock, starts a thread, or calls back. The functions that this header
 *     defines may wait (boostmap_wait), and call the functions that they are given.
 *
 * WHAT IS PROVED, AND WHAT IS ONLY TESTED
 *     The archive is proved: each call, made as the next section says, is free of undefined
 *     behaviour, returns, and does what its contract in crates/boostmap_c states. The headers and
 *     the bindings are only tested.
 *
 * WHAT THE PROGRAM MUST DO (otherwise its behaviour is undefined, for example as at the right)
 *     1. A handle is all zeros or as these calls left it.            garbage mostly returns 3
 *     2. Pointers are not null, and aligned; those of a call do not  null crashes; 5 with
 *        overlap each other or the map's memory.                     boostmap_checked.h
 *     3. One call at a time on one handle, ordered as above.         two corrupt the map; 6 with
 *                                                                    boostmap_checked.h
 *     4. After a handle is copied, only one of the two is used.      use after free
 *     5. An array has as many elements as its count says, and is     reads or writes beyond it
 *        not null, even if the count is 0.
 *     6. No call from a signal handler, or from the forked child     malloc may deadlock
 *        of a process with threads.
 *     7. malloc, realloc and free come from one allocator and align  the heap is corrupted
 *        to 16, as in any C library.
 *     8. There is enough stack for a call: 16 KB is, as tested.      the program crashes
 *
 *     Everything else returns a status: an empty handle (also after boostmap_free), a caller, a
 *     level or a limit out of range, calls out of order, and memory that is refused.
 *
 * PLATFORMS
 *     Built and tested on x86-64 Linux with glibc, by gcc; the headers also compile with clang. No
 *     other platform was tried.
 *
 * LICENCE
 *     None has been chosen yet. Ask the owners before you use the library or pass it on.
 *
 * SEE ALSO
 *     boostmap_checked.h (null and overlapping calls become statuses), boostmap.hpp (C++), docs/C.md.
 *     Pages of docs/ are in the repository, and are not installed.
 */
#ifndef BOOSTMAP_H
#define BOOSTMAP_H

/* The version of the library. */
#define BOOSTMAP_VERSION "1.0.0"

#include <sched.h>
#include <stddef.h>
#include <stdint.h>
#include <stdlib.h>
#include <sys/select.h>

#ifdef __cplusplus
extern "C" {
#endif

/* A handle of a map: all zeros, or a map. The program does not touch the fields. */
typedef struct boostmap {
    uint64_t tag;
    void *held;
} boostmap;

#ifdef __cplusplus
#define BOOSTMAP_INIT {}
#else
#define BOOSTMAP_INIT { 0 }
#endif

typedef uint32_t boostmap_status;

enum {
    BOOSTMAP_DONE = 0,   /* done; *word is the number that the comment of the call names */
    BOOSTMAP_ABSENT = 1, /* done, at a key without a value */
    BOOSTMAP_BUSY = 2,   /* caller *word holds a stripe that the call needs: see above, AFTER BOOSTMAP_BUSY */
    BOOSTMAP_EMPTY = 3,  /* the handle is empty; nothing was done */
    BOOSTMAP_FULL = 4,   /* the handle is in use already; nothing was done */
    BOOSTMAP_NULL = 5,   /* only from boostmap_checked.h: a null pointer */
    BOOSTMAP_IN_CALL = 6, /* only from boostmap_checked.h: the handle is in another call */
    BOOSTMAP_SHORT = 7,  /* an array is too short; from a read, *word is the number of places needed */
    BOOSTMAP_NO_ENTRY = 8, /* from a judge: these numbers are no entry of a caller below 64; from a run: they are
                              no operation */
    BOOSTMAP_OVERFLOW = 9, /* from an add: the sum would be below 0 or above 2^64 - 1 */
    BOOSTMAP_NO_HOST = 10, /* this caller is not the first of its map, or the host has a handle already */
    BOOSTMAP_NOT_KEPT = 11, /* the map does not keep its entries */
    BOOSTMAP_MISSING = 12, /* for the history: caller *word of the map has not been freed */
    BOOSTMAP_MISSED = 13, /* from a strict run: a put_if found another value than it expects */
    /* 16 + the number of a refusal: nothing has changed, unless the comment of the call says so */
    BOOSTMAP_NO_SUCH_CALLER = 18,  /* the caller's number is not below the number of callers; from
                                      boostmap_striped_join: no caller waits */
    BOOSTMAP_NOT_OPEN = 19,        /* the caller has no transaction */
    BOOSTMAP_ALREADY_OPEN = 20,    /* the caller has a transaction already */
    BOOSTMAP_LEAVING = 22,         /* of a map with one owner: after BOOSTMAP_BUSY the transaction can only abort */
    BOOSTMAP_NO_SUCH_LEVEL = 25,   /* the level is above the number of savepoints */
    BOOSTMAP_NO_SUCH_HELPER = 28,  /* as 18, from boostmap_help */
    BOOSTMAP_NO_MEMORY = 30,       /* memory was refused; never from commit and abort */
    BOOSTMAP_STAMPS_USED_UP = 32,  /* 2^64 - 2 nodes were made */
    BOOSTMAP_LIMIT = 38            /* a limit is out of range; from boostmap_judge_new: no stripes, or
                                      no such rule; from boostmap_striped_another: no further caller */
};

/* A status in words. */
static inline const char *boostmap_text(boostmap_status status) {
    switch (status) {
    case BOOSTMAP_DONE: return "done";
    case BOOSTMAP_ABSENT: return "done, at a key without a value";
    case BOOSTMAP_BUSY: return "another caller holds the key's stripe";
    case BOOSTMAP_EMPTY: return "the handle is empty";
    case BOOSTMAP_FULL: return "the handle is in use already";
    case BOOSTMAP_NULL: return "a pointer is null";
    case BOOSTMAP_IN_CALL: return "the handle is in another call";
    case BOOSTMAP_SHORT: return "the array is too short";
    case BOOSTMAP_NO_ENTRY: return "these numbers are no entry";
    case BOOSTMAP_OVERFLOW: return "the sum does not fit in 64 bits";
    case BOOSTMAP_NO_HOST: return "the caller does not have the map's host";
    case BOOSTMAP_NOT_KEPT: return "the map does not keep its entries";
    case BOOSTMAP_MISSING: return "a caller of the map has not been freed";
    case BOOSTMAP_MISSED: return "a put_if found another value than it expects";
    case BOOSTMAP_NO_SUCH_CALLER: return "there is no such caller";
    case BOOSTMAP_NOT_OPEN: return "the caller has no transaction";
    case BOOSTMAP_ALREADY_OPEN: return "the caller has a transaction already";
    case BOOSTMAP_LEAVING: return "the transaction can only abort";
    case BOOSTMAP_NO_SUCH_LEVEL: return "there is no such level";
    case BOOSTMAP_NO_SUCH_HELPER: return "there is no such helper";
    case BOOSTMAP_NO_MEMORY: return "memory was refused";
    case BOOSTMAP_STAMPS_USED_UP: return "no stamp is left";
    case BOOSTMAP_LIMIT: return "a limit is out of range";
    default: return "no call returns this status";
    }
}

/* ---- the map with one owner ---------------------------------------------------------------------
 *
 * Its memory grows with its history, and its keys should differ in their low bits: see above. */

/* Makes a map for 1 to 64 callers, with 1 to 4096 stripes and at most `buckets` buckets, a power of
 * two from 2 to 65536. The table grows by itself up to this size; with more than about eight keys a
 * bucket, operations get slower.    0; 4; 38; 30 */
boostmap_status boostmap_new(boostmap *map, uint64_t callers, uint64_t stripes, uint64_t buckets);

/* Frees the map, also if transactions are open.    0; 3 */
boostmap_status boostmap_free(boostmap *map);

/* *word: the number of keys that the map has now, with the changes of open transactions.    0; 3 */
boostmap_status boostmap_count(boostmap *map, uint64_t *word);

/* A key and its value. */
typedef struct boostmap_pair {
    uint64_t key;
    uint64_t value;
} boostmap_pair;

/* Writes the pairs of the map as it is now, with the changes of open transactions, to the front of an
 * array of `places` elements, in the order of the keys' reversed bits; *word: the number of pairs.
 * After 7 the array is unchanged, and *word is the number of places that it needs; boostmap_count says it
 * at once, and such a read takes about as long as a full one.    0; 3; 7; 30 */
boostmap_status boostmap_read(boostmap *map, boostmap_pair *pairs, size_t places, uint64_t *word);

/* *word: the number of entries of the map's history. An operation has two entries, and the begin, the
 * commit, a savepoint, and each change that is taken back has one; each takes 32 bytes.    0; 3 */
boostmap_status boostmap_entries(boostmap *map, uint64_t *word);

/* Cuts the history off and frees its memory, in the time of a put for each key. The map and its keys
 * stay. Instead of the old history there is one transaction that puts the pairs of the map, by caller 0:
 * it has number 1 and commit number 1, and the next ones have 2. After 20 (a caller has a transaction)
 * and 30 the map and its history are unchanged.    0; 3; 20; 30; 32 */
boostmap_status boostmap_trim(boostmap *map);

/* From now on boostmap_commit and boostmap_abort trim the map by themselves, if its history has more
 * than `entries` entries and more than four for each key, and no caller has a transaction. So the memory
 * stays bounded. Give ten entries for each key or more: then trimming takes next to no time. If there is no
 * memory for a trim, they end the transaction all the same, and the next one tries again. With 0, as in a
 * new map, the map never trims by itself.    0; 3 */
boostmap_status boostmap_trim_above(boostmap *map, uint64_t entries);

/* Doubles the table if it has more than two keys a bucket, and initialises the key's bucket. The table
 * grows by itself, so no program needs this call. After 30 and 32 the table may have grown all the same.
 * 0; 3; 28; 32; 30 */
boostmap_status boostmap_help(boostmap *map, uint64_t caller, uint64_t key);

/* Begins a transaction; *word: its number in the history, from 1.    0; 3; 18; 20; 22; 30 */
boostmap_status boostmap_begin(boostmap *map, uint64_t caller, uint64_t *word);

/* Commits; *word: the place in the order of commits of the history, from 1.    0; 3; 18; 19; 22 */
boostmap_status boostmap_commit(boostmap *map, uint64_t caller, uint64_t *word);

/* Aborts: takes every change back, and gives the stripes back. It writes no word.    0; 3; 18; 19 */
boostmap_status boostmap_abort(boostmap *map, uint64_t caller, uint64_t *word);

/* Operations; *word: the value that the key had. Each may return 0; 1; 2; 3; 18; 19; 22; 30, and all
 * but get also 32. */
boostmap_status boostmap_get(boostmap *map, uint64_t caller, uint64_t key, uint64_t *word);
boostmap_status boostmap_take(boostmap *map, uint64_t caller, uint64_t key, uint64_t *word);
boostmap_status boostmap_put(boostmap *map, uint64_t caller, uint64_t key, uint64_t value, uint64_t *word);

/* Puts only if the key has no value: BOOSTMAP_ABSENT says that it put. */
boostmap_status boostmap_put_if_absent(boostmap *map, uint64_t caller, uint64_t key, uint64_t value, uint64_t *word);

/* Puts only if the key has the value `expected`: BOOSTMAP_DONE with that word says that it put. */
boostmap_status boostmap_put_if_equal(boostmap *map, uint64_t caller, uint64_t key, uint64_t expected, uint64_t value,
                                      uint64_t *word);

/* Sets a savepoint; *word: its level, from 1.    0; 3; 18; 19; 22; 30 */
boostmap_status boostmap_save(boostmap *map, uint64_t caller, uint64_t *word);

/* Takes back every change since the level was set; 0 is the beginning. The level stays set, later
 * levels are dropped, and the stripes stay held; *word: the level.    0; 3; 18; 19; 22; 25; 30 */
boostmap_status boostmap_back(boostmap *map, uint64_t caller, uint64_t level, uint64_t *word);

/* ---- the striped map ----------------------------------------------------------------------------
 *
 * One handle is one caller. Its calls need no lock: give each thread its own caller. A caller may move
 * to another thread between any two calls, also within a transaction. */

/* Aligns a handle to a line of the processor's cache. */
#if defined __cplusplus
#define BOOSTMAP_LINE alignas(64)
#elif defined __GNUC__
#define BOOSTMAP_LINE __attribute__((aligned(64)))
#else
#define BOOSTMAP_LINE _Alignas(64)
#endif

/* A handle of a caller: all zeros, or a caller of a striped map. The program does not touch the
 * fields. It has a line of the cache to itself: every call reads it, and writes of other threads to
 * that line would slow the call down. On the heap, take it from aligned_alloc. */
typedef struct boostmap_caller {
    BOOSTMAP_LINE uint64_t tag;
    void *held;
    uint64_t apart[6];
} boostmap_caller;

/* What a map keeps of its history. One that keeps its commits counts them in a word that all its callers
 * write, and so does one that keeps its entries; its callers also keep theirs, with 72 bytes for each
 * begin, operation, savepoint, return and end, until the map and its host are freed. */
enum { BOOSTMAP_KEEP_NOTHING = 0, BOOSTMAP_KEEP_COMMITS = 1, BOOSTMAP_KEEP_ENTRIES = 2 };

/* Opens a map with no keys, for 1 to 4096 callers and with 1 to 4096 stripes, with room for `keys`
 * keys, and makes `first` its first caller; *word: the caller's number, which is the number of
 * callers. The others wait until they are joined. A stripe takes some 150 bytes, a caller 750. The map grows
 * by itself, and never shrinks: memory that it has for keys is kept for later keys until the map is freed.
 * `seed` is that of the hash of keys within a stripe: if strangers choose the keys, draw it at random below
 * 2^32, or they can make every call slow. With larger seeds, consecutive keys may be slow. The seed does not
 * change which keys share a stripe.
 * 0; 4; 38; 30 */
boostmap_status boostmap_striped_open(boostmap_caller *first, uint64_t callers, uint64_t stripes, uint64_t keys,
                                      uint32_t keep, uint64_t seed, uint64_t *word);

/* How a striped map is opened. A member that is 0 has its default. Later versions may have further members
 * at the end. */
typedef struct boostmap_options {
    uint64_t callers; /* 1 to 4096; by default 1 */
    uint64_t stripes; /* 1 to 4096; by default 1024 */
    uint64_t keys;    /* the map has room for so many keys; by default for none */
    uint64_t keep;    /* BOOSTMAP_KEEP_NOTHING, .._COMMITS or .._ENTRIES; by default nothing */
    uint64_t seed;    /* see boostmap_striped_open; by default 0 */
} boostmap_options;

/* The call behind boostmap_striped_open_with, for other languages: the members of the options as `count`
 * words. Members that are missing are 0. There may not be more words than the archive knows members.
 * 0; 4; 38; 30 */
boostmap_status boostmap_striped_open_words(boostmap_caller *first, const uint64_t *words, size_t count, uint64_t *word);

/* Opens a map as boostmap_striped_open does.    0; 4; 38; 30 */
static inline boostmap_status boostmap_striped_open_with(boostmap_caller *first, const boostmap_options *options,
                                                         uint64_t *word) {
    return boostmap_striped_open_words(first, (const uint64_t *)options, sizeof *options / sizeof(uint64_t), word);
}

/* Which member of the options. */
enum {
    BOOSTMAP_OPTION_CALLERS = 0, BOOSTMAP_OPTION_STRIPES = 1, BOOSTMAP_OPTION_KEYS = 2, BOOSTMAP_OPTION_KEEP = 3,
    BOOSTMAP_OPTION_SEED = 4
};

/* *word: with what the caller's map was opened, also by boostmap_striped_open.    0; 3; 38: no such option */
boostmap_status boostmap_striped_option(boostmap_caller *caller, uint64_t option, uint64_t *word);

/* Makes `next` the handle of the next caller that waits; *word: its number, counted down to 1. Both
 * handles are in this call. A caller that is freed does not wait again.
 * 0; 4: `next` is in use; 3: `first` is empty; 18: nobody waits; 30 */
boostmap_status boostmap_striped_join(boostmap_caller *first, boostmap_caller *next, uint64_t *word);

/* Makes `next` the handle of another caller of the map, for threads that come and go. Any caller may make
 * it, at any time, also in a transaction, which continues. *word: its number, which no caller of the map has
 * or had; there are 2^62 of them, or 2^16 - 1 if the map keeps its entries. Both handles are in this call.
 * 0; 3: `caller` is empty; 4: `next` is in use; 30; 38: all numbers were given out */
boostmap_status boostmap_striped_another(boostmap_caller *caller, boostmap_caller *next, uint64_t *word);

/* Frees the caller, and the callers that still wait to be joined through its handle; an open
 * transaction is aborted. If the map keeps its entries, the map's host gets those of these callers.
 * 0; 3 */
boostmap_status boostmap_striped_free(boostmap_caller *caller);

/* How many transactions of a caller ended by a commit, by an abort, and by a busy call, which aborts too;
 * each modulo 2^64. */
typedef struct boostmap_counts {
    uint64_t commits;
    uint64_t aborts;
    uint64_t busy;
} boostmap_counts;

/* Writes the counts of the caller, since it was joined or made.    0; 3, which writes nothing */
boostmap_status boostmap_striped_counts(boostmap_caller *caller, boostmap_counts *counts);

/* Begins a transaction. If the map keeps its entries, boostmap_striped_begin and boostmap_striped_back
 * may also return 30.    0; 3; 20; 30 */
boostmap_status boostmap_striped_begin(boostmap_caller *caller);

/* Commits; *word: the place in the order of commits, from 1, modulo 2^64, if the map keeps its commits,
 * and 0 if not.    0; 3; 19 */
boostmap_status boostmap_striped_commit(boostmap_caller *caller, uint64_t *word);

/* Aborts: takes every change back, and gives the stripes back.    0; 3; 19 */
boostmap_status boostmap_striped_abort(boostmap_caller *caller);

/* Operations; *word: the value that the key had. Each may return 0; 1; 2, after which the transaction
 * has been aborted; 3; 19; 30, after which the transaction may hold the key's stripe. */
boostmap_status boostmap_striped_get(boostmap_caller *caller, uint64_t key, uint64_t *word);
boostmap_status boostmap_striped_take(boostmap_caller *caller, uint64_t key, uint64_t *word);
boostmap_status boostmap_striped_put(boostmap_caller *caller, uint64_t key, uint64_t value, uint64_t *word);
boostmap_status boostmap_striped_put_if_absent(boostmap_caller *caller, uint64_t key, uint64_t value, uint64_t *word);
boostmap_status boostmap_striped_put_if_equal(boostmap_caller *caller, uint64_t key, uint64_t expected, uint64_t value,
                                              uint64_t *word);

/* Sets a savepoint; *word: its level, from 1.    0; 3; 19; 30 */
boostmap_status boostmap_striped_save(boostmap_caller *caller, uint64_t *word);

/* Takes back every change since the level was set; 0 is the beginning. The level stays set, later
 * levels are dropped, and the stripes stay held.    0; 3; 19; 25; 30 */
boostmap_status boostmap_striped_back(boostmap_caller *caller, uint64_t level);

/* Takes every stripe; *word: the number of keys that the map has, with the transaction's own changes.
 * The stripes stay held to the transaction's end; after 30 it may hold some of them. A stripe that another
 * caller holds is tried a million times, for some 50 milliseconds, before the call is busy. Meanwhile the
 * calls of others on the stripes that it has taken are busy.
 * 0; 2, after which the transaction has been aborted; 3; 19; 30 */
boostmap_status boostmap_striped_count(boostmap_caller *caller, uint64_t *word);

/* Takes every stripe as boostmap_striped_count does, and writes the pairs of the map, by rising keys,
 * to the front of an array of `places` elements; *word: the number of pairs. After 7 the array is
 * unchanged, and *word is the number of places that it needs; the call took about as long as a full one, so
 * call boostmap_striped_count before.
 * 0; 2, after which the transaction has been aborted; 3; 7; 19; 30 */
boostmap_status boostmap_striped_read(boostmap_caller *caller, boostmap_pair *pairs, size_t places, uint64_t *word);

/* Takes the stripe of the key, and writes the pairs of this stripe, by rising keys and with the transaction's own changes,
 * to the front of an array of `places` elements; *word: the number of pairs. The keys 0 to stripes - 1 are in different
 * stripes, so a walk over them reads each pair once; by boostmap_caller_read_stripe it is no snapshot. After 7 the array is
 * unchanged, and *word is the number of places that it needs.
 * 0; 2, after which the transaction has been aborted; 3; 7; 19; 30, after which the transaction may hold the stripe */
boostmap_status boostmap_striped_read_stripe(boostmap_caller *caller, uint64_t key, boostmap_pair *pairs, size_t places,
                                             uint64_t *word);

/* The reply to an operation of a run. */
typedef struct boostmap_reply {
    uint64_t value; /* that the key had; 0 if it had none */
    uint64_t has;   /* 0: the key had no value; else 1 */
} boostmap_reply;

struct boostmap_entry;

/* Runs a whole transaction by one call: begins it, does `count` operations one after the other, and commits. Each is an
 * entry as the judge below has it, of which only operation, key, value, expected and has are read, as of an ASKED one. The
 * replies lie at the front of an array of `places` elements; *done: their number. If `strict` is not 0, a put_if that finds
 * another value than it expects ends the run, and the last reply is its own. After 2, 13 and 30 the transaction has been
 * taken back; it is not tried again. After 7, 8 and 20 nothing was run, and *done is 0; after 3 *done is unchanged.
 * 0: *word as boostmap_striped_commit has it; 2; 3; 7: fewer places than operations; 8: an operation is none of the four;
 * 13; 20; 30 */
boostmap_status boostmap_striped_run(boostmap_caller *caller, const struct boostmap_entry *operations, size_t count,
                                     uint32_t strict, boostmap_reply *replies, size_t places, uint64_t *done,
                                     uint64_t *word);

/* ---- the judge of histories ---------------------------------------------------------------------
 *
 * A history is a list of entries, oldest first, of this map or of your own store. It is legal if
 * each open transaction has the replies of running alone after the committed ones, in the order of
 * commits; if a stripe of keys (key modulo the number of stripes) belongs to one open transaction
 * at a time; and if each caller's entries follow the order of a transaction:
 *
 *     kind             its members, and what it says
 *     BEGAN            number: the transaction's, counted from 1 over all callers
 *     ASKED            operation, key; value for a put or put_if; has, expected for a put_if: the
 *                      caller now holds the key's stripe
 *     DID              has, value: the reply to the operation that was asked for
 *     SAVED            a savepoint, the caller's next level
 *     LEAVE            has, number: the caller goes back to a level, or aborts (has is 0)
 *     UNDONE           the newest change that still stands is taken back
 *     RETURNED         number: the caller is back at the level
 *     COMMITTED        number: the place in the order of commits, from 1
 *     FOUND_BUSY       as ASKED, and number: the caller that holds the key's stripe; the
 *                      transaction aborts
 *     ABORTED          all changes are taken back
 *
 * No entry is for a read or a count of the whole map: a program that records one itself writes an ASKED get
 * and a DID for each key. Callers are judged below 64 only, so of a map with more callers no history is.
 *
 * A program that records a striped map itself opens it with BOOSTMAP_KEEP_COMMITS, notes each transaction
 * beside its caller, and feeds those that committed to a judge by the order of commits, by rising places. A
 * judge by locks wants each COMMITTED noted before the commit gives its stripes back; its place comes after.
 *
 * docs/VERDICTS.md has the rules in full ("The checker's rules"), and docs/JUDGE.md says how to record a
 * history; boostmap_host_history and boostmap_history hand out those of this library's maps. It is proved
 * that the verdict is legal exactly if the history is. */

typedef struct boostmap_judge {
    uint64_t tag;
    void *held;
} boostmap_judge;

enum {
    BOOSTMAP_BEGAN = 1, BOOSTMAP_ASKED = 2, BOOSTMAP_DID = 3, BOOSTMAP_SAVED = 4, BOOSTMAP_LEAVE = 5,
    BOOSTMAP_UNDONE = 6, BOOSTMAP_RETURNED = 7, BOOSTMAP_COMMITTED = 8, BOOSTMAP_FOUND_BUSY = 9,
    BOOSTMAP_ABORTED = 10
};

enum { BOOSTMAP_PUT = 1, BOOSTMAP_PUT_IF = 2, BOOSTMAP_TAKE = 3, BOOSTMAP_GET = 4 };

/* One entry. Members that its kind does not have may be anything. */
typedef struct boostmap_entry {
    uint32_t kind;
    uint32_t operation;
    uint64_t caller;   /* below 64 */
    uint64_t key;
    uint64_t value;
    uint64_t expected; /* of a put_if that expects a value; `has` is then 1 */
    uint64_t number;
    uint64_t has;      /* 0: no reply, no expected value, no level; else there is one */
} boostmap_entry;

typedef struct boostmap_verdict {
    uint64_t is_legal; /* 1 or 0 */
    uint64_t commits;  /* if legal: the number of committed transactions */
    uint64_t running;  /* if legal: the number of callers that are in a transaction */
    uint64_t entry;    /* if not: the index, from 0, of the first entry that breaks a rule */
    uint64_t rule;     /* if not: the rule that it breaks: 1 replies, 2 locks, 3 shape */
} boostmap_verdict;

/* The rule by which a history is judged.
 *
 * By locks: a FOUND_BUSY entry may name a caller that holds the stripe at that moment (HOLDER_NOW), or,
 * for stores that note the entry later, one that has begun a transaction before (HOLDER_BEGUN).
 *
 * By the order of commits, for stores whose readers share locks or read snapshots: each transaction
 * that commits has the replies of running alone on what the commits before it left. Stripes, and the
 * replies of transactions that do not commit, are not judged. A bad entry is then a COMMITTED whose
 * transaction had a wrong reply (rule 1), or an entry out of the order of a transaction (rule 3). */
enum { BOOSTMAP_HOLDER_NOW = 0, BOOSTMAP_HOLDER_BEGUN = 1, BOOSTMAP_BY_COMMITS = 2 };

/* Begins to judge the history of a map with `stripes` stripes, at least one, each of which takes 9
 * bytes; memory is the only other limit. By the order of commits the number is ignored.    0; 4; 38; 30 */
boostmap_status boostmap_judge_new(boostmap_judge *judge, uint64_t stripes, uint32_t rule);

/* Feeds the next entry. It has been fed only after 0; after 30 it may be fed again. Entries after the
 * first one that breaks a rule do not change the verdict.    0; 3; 8; 30 */
boostmap_status boostmap_judge_feed(boostmap_judge *judge, const boostmap_entry *entry);

/* Feeds the entries of an array, in their order, up to the first that cannot be fed; *word: the number
 * of entries fed.    0; 3, which writes no word; 8 and 30, which are for the entry with index *word */
boostmap_status boostmap_judge_feed_all(boostmap_judge *judge, const boostmap_entry *entries, size_t count,
                                        uint64_t *word);

/* Writes the verdict on the entries so far.    0; 3, which writes nothing */
boostmap_status boostmap_judge_verdict(boostmap_judge *judge, boostmap_verdict *verdict);

/* Frees the judge.    0; 3 */
boostmap_status boostmap_judge_free(boostmap_judge *judge);

/* Why a transaction comes before the next one. */
enum {
    BOOSTMAP_LINK_ORDER = 0,    /* they are neighbours in a serial order */
    BOOSTMAP_LINK_READ = 1,     /* the next one read the value that it left */
    BOOSTMAP_LINK_REPLACED = 2, /* the next one replaced the value that it read */
    BOOSTMAP_LINK_BEGAN = 3     /* it had committed when the next one began; only where real time counts */
};

/* A transaction of a serial order, or of a cycle, in which each must come before the next one, and the last
 * before the first; or one that leaves an undecided value. */
typedef struct boostmap_link {
    uint64_t transaction; /* its number */
    uint64_t kind;        /* in a cycle BOOSTMAP_LINK_READ, .._REPLACED, or .._BEGAN with the rest 0; else .._ORDER,
                             with the rest 0 */
    uint64_t key;         /* the key of that value */
    uint64_t value;
    uint64_t has;         /* 0: the key had no value, and `value` is 0; else 1 */
} boostmap_link;

enum {
    BOOSTMAP_SERIALIZABLE = 0, /* the links are a serial order: that of the commits, if it is one */
    BOOSTMAP_MISSHAPEN = 1,    /* not serializable: the entry with index `number` is the first of the wrong shape */
    BOOSTMAP_TORN = 2,         /* .. the replies of transaction `number` contradict one another */
    BOOSTMAP_UNWRITTEN = 3,    /* .. transaction `number` read what no committed transaction left */
    BOOSTMAP_IMPOSSIBLE = 4,   /* .. transaction `number` read what no serial order gives */
    BOOSTMAP_CYCLE = 5,        /* .. each of the transactions in the links must come before the next one */
    BOOSTMAP_UNDECIDED = 6     /* not known: each of the transactions in the links leaves this value at this key */
};

/* What the judge found by any order. */
typedef struct boostmap_finding {
    uint64_t kind;   /* BOOSTMAP_SERIALIZABLE to BOOSTMAP_UNDECIDED */
    uint64_t number; /* of MISSHAPEN, TORN, UNWRITTEN and IMPOSSIBLE; else 0 */
    uint64_t key;    /* of UNWRITTEN, IMPOSSIBLE and UNDECIDED: the key and the value; else 0 */
    uint64_t value;
    uint64_t has;    /* 0: no value; else 1 */
    uint64_t count;  /* of SERIALIZABLE, CYCLE and UNDECIDED: the number of links; else 0 */
} boostmap_finding;

/* Judges an array of entries, oldest first, by any order of their transactions, as `judge check
 * --serializable` does: is there an order in which each committed transaction has its replies when it runs
 * alone after those before it, from an empty map? If `real_time` is not 0, the order must also have each
 * transaction after those that had committed when it began. docs/VERDICTS.md has the rules ("Serializable").
 * The call needs no handle. The links are written to the front of an array of `places` elements; an order needs one
 * for each COMMITTED entry.
 * 0; 7: too few places: the finding is written, with the number that it needs, and the links are unchanged;
 * 8: the numbers of an entry are no entry of a caller below 64; 30. After 8 and 30 nothing is written */
boostmap_status boostmap_judge_any_order(const boostmap_entry *entries, size_t count, uint32_t real_time,
                                         boostmap_link *links, size_t places, boostmap_finding *finding);

/* Writes the history of a map with one owner, oldest entry first, from the entry with index `first` on:
 * as many entries as there are and as the array of `places` elements has room for. *word: the number of
 * entries of the whole history. It may be fed to a judge of the map's number of stripes. Members that
 * the kind of an entry does not have are 0.    0; 3 */
boostmap_status boostmap_history(boostmap *map, uint64_t first, boostmap_entry *entries, size_t places, uint64_t *word);

/* ---- the history of a striped map ---------------------------------------------------------------
 *
 * A map that was opened with BOOSTMAP_KEEP_ENTRIES hands out its whole history at its end:
 *
 *     boostmap_striped_host(&first, &host);             before `first` is freed
 *     ..                                                each caller is freed, by any thread
 *     boostmap_host_entries(&host, &entries, &count);
 *     boostmap_judge_new(&judge, stripes, BOOSTMAP_HOLDER_BEGUN);
 *     boostmap_judge_feed_all(&judge, entries, count, &fed);
 *     boostmap_judge_verdict(&judge, &verdict);         verdict.is_legal is 1
 *
 * It is proved that this history is legal, and has exactly the entries of the map's callers and of its
 * host. A judge by locks with BOOSTMAP_HOLDER_BEGUN and the map's stripes says so again, if the map has
 * less than 64 callers. Callers are numbered from 1. */

/* A handle of a striped map's host: all zeros, or a host. The program does not touch the fields. */
typedef struct boostmap_host {
    uint64_t tag;
    void *held;
} boostmap_host;

/* Gives the map's host a handle. `first` is the map's first caller, and stays as it is. The host's calls
 * may be made while callers are in calls.
 * 0; 4: `host` is in use; 3: `first` is empty; 10: it is not the first caller, or the host has a handle
 * already; 30 */
boostmap_status boostmap_striped_host(boostmap_caller *first, boostmap_host *host);

/* Writes the whole history of the map, oldest entry first, to the front of an array of `places` elements;
 * *word: the number of entries. Every caller must have been freed, also those that were never joined,
 * which boostmap_striped_free of the first one does. With another status the array is unchanged; after 7
 * *word is the number of places that it needs, and the call took about as long as a full one.
 * 0; 3; 7; 11: the map does not keep its entries; 12: caller *word has not been freed; 30 */
boostmap_status boostmap_host_history(boostmap_host *host, boostmap_entry *entries, size_t places,
                                      uint64_t *word);

/* Frees the host, with the entries of the callers that were freed.    0; 3 */
boostmap_status boostmap_host_free(boostmap_host *host);

/* The whole history, as boostmap_host_history, in a new array that the program frees by free().
 * 0; as boostmap_host_history */
static inline boostmap_status boostmap_host_entries(boostmap_host *host, boostmap_entry **entries,
                                                    uint64_t *word) {
    boostmap_entry one;
    size_t places = 1;
    boostmap_status status = boostmap_host_history(host, &one, places, word);
    if (status != BOOSTMAP_DONE && status != BOOSTMAP_SHORT) return status;
    if (status == BOOSTMAP_SHORT) places = (size_t)*word;
    *entries = (boostmap_entry *)malloc(places * sizeof **entries);
    if (!*entries) return BOOSTMAP_NO_MEMORY;
    status = boostmap_host_history(host, *entries, places, word);
    if (status != BOOSTMAP_DONE) free(*entries);
    return status;
}

/* ---- whole transactions, and more operations ------------------------------------------------------
 *
 * These functions are compiled with the program, and only tested. They make calls of the striped map,
 * and return the statuses of those calls.
 *
 *     boostmap_striped_NAME   an operation in the caller's open transaction
 *     boostmap_caller_NAME    the same as a transaction of its own, which the function begins and
 *                             commits; 20 if the caller has an open transaction. A busy one is
 *                             tried again after a wait, for ever. With a status other than 0 and 1
 *                             nothing has changed. */

/* Waits before a busy transaction is tried again; `*waits` is 0 before the first wait. Four waits
 * yield; the others sleep, each about twice as long as the one before, up to half a millisecond. They
 * are shortened by chance. Threads that do not wait keep one another from committing. */
static inline void boostmap_wait(uint64_t *waits) {
    uint64_t nth = (*waits)++, longest = 500, random;
    struct timeval sleep = {0, 0};
    if (nth < 4) {
        sched_yield();
        return;
    }
    if (nth < 13) longest = (uint64_t)1 << (nth - 4);
    random = ((uint64_t)(uintptr_t)waits + nth) * 6364136223846793005u >> 33;
    sleep.tv_usec = (suseconds_t)(longest - random % (longest / 2 + 1));
    select(0, NULL, NULL, NULL, &sleep);
}

/* Ends a transaction whose operations returned `*status`: commits after 0 and 1, and else aborts. Is 0
 * if a call of this transaction was busy. */
static inline int boostmap_caller_ends(boostmap_caller *caller, boostmap_status *status,
                                       uint64_t *place) {
    int commits = *status <= BOOSTMAP_ABSENT;
    boostmap_status end =
        commits ? boostmap_striped_commit(caller, place) : boostmap_striped_abort(caller);
    if (end == BOOSTMAP_DONE) return 1;
    if (commits) *status = end;
    return *status != BOOSTMAP_BUSY;
}

/* What a transaction does. It neither begins nor ends it, and may run again after it was busy: it
 * should have no effect outside the map. Its status says how the transaction ends: with 0 and 1 it
 * commits, with another status it aborts. */
typedef boostmap_status boostmap_job(boostmap_caller *caller, void *with);

/* Runs a job in a transaction, and returns its status. A busy transaction is tried again at most
 * `tries` times (UINT64_MAX: for ever), of which 1,000 take some 0.4 seconds; a busy call of another
 * map is returned at once. *word: the place of the commit, as boostmap_striped_commit has it.
 * What the job returns; 2; 3; 19, if the job went on after a busy call and returned 0 or 1; 20 */
static inline boostmap_status boostmap_caller_transact(boostmap_caller *caller, uint64_t tries,
                                                       boostmap_job *job, void *with,
                                                       uint64_t *word) {
    uint64_t waits = 0;
    for (;;) {
        boostmap_status status = boostmap_striped_begin(caller);
        if (status != BOOSTMAP_DONE) return status;
        status = job(caller, with);
        if (boostmap_caller_ends(caller, &status, word) || waits == tries) return status;
        boostmap_wait(&waits);
    }
}

/* Adds to the value of the key, 0 if it has none; *word: the value that it had, or 0. After 9 nothing
 * has changed.    0; 1: it had none; 9; as boostmap_striped_put */
static inline boostmap_status boostmap_striped_add(boostmap_caller *caller, uint64_t key,
                                                   int64_t delta, uint64_t *word) {
    uint64_t by = delta < 0 ? 0 - (uint64_t)delta : (uint64_t)delta;
    boostmap_status status = boostmap_striped_get(caller, key, word);
    if (status == BOOSTMAP_ABSENT) *word = 0;
    else if (status != BOOSTMAP_DONE) return status;
    if (delta < 0 ? *word < by : UINT64_MAX - *word < by) return BOOSTMAP_OVERFLOW;
    return boostmap_striped_put(caller, key, delta < 0 ? *word - by : *word + by, word);
}

/* Puts only if the key has no value; *word: the value that it has now.
 * 0; 1: it has been put; as boostmap_striped_put */
static inline boostmap_status boostmap_striped_get_or_put(boostmap_caller *caller, uint64_t key,
                                                          uint64_t value, uint64_t *word) {
    boostmap_status status = boostmap_striped_put_if_absent(caller, key, value, word);
    if (status == BOOSTMAP_ABSENT) *word = value;
    return status;
}

/* The new value of a key: `found` is 0 if the key has the value *value, and 1 if it has none. With 0
 * *value is put, with 1 the key is taken out, and another status is that of the update. */
typedef boostmap_status boostmap_change(void *with, boostmap_status found, uint64_t *value);

/* Lets `change` say the key's new value; *word: the value that it had.
 * 0; 1: it had none; what `change` returns; as boostmap_striped_put */
static inline boostmap_status boostmap_striped_update(boostmap_caller *caller, uint64_t key,
                                                      boostmap_change *change, void *with,
                                                      uint64_t *word) {
    uint64_t value = 0;
    boostmap_status found = boostmap_striped_get(caller, key, word), wanted;
    if (found > BOOSTMAP_ABSENT) return found;
    if (found == BOOSTMAP_DONE) value = *word;
    wanted = change(with, found, &value);
    if (wanted == BOOSTMAP_DONE) return boostmap_striped_put(caller, key, value, word);
    if (wanted > BOOSTMAP_ABSENT || found == BOOSTMAP_ABSENT) return wanted;
    return boostmap_striped_take(caller, key, word);
}

/* All pairs of the map by rising keys, in a new array that the program frees by free(); *word: their
 * number. Takes every stripe, as boostmap_striped_read.
 * 0; as boostmap_striped_count */
static inline boostmap_status boostmap_striped_items(boostmap_caller *caller, boostmap_pair **pairs,
                                                     uint64_t *word) {
    boostmap_status status = boostmap_striped_count(caller, word);
    if (status != BOOSTMAP_DONE) return status;
    *pairs = (boostmap_pair *)malloc((*word + 1) * sizeof **pairs);
    if (!*pairs) return BOOSTMAP_NO_MEMORY;
    status = boostmap_striped_read(caller, *pairs, *word, word);
    if (status != BOOSTMAP_DONE) free(*pairs);
    return status;
}

/* Puts the pairs of an array, in their order.    0; as boostmap_striped_put, with some of them put */
static inline boostmap_status boostmap_striped_put_all(boostmap_caller *caller,
                                                       const boostmap_pair *pairs, size_t count) {
    size_t i;
    for (i = 0; i < count; i++) {
        uint64_t had;
        boostmap_status status = boostmap_striped_put(caller, pairs[i].key, pairs[i].value, &had);
        if (status > BOOSTMAP_ABSENT) return status;
    }
    return BOOSTMAP_DONE;
}

/* Takes every key out; *word: how many there were. Takes every stripe.
 * 0; as boostmap_striped_count, with some of them taken out */
static inline boostmap_status boostmap_striped_clear(boostmap_caller *caller, uint64_t *word) {
    boostmap_pair *pairs;
    uint64_t i, had;
    boostmap_status status = boostmap_striped_items(caller, &pairs, word);
    if (status != BOOSTMAP_DONE) return status;
    for (i = 0; i < *word && status == BOOSTMAP_DONE; i++)
        status = boostmap_striped_take(caller, pairs[i].key, &had);
    free(pairs);
    return status;
}

/* Defines boostmap_caller_NAME by its parameters after the caller and by the operation. */
#define BOOSTMAP_AT_ONCE(NAME, PARAMETERS, OPERATION)                                              \
    static inline boostmap_status boostmap_caller_##NAME PARAMETERS {                              \
        uint64_t waits = 0, place;                                                                 \
        for (;;) {                                                                                 \
            boostmap_status status = boostmap_striped_begin(caller);                               \
            if (status != BOOSTMAP_DONE) return status;                                            \
            status = OPERATION;                                                                    \
            if (boostmap_caller_ends(caller, &status, &place)) return status;                      \
            boostmap_wait(&waits);                                                                 \
        }                                                                                          \
    }

BOOSTMAP_AT_ONCE(get, (boostmap_caller *caller, uint64_t key, uint64_t *word),
                 boostmap_striped_get(caller, key, word))
BOOSTMAP_AT_ONCE(take, (boostmap_caller *caller, uint64_t key, uint64_t *word),
                 boostmap_striped_take(caller, key, word))
BOOSTMAP_AT_ONCE(put, (boostmap_caller *caller, uint64_t key, uint64_t value, uint64_t *word),
                 boostmap_striped_put(caller, key, value, word))
BOOSTMAP_AT_ONCE(put_if_absent,
                 (boostmap_caller *caller, uint64_t key, uint64_t value, uint64_t *word),
                 boostmap_striped_put_if_absent(caller, key, value, word))
BOOSTMAP_AT_ONCE(put_if_equal,
                 (boostmap_caller *caller, uint64_t key, uint64_t expected, uint64_t value,
                  uint64_t *word),
                 boostmap_striped_put_if_equal(caller, key, expected, value, word))
BOOSTMAP_AT_ONCE(add, (boostmap_caller *caller, uint64_t key, int64_t delta, uint64_t *word),
                 boostmap_striped_add(caller, key, delta, word))
BOOSTMAP_AT_ONCE(get_or_put,
                 (boostmap_caller *caller, uint64_t key, uint64_t value, uint64_t *word),
                 boostmap_striped_get_or_put(caller, key, value, word))
BOOSTMAP_AT_ONCE(update,
                 (boostmap_caller *caller, uint64_t key, boostmap_change *change, void *with,
                  uint64_t *word),
                 boostmap_striped_update(caller, key, change, with, word))
BOOSTMAP_AT_ONCE(count, (boostmap_caller *caller, uint64_t *word),
                 boostmap_striped_count(caller, word))
BOOSTMAP_AT_ONCE(read_stripe,
                 (boostmap_caller *caller, uint64_t key, boostmap_pair *pairs, size_t places,
                  uint64_t *word),
                 boostmap_striped_read_stripe(caller, key, pairs, places, word))
BOOSTMAP_AT_ONCE(items, (boostmap_caller *caller, boostmap_pair **pairs, uint64_t *word),
                 boostmap_striped_items(caller, pairs, word))
BOOSTMAP_AT_ONCE(put_all, (boostmap_caller *caller, const boostmap_pair *pairs, size_t count),
                 boostmap_striped_put_all(caller, pairs, count))
BOOSTMAP_AT_ONCE(clear, (boostmap_caller *caller, uint64_t *word),
                 boostmap_striped_clear(caller, word))
#undef BOOSTMAP_AT_ONCE

#ifdef __cplusplus
}
#endif
#endif
