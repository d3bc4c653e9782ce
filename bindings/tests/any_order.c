/* The judge by any order: the small histories of docs/VERDICTS.md and others, with findings worked out by hand; each
 * status; and the order of a long history. Status 30 is in no_memory.c. */
#include "boostmap.h"
#include "check.h"
#include <string.h>

enum { MOST = 16 };

static boostmap_entry began(uint64_t c, uint64_t number) {
    return (boostmap_entry){.kind = BOOSTMAP_BEGAN, .caller = c, .number = number};
}
static boostmap_entry asked(uint64_t c, uint32_t operation, uint64_t key, uint64_t value) {
    return (boostmap_entry){.kind = BOOSTMAP_ASKED, .caller = c, .operation = operation, .key = key, .value = value};
}
static boostmap_entry did(uint64_t c, uint64_t has, uint64_t value) {
    return (boostmap_entry){.kind = BOOSTMAP_DID, .caller = c, .has = has, .value = value};
}
static boostmap_entry committed(uint64_t c, uint64_t number) {
    return (boostmap_entry){.kind = BOOSTMAP_COMMITTED, .caller = c, .number = number};
}
static boostmap_entry of_kind(uint32_t kind, uint64_t c) { return (boostmap_entry){.kind = kind, .caller = c}; }

/* An operation and its reply, none or a value. */
#define GETS(c, key, ...) asked(c, BOOSTMAP_GET, key, 0), did(c, __VA_ARGS__)
#define PUTS(c, key, value, ...) asked(c, BOOSTMAP_PUT, key, value), did(c, __VA_ARGS__)
#define TAKES(c, key, ...) asked(c, BOOSTMAP_TAKE, key, 0), did(c, __VA_ARGS__)
#define NONE 0, 0
#define SOME(value) 1, value

static int is_equal(boostmap_finding a, boostmap_finding b) {
    return a.kind == b.kind && a.number == b.number && a.key == b.key && a.value == b.value && a.has == b.has &&
           a.count == b.count;
}

/* Whether the links from the one at `start` on, round the circle, are these. */
static int are_from(const boostmap_link *links, uint64_t count, uint64_t start, const boostmap_link *due) {
    for (uint64_t i = 0; i < count; i++) {
        boostmap_link a = links[(start + i) % count], b = due[i];
        if (a.transaction != b.transaction || a.kind != b.kind || a.key != b.key || a.value != b.value || a.has != b.has)
            return 0;
    }
    return 1;
}

/* Judges entries: the finding and its links must be these, a cycle from any of its links on. With exactly the places
 * that are needed and with more, the rest of the array stays as it is; with one too few all of it. */
static void finds_if(uint32_t real_time, const boostmap_entry *entries, size_t count, boostmap_finding due,
                     const boostmap_link *links) {
    boostmap_link array[MOST + 1], before[MOST + 1];
    boostmap_finding found;
    uint64_t start = 0;
    memset(before, 0x55, sizeof before);
    for (size_t places = due.count; places <= MOST; places += MOST - due.count) {
        memcpy(array, before, sizeof before);
        memset(&found, 0x55, sizeof found);
        CHECK(boostmap_judge_any_order(entries, count, real_time, array, places, &found) == BOOSTMAP_DONE);
        CHECK(is_equal(found, due));
        if (due.kind == BOOSTMAP_CYCLE)
            while (start < due.count && !are_from(array, due.count, start, links)) start++;
        CHECK(due.count == 0 || (start < due.count && are_from(array, due.count, start, links)));
        CHECK(!memcmp(array + due.count, before, (MOST + 1 - due.count) * sizeof *array));
    }
    if (due.count == 0) return;
    memcpy(array, before, sizeof before);
    memset(&found, 0x55, sizeof found);
    CHECK(boostmap_judge_any_order(entries, count, real_time, array, due.count - 1, &found) == BOOSTMAP_SHORT);
    CHECK(is_equal(found, due) && !memcmp(array, before, sizeof before));
}

static void finds(const boostmap_entry *entries, size_t count, boostmap_finding due, const boostmap_link *links) {
    finds_if(0, entries, count, due, links);
}

#define ENTRIES(...) (boostmap_entry[]){__VA_ARGS__}, sizeof((boostmap_entry[]){__VA_ARGS__}) / sizeof(boostmap_entry)
/* A finding without links, of a transaction's or an entry's number, and a key with none or a value. */
#define FINDS(KIND, NUMBER, KEY, HAS_AND_VALUE, ...) \
    finds(ENTRIES(__VA_ARGS__), finding(KIND, NUMBER, KEY, HAS_AND_VALUE), NULL)
static boostmap_finding finding(uint64_t kind, uint64_t number, uint64_t key, uint64_t has, uint64_t value) {
    return (boostmap_finding){.kind = kind, .number = number, .key = key, .has = has, .value = value};
}

/* A serial order, whose transactions are in an array. */
static void is_ordered(const boostmap_entry *entries, size_t count, const uint64_t *order, size_t length) {
    boostmap_link links[MOST] = {{0}};
    for (size_t i = 0; i < length; i++) links[i].transaction = order[i];
    finds(entries, count, (boostmap_finding){.kind = BOOSTMAP_SERIALIZABLE, .count = length}, links);
}
#define ORDER(...) (uint64_t[]){__VA_ARGS__}, sizeof((uint64_t[]){__VA_ARGS__}) / sizeof(uint64_t)

static boostmap_link read_of(uint64_t transaction, uint64_t key, uint64_t has, uint64_t value) {
    return (boostmap_link){transaction, BOOSTMAP_LINK_READ, key, value, has};
}
static boostmap_link replaced(uint64_t transaction, uint64_t key, uint64_t has, uint64_t value) {
    return (boostmap_link){transaction, BOOSTMAP_LINK_REPLACED, key, value, has};
}
static void is_cycle(const boostmap_entry *entries, size_t count, const boostmap_link *links, size_t length) {
    finds(entries, count, (boostmap_finding){.kind = BOOSTMAP_CYCLE, .count = length}, links);
}
#define CYCLE(...) (boostmap_link[]){__VA_ARGS__}, sizeof((boostmap_link[]){__VA_ARGS__}) / sizeof(boostmap_link)

static void serializable(void) {
    boostmap_entry none = began(0, 1);
    uint64_t nothing = 0;
    is_ordered(&none, 0, &nothing, 0);
    is_ordered(&none, 1, &nothing, 0);
    is_ordered(ENTRIES(began(0, 1), asked(0, BOOSTMAP_PUT, 1, 5)), &nothing, 0);
    /* Two that read a key at the same time. */
    is_ordered(ENTRIES(began(0, 1), began(1, 2), GETS(0, 1, NONE), GETS(1, 1, NONE), committed(0, 1), committed(1, 2)),
               ORDER(1, 2));
    /* The order of the commits is one. */
    is_ordered(ENTRIES(began(0, 1), began(1, 2), GETS(0, 1, NONE), GETS(1, 1, NONE), committed(1, 1), committed(0, 2)),
               ORDER(2, 1));
    /* A wrong reply, aborted. */
    is_ordered(ENTRIES(began(0, 1), GETS(0, 1, SOME(7)), of_kind(BOOSTMAP_LEAVE, 0), of_kind(BOOSTMAP_ABORTED, 0)), &nothing, 0);
    /* A reader that commits after the writer, and comes before it. */
    is_ordered(ENTRIES(began(0, 1), began(1, 2), GETS(0, 1, NONE), PUTS(1, 1, 5, NONE), committed(1, 1), committed(0, 2)),
               ORDER(1, 2));
    /* A read of a change that is open, whose writer commits last. */
    is_ordered(ENTRIES(began(0, 1), began(1, 2), PUTS(0, 1, 5, NONE), GETS(1, 1, SOME(5)), committed(1, 1), committed(0, 2)),
               ORDER(1, 2));
    /* A change that is taken back leaves nothing. */
    is_ordered(ENTRIES(began(0, 1), of_kind(BOOSTMAP_SAVED, 0), PUTS(0, 1, 5, NONE),
                       ((boostmap_entry){.kind = BOOSTMAP_LEAVE, .has = 1, .number = 1}), of_kind(BOOSTMAP_UNDONE, 0),
                       ((boostmap_entry){.kind = BOOSTMAP_RETURNED, .number = 1}), committed(0, 1), began(63, 2),
                       GETS(63, 1, NONE), committed(63, 2)), ORDER(1, 2));
}

static void not_serializable(void) {
    FINDS(BOOSTMAP_MISSHAPEN, 0, 0, NONE, began(0, 2));
    FINDS(BOOSTMAP_MISSHAPEN, 2, 0, NONE, began(0, 1), began(1, 2), committed(0, 2), began(0, 1));
    FINDS(BOOSTMAP_TORN, 1, 0, NONE, began(0, 1), GETS(0, 1, NONE), GETS(0, 1, SOME(5)), committed(0, 1));
    FINDS(BOOSTMAP_UNWRITTEN, 1, 1, SOME(7), began(0, 1), GETS(0, 1, SOME(7)), committed(0, 1));
    /* The value of a transaction that aborts, by another caller than the first. */
    FINDS(BOOSTMAP_UNWRITTEN, 2, 1, SOME(5), began(0, 1), PUTS(0, 1, 5, NONE), began(1, 2), GETS(1, 1, SOME(5)),
          of_kind(BOOSTMAP_LEAVE, 0), of_kind(BOOSTMAP_UNDONE, 0), of_kind(BOOSTMAP_ABORTED, 0), committed(1, 1));
    /* 3 reads 6 of 1 at key 2, so it comes after 1 and before 2, which replaces it; but before 2 key 1 has 5. */
    FINDS(BOOSTMAP_IMPOSSIBLE, 3, 1, NONE, began(0, 1), PUTS(0, 1, 5, NONE), PUTS(0, 2, 6, NONE), committed(0, 1), began(0, 2),
          TAKES(0, 1, SOME(5)), PUTS(0, 2, 7, SOME(6)), committed(0, 2), began(0, 3), GETS(0, 1, NONE), GETS(0, 2, SOME(6)),
          committed(0, 3));
    /* Three put 5 where there was nothing, and only one takes it away. */
    finds(ENTRIES(began(0, 1), PUTS(0, 1, 5, NONE), committed(0, 1), began(0, 2), PUTS(0, 1, 5, NONE), committed(0, 2),
                  began(0, 3), PUTS(0, 1, 5, NONE), committed(0, 3), began(0, 4), TAKES(0, 1, SOME(5)), committed(0, 4)),
          (boostmap_finding){.kind = BOOSTMAP_UNDECIDED, .key = 1, .count = 1}, &(boostmap_link){.transaction = 4});
}

static void cycles(void) {
    /* Write skew. */
    is_cycle(ENTRIES(began(0, 1), began(1, 2), GETS(0, 1, NONE), GETS(1, 2, NONE), PUTS(0, 2, 5, NONE), PUTS(1, 1, 6, NONE),
                     committed(0, 1), committed(1, 2)), CYCLE(replaced(1, 1, NONE), replaced(2, 2, NONE)));
    /* A lost update of a value. */
    is_cycle(ENTRIES(began(0, 1), PUTS(0, 1, UINT64_MAX, NONE), committed(0, 1), began(0, 2), began(1, 3),
                     PUTS(0, 1, 6, SOME(UINT64_MAX)), PUTS(1, 1, 7, SOME(UINT64_MAX)), committed(0, 2), committed(1, 3)),
             CYCLE(replaced(2, 1, SOME(UINT64_MAX)), replaced(3, 1, SOME(UINT64_MAX))));
    /* Each reads what the other one puts. */
    is_cycle(ENTRIES(began(0, 1), began(1, 2), PUTS(0, 1, 5, NONE), PUTS(1, 2, 6, NONE), GETS(0, 2, SOME(6)),
                     GETS(1, 1, SOME(5)), committed(0, 1), committed(1, 2)),
             CYCLE(read_of(1, 1, SOME(5)), read_of(2, 2, SOME(6))));
    /* A reader between two puts of one transaction. */
    is_cycle(ENTRIES(began(0, 1), GETS(0, 1, NONE), began(1, 2), PUTS(1, 1, 5, NONE), PUTS(1, 2, 6, NONE), committed(1, 1),
                     GETS(0, 2, SOME(6)), committed(0, 2)), CYCLE(replaced(1, 1, NONE), read_of(2, 2, SOME(6))));
    /* Three, each of which replaces what the one before it read: 1 before 3 before 2 before 1. */
    is_cycle(ENTRIES(began(0, 1), began(1, 2), began(2, 3), GETS(0, 1, NONE), GETS(1, 2, NONE), GETS(2, 3, NONE),
                     PUTS(0, 2, 5, NONE), PUTS(1, 3, 6, NONE), PUTS(2, 1, 7, NONE), committed(0, 1), committed(1, 2),
                     committed(2, 3)), CYCLE(replaced(1, 1, NONE), replaced(3, 3, NONE), replaced(2, 2, NONE)));
}

/* 2 began after 1 had committed, and read the state before it. Any number but 0 asks for real time. */
static void in_real_time(void) {
    const boostmap_entry entries[] = {began(0, 1), PUTS(0, 1, 5, NONE), committed(0, 1), began(7, 2), GETS(7, 1, NONE),
                                      committed(7, 2)};
    const boostmap_link links[] = {{.transaction = 1, .kind = BOOSTMAP_LINK_BEGAN}, replaced(2, 1, NONE)};
    const boostmap_finding cycle = {.kind = BOOSTMAP_CYCLE, .count = 2};
    is_ordered(entries, sizeof entries / sizeof *entries, ORDER(2, 1));
    finds_if(1, entries, sizeof entries / sizeof *entries, cycle, links);
    finds_if(UINT32_MAX, entries, sizeof entries / sizeof *entries, cycle, links);
    /* One that began before the commit may read that state. */
    boostmap_entry early[] = {began(7, 1), began(0, 2), PUTS(0, 1, 5, NONE), committed(0, 1), GETS(7, 1, NONE), committed(7, 2)};
    finds_if(1, early, sizeof early / sizeof *early, (boostmap_finding){.kind = BOOSTMAP_SERIALIZABLE, .count = 2},
             (boostmap_link[]){{.transaction = 1}, {.transaction = 2}});
}

/* Numbers that are no entry, wherever they stand: nothing is written, also if an entry before is of the wrong shape. */
static void no_entries(void) {
    const boostmap_entry rows[] = {of_kind(0, 0), of_kind(11, 0), asked(0, 0, 1, 1), asked(0, 5, 1, 1), began(64, 1),
                                   began(UINT64_MAX, 1)};
    boostmap_link links[4], before[4];
    boostmap_finding found, untouched;
    memset(before, 0x55, sizeof before);
    memset(&untouched, 0x55, sizeof untouched);
    for (size_t i = 0; i < sizeof rows / sizeof *rows; i++)
        for (int place = 0; place < 3; place++)
            for (uint64_t number = 1; number <= 2; number++) {
                boostmap_entry entries[] = {began(0, number), committed(0, 1), began(1, 2)};
                entries[place] = rows[i];
                memcpy(links, before, sizeof before);
                found = untouched;
                CHECK(boostmap_judge_any_order(entries, 3, 0, links, 4, &found) == BOOSTMAP_NO_ENTRY);
                CHECK(!memcmp(&found, &untouched, sizeof found) && !memcmp(links, before, sizeof before));
            }
}

/* Each caller in turn puts a number at its own key, 64 transactions at a time, which commit in the order of their callers,
 * or in the reverse of it. */
static void a_long_history(void) {
    enum { ROUNDS = 1000, CALLERS = 64, COUNT = ROUNDS * CALLERS };
    boostmap_entry *entries = malloc(4 * COUNT * sizeof *entries), *next = entries;
    boostmap_link *links = malloc(COUNT * sizeof *links);
    uint64_t *order = malloc(COUNT * sizeof *order);
    boostmap_finding found;
    CHECK(entries && links && order);
    for (uint64_t r = 0; r < ROUNDS; r++) {
        for (uint64_t c = 0; c < CALLERS; c++) {
            *next++ = began(c, r * CALLERS + c + 1);
            *next++ = asked(c, BOOSTMAP_PUT, c, r);
            *next++ = did(c, r > 0, r - 1);
        }
        for (uint64_t i = 0; i < CALLERS; i++) {
            uint64_t c = r % 2 ? CALLERS - 1 - i : i, place = r * CALLERS + i;
            *next++ = committed(c, place + 1);
            order[place] = r * CALLERS + c + 1;
        }
    }
    CHECK(boostmap_judge_any_order(entries, 4 * COUNT, 0, links, COUNT, &found) == BOOSTMAP_DONE);
    CHECK(is_equal(found, (boostmap_finding){.kind = BOOSTMAP_SERIALIZABLE, .count = COUNT}));
    for (size_t i = 0; i < COUNT; i++)
        CHECK(links[i].transaction == order[i] && links[i].kind == BOOSTMAP_LINK_ORDER && links[i].key == 0 &&
              links[i].value == 0 && links[i].has == 0);
    free(entries);
    free(links);
    free(order);
}

int main(void) {
    serializable();
    not_serializable();
    cycles();
    in_real_time();
    no_entries();
    a_long_history();
    return 0;
}
