#!/usr/bin/env python3
"""A small transactional store that records its own history, to be judged by `boostmap check`.

    samples/judge/store.py >history.json
    samples/judge/store.py --bug oldest_first --last --seed 3 >history.json
    samples/judge/store.py --bugs          lists the bugs that can be planted

Threads run random transactions on a dictionary with a lock for each key modulo STRIPES. A
transaction that finds a lock held gives up. Every entry is noted under one guard, at the moment
when its event happens: that is all that recording needs.
"""
import argparse
import json
import random
import sys
import threading
import time

STRIPES = 16
KEYS = 40
WORKERS = 6

BUGS = {
    "oldest_first": "undoing begins with the oldest change",
    "keeps_the_first_put": "undoing leaves a key there that the transaction added",
    "keeps_the_last_change": "an abort leaves the newest change as it is, and says that it undid it",
    "take_without_inverse": "no inverse is logged for a take",
    "dirty_read": "a get takes no lock",
    "early_release": "now and then an operation gives its lock back at once",
    "release_before_undo": "an abort gives the locks back before it undoes anything",
    "release_before_commit": "a commit gives the locks back before its place is drawn",
    "release_at_return": "going back to a savepoint gives the locks back",
    "wrong_stripe": "a get locks another stripe than its key's",
    "lost_update": "operations answer what the keys had when the transaction began",
    "stale_read": "now and then a get answers the value before the last put",
    "savepoint_dropped": "going back to a savepoint drops that savepoint too",
    "savepoint_below": "going back to a savepoint goes back to the one below it",
    "same_number_twice": "now and then two transactions get one number",
}


class Busy(Exception):
    """Another transaction holds the lock."""


class Store:
    """A dictionary, its locks, and the history of both."""

    def __init__(self, content=(), bug=None):
        self.bug = bug
        self.guard = threading.Lock()
        self.pairs = {}
        self.before = {}
        self.holders = [None] * STRIPES
        self.begun = self.committed = 0
        self.entries = []
        # A history begins with an empty map, so a store that is not empty puts its content first.
        if content:
            first = Transaction(self, 0)
            for key, value in content:
                first.put(key, value)
            first.commit()

    def note(self, *entry):
        """Adds an entry. The caller has the guard."""
        self.entries.append(entry)

    def is_due(self, bug, share):
        """Whether a bug that shows in a share of the calls shows in this one."""
        return self.bug == bug and random.random() < share

    def history(self):
        return {"version": 1, "stripes": STRIPES, "entries": self.entries}


class Transaction:
    """A transaction of one caller, from its begin to its commit or abort."""

    def __init__(self, store, caller):
        self.store, self.caller = store, caller
        # The inverse of each change (a key and the value that it had), and the number of inverses
        # at each savepoint.
        self.inverses, self.savepoints, self.stripes = [], [], set()
        with store.guard:
            if not store.is_due("same_number_twice", 0.1):
                store.begun += 1
            store.note("began", caller, store.begun)
            self.at_begin = dict(store.pairs)

    def get(self, key):
        return self.operate("get", key)

    def put(self, key, value):
        return self.operate("put", key, value)

    def take(self, key):
        return self.operate("take", key)

    def operate(self, kind, key, *value):
        self.lock(kind, key, *value)
        pause()
        store = self.store
        with store.guard:
            old = store.pairs.get(key)
            if store.bug == "lost_update" and key not in [k for k, _ in self.inverses]:
                old = self.at_begin.get(key)
            if kind == "get" and store.is_due("stale_read", 0.2):
                old = store.before.get(key, old)
            store.note("did", self.caller, old)
            if kind == "put":
                self.inverses.append((key, old))
                store.before[key] = old
                store.pairs[key] = value[0]
            elif kind == "take" and old is not None:
                if store.bug != "take_without_inverse":
                    self.inverses.append((key, old))
                store.pairs.pop(key, None)
            if store.is_due("early_release", 0.05):
                self.release([key % STRIPES])
        return old

    def lock(self, kind, key, *value):
        store, stripe = self.store, key % STRIPES
        if kind == "get" and store.bug == "wrong_stripe":
            stripe = key * 7 % STRIPES
        with store.guard:
            holder = store.holders[stripe]
            if kind == "get" and store.bug == "dirty_read":
                holder = self.caller
            elif holder in (None, self.caller):
                store.holders[stripe] = self.caller
                self.stripes.add(stripe)
            # "asked" is noted when the lock is granted, not when it is requested.
            if holder in (None, self.caller):
                store.note("asked", self.caller, kind, key, *value)
                return
            store.note("busy", self.caller, kind, key, *value, holder)
            self.give_up()
        raise Busy

    def save(self):
        with self.store.guard:
            self.savepoints.append(len(self.inverses))
            self.store.note("saved", self.caller)

    def back(self, level):
        """Goes back to a savepoint, counted from 1, or to the begin, 0."""
        store = self.store
        with store.guard:
            store.note("leave", self.caller, level)
            to = level - 1 if store.bug == "savepoint_below" and level else level
            # A level that has no savepoint is taken as the begin.
            self.undo(self.savepoints[to - 1] if 0 < to <= len(self.savepoints) else 0)
            del self.savepoints[level - (store.bug == "savepoint_dropped" and level > 0):]
            if store.bug == "release_at_return":
                self.release(list(self.stripes))
            store.note("returned", self.caller, level)

    def abort(self):
        store = self.store
        with store.guard:
            store.note("leave", self.caller, None)
            if store.bug == "release_before_undo":
                self.release(list(self.stripes))
        pause()
        with store.guard:
            self.give_up()

    def commit(self):
        store = self.store
        if store.bug == "release_before_commit":
            with store.guard:
                self.release(list(self.stripes))
            pause()
        # "committed" is noted before the first lock is given back.
        with store.guard:
            store.committed += 1
            store.note("committed", self.caller, store.committed)
            self.release(list(self.stripes))

    def give_up(self):
        """Undoes everything, and ends. The caller has the guard."""
        if self.store.bug == "keeps_the_last_change" and self.inverses:
            self.inverses.pop()
            self.store.note("undone", self.caller)
        self.undo(0)
        self.store.note("aborted", self.caller)
        self.release(list(self.stripes))

    def undo(self, kept):
        """Runs the inverses above the first `kept`, newest first; notes "undone" for each."""
        store = self.store
        above = self.inverses[kept:]
        del self.inverses[kept:]
        for key, old in above if store.bug == "oldest_first" else reversed(above):
            if old is not None:
                store.pairs[key] = old
            elif store.bug != "keeps_the_first_put":
                store.pairs.pop(key, None)
            store.note("undone", self.caller)

    def release(self, stripes):
        for stripe in stripes:
            if self.store.holders[stripe] == self.caller:
                self.store.holders[stripe] = None
            self.stripes.discard(stripe)


def pause():
    """Lets another thread in."""
    time.sleep(0.00001)


def one_transaction(store, caller, draw):
    """Runs a random transaction of up to ten actions."""
    transaction, savepoints = Transaction(store, caller), 0
    for _ in range(draw.randint(1, 10)):
        kind, key = draw.random(), draw.randrange(KEYS)
        if kind < 0.3:
            transaction.get(key)
        elif kind < 0.6:
            transaction.put(key, draw.randrange(1000))
        elif kind < 0.72:
            transaction.take(key)
        elif kind < 0.86:
            transaction.save()
            savepoints += 1
        else:
            savepoints = draw.randint(0, savepoints)
            transaction.back(savepoints)
    if draw.random() < 0.25:
        transaction.abort()
    else:
        transaction.commit()


def work(store, caller, count, seed):
    draw = random.Random(1000 * seed + caller)
    for _ in range(count):
        try:
            one_transaction(store, caller, draw)
        except Busy:
            pass


def main():
    words = argparse.ArgumentParser(description="Prints the history of a small store.")
    words.add_argument("--bug", choices=BUGS, help="plants this bug")
    words.add_argument("--bugs", action="store_true", help="lists the bugs, and ends")
    words.add_argument("--count", type=int, default=60, help="transactions of each worker")
    words.add_argument("--last", action="store_true", help="a last transaction gets every key")
    words.add_argument("--seed", type=int, default=1, help="of what the transactions do")
    asked = words.parse_args()
    if asked.bugs:
        for bug, text in BUGS.items():
            print(f"{bug}: {text}")
        return
    sys.setswitchinterval(0.00001)
    random.seed(asked.seed)
    store = Store([(key, 500) for key in range(0, KEYS, 4)], asked.bug)
    threads = [
        threading.Thread(target=work, args=(store, caller, asked.count, asked.seed))
        for caller in range(WORKERS)
    ]
    for thread in threads:
        thread.start()
    for thread in threads:
        thread.join()
    if asked.last:
        last = Transaction(store, 0)
        try:
            for key in range(KEYS):
                last.get(key)
            last.commit()
        except Busy:
            pass
    json.dump(store.history(), sys.stdout, separators=(",", ":"))
    print()


if __name__ == "__main__":
    main()
