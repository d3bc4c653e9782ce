#!/usr/bin/env python3
"""Threads run transactions on a real SQLite database, and record them for `judge`.

    samples/judge/sqlite.py >history.json                        for `judge check --commit-order`
    samples/judge/sqlite.py --no-counter >history.json           for `judge check --serializable`
    samples/judge/sqlite.py --lines | ./judge watch --commit-order
    samples/judge/sqlite.py --shared-cache                       one cache for all connections
    samples/judge/sqlite.py --shared-cache --bug read_uncommitted
    samples/judge/sqlite.py --bug cut                            a COMMIT in the middle of a transaction
    samples/judge/sqlite.py --seed 3 --transactions 2000

Without --shared-cache the database is in WAL mode. The order of commits is the database's own: each
transaction raises a counter before it commits, and the counter's value is its place. A transaction is
written down as a whole, once those at all earlier places are: neither judge looks at how entries
interleave. In WAL mode two transactions that overlap both change the counter, so one of them fails. With
--no-counter there is no counter, and the place is the order in which the commits return.
"""
import argparse
import json
import random
import sqlite3
import sys
import tempfile
import threading
import time

KEYS = 12
WORKERS = 4


class Recorder:
    """Writes transactions down in the order of their places."""

    def __init__(self, write):
        self.write, self.guard = write, threading.Lock()
        self.begun, self.next_place = 0, 1
        # The committed transactions that are not written yet, by their places; and for each caller
        # the transactions that aborted since its last commit.
        self.waiting, self.aborted = {}, {}

    def transaction(self, caller, entries):
        """Writes a transaction down, and gives it the next number."""
        self.begun += 1
        self.write(["began", caller, self.begun])
        for entry in entries:
            self.write(entry)

    def abort(self, caller, entries, changes):
        """Notes an aborted transaction: one `undone` for each of its changes."""
        undoing = [["leave", caller, None], *[["undone", caller]] * changes, ["aborted", caller]]
        with self.guard:
            self.aborted.setdefault(caller, []).append(entries + undoing)

    def commit(self, caller, entries, place):
        """Notes a transaction that committed at a place, or at the next one if it has none. The caller's
        aborted ones precede it."""
        with self.guard:
            place = place or self.next_place
            last = entries + [["committed", caller, place]]
            self.waiting[place] = caller, self.aborted.pop(caller, []) + [last]
            while self.next_place in self.waiting:
                of, found = self.waiting.pop(self.next_place)
                self.next_place += 1
                for each in found:
                    self.transaction(of, each)

    def end(self):
        """Writes down the transactions that aborted after their caller's last commit."""
        for caller, found in self.aborted.items():
            for each in found:
                self.transaction(caller, each)


class Transaction:
    """A transaction of one caller: what it asked for and was told."""

    def __init__(self, caller, database):
        self.caller, self.database = caller, database
        self.entries, self.changes = [], 0
        database.execute("BEGIN")

    def reply(self, key):
        row = self.database.execute("SELECT value FROM pairs WHERE key = ?", (key,)).fetchone()
        return row[0] if row else None

    def operate(self, name, key, *values):
        """Runs an operation, and notes it once the database has answered."""
        reply = self.reply(key)
        if name == "put":
            self.database.execute("INSERT OR REPLACE INTO pairs VALUES (?, ?)", (key, *values))
        elif name == "take":
            self.database.execute("DELETE FROM pairs WHERE key = ?", (key,))
        self.changes += name == "put" or (name == "take" and reply is not None)
        self.entries += [["asked", self.caller, name, key, *values], ["did", self.caller, reply]]

    def commit(self, has_counter):
        """Draws the place, commits, and answers with the place, or with None without the counter."""
        place = None
        if has_counter:
            self.database.execute("UPDATE places SET place = place + 1")
            (place,) = self.database.execute("SELECT place FROM places").fetchone()
        self.database.execute("COMMIT")
        return place


def run(caller, connect, recorder, words):
    """Runs the transactions of a caller. One in five gives up by itself."""
    draw = random.Random(f"{words.seed} {caller}")
    database = connect()
    for number in range(words.transactions // WORKERS):
        transaction = None
        try:
            transaction = Transaction(caller, database)
            for step in range(draw.randrange(1, 5)):
                if words.bug == "cut" and step == 2:
                    database.execute("COMMIT")
                    time.sleep(draw.random() / 4000)
                    database.execute("BEGIN")
                name, key = draw.choice(["get", "get", "put", "put", "take"]), draw.randrange(KEYS)
                values = [caller * 1_000_000 + number * 10 + step] if name == "put" else []
                transaction.operate(name, key, *values)
                time.sleep(draw.random() / 8000)
            if draw.random() < 0.2:
                raise sqlite3.OperationalError
            place = transaction.commit(not words.no_counter)
        except sqlite3.OperationalError:
            # The database is busy or locked, or the transaction read an old snapshot, or it gives
            # up.
            if database.in_transaction:
                database.execute("ROLLBACK")
            if transaction:
                recorder.abort(caller, transaction.entries, transaction.changes)
            time.sleep(draw.random() / 4000)
        else:
            recorder.commit(caller, transaction.entries, place)
    database.close()


def main():
    parser = argparse.ArgumentParser(description=__doc__.split("\n", 1)[0])
    parser.add_argument("--shared-cache", action="store_true", help="one cache for all connections")
    parser.add_argument("--bug", choices=["read_uncommitted", "cut"])
    parser.add_argument("--no-counter", action="store_true", help="the place is the order of return")
    parser.add_argument("--lines", action="store_true", help="an entry a line, as they come")
    parser.add_argument("--seed", type=int, default=1)
    parser.add_argument("--transactions", type=int, default=1200)
    words = parser.parse_args()
    entries = []
    show = lambda entry: print(json.dumps(entry, separators=(",", ":")), flush=True)
    recorder = Recorder(show if words.lines else entries.append)

    with tempfile.TemporaryDirectory() as folder:
        name = f"file:{folder}/store.db" + ("?cache=shared" if words.shared_cache else "")

        def connect():
            database = sqlite3.connect(name, uri=True, isolation_level=None, timeout=0.05)
            if words.bug == "read_uncommitted":
                database.execute("PRAGMA read_uncommitted = 1")
            return database

        first = connect()
        first.execute("PRAGMA synchronous = OFF")
        if not words.shared_cache:
            first.execute("PRAGMA journal_mode = WAL")
        first.execute("CREATE TABLE pairs (key INTEGER PRIMARY KEY, value INTEGER)")
        first.execute("CREATE TABLE places (place INTEGER)")
        first.execute("INSERT INTO places VALUES (0)")
        workers = [
            threading.Thread(target=run, args=(caller, connect, recorder, words))
            for caller in range(WORKERS)
        ]
        for worker in workers:
            worker.start()
        for worker in workers:
            worker.join()
        first.close()
    recorder.end()
    if not words.lines:
        json.dump({"version": 3, "stripes": 1, "entries": entries}, sys.stdout)


if __name__ == "__main__":
    main()
