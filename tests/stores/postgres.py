#!/usr/bin/env -S python3 -B
"""Runs drawn transactions on a real PostgreSQL, and has them judged by `judge check --serializable`.

    tests/stores/postgres.py                     each level with the seeds 1 to 20, by the plain judge
    tests/stores/postgres.py --judge PROGRAM     by this program instead
    tests/stores/postgres.py --level serializable --seed 3 --write >history.json
    tests/stores/postgres.py --counter           with a counter that each transaction raises
    tests/stores/postgres.py --real-time         judged with real time

Twelve connections run transactions of two to five gets and puts on 20 keys. They are recorded as
docs/JUDGE.md says: each entry when its caller sees it happen. At READ COMMITTED and at REPEATABLE READ
the history must not be serializable, at SERIALIZABLE it must be, with --real-time too. The last line is
'postgres: N passed, M failed', and the status is 1 if M is not 0. With --counter no two transactions
overlap that both commit, so at REPEATABLE READ the history must be serializable too: the counter hides the
write skew. With --takes a history may be undecided, which counts as failed.
"""
import argparse
import collections
import json
import os
import random
import subprocess
import sys
import threading
import time

from server import Refused, Server

sys.path.insert(0, os.path.dirname(os.path.dirname(os.path.abspath(__file__))))
import plain_order_judge
import plain_serial_judge

LEVELS = {
    "read-committed": "READ COMMITTED",
    "repeatable-read": "REPEATABLE READ",
    "serializable": "SERIALIZABLE",
}
KEYS = 20
CALLERS = 12
PAUSE = 0.002


class Recorder:
    """The entries of a history, in the order in which the callers see them happen."""

    def __init__(self):
        self.guard, self.entries, self.counts = threading.Lock(), [], collections.Counter()

    def note(self, word, caller, *rest):
        with self.guard:
            self.entries.append([word, caller, *rest])

    def count(self, word, caller):
        """Notes an entry with the next number of its kind."""
        with self.guard:
            self.counts[word] += 1
            self.entries.append([word, caller, self.counts[word]])

    def history(self):
        return {"version": 3, "stripes": 1, "entries": self.entries}


class Transaction:
    """A transaction of one caller on the table `pairs`."""

    def __init__(self, recorder, caller, connection, level):
        self.recorder, self.caller, self.connection = recorder, caller, connection
        self.changes = 0
        recorder.count("began", caller)
        connection.query(f"BEGIN ISOLATION LEVEL {level}")

    def operate(self, name, key, *values):
        """Runs an operation. One that fails stays an `asked` without its `did`."""
        self.recorder.note("asked", self.caller, name, key, *values)
        reply = getattr(self, name)(key, *values)
        self.recorder.note("did", self.caller, reply)
        self.changes += name == "put" or (name == "take" and reply is not None)

    def get(self, key, lock=""):
        rows, _ = self.connection.query(f"SELECT value FROM pairs WHERE key = {key}{lock}")
        return int(rows[0][0]) if rows else None

    def locked(self, key):
        """What a change finds at its key. A plain SELECT might find what is replaced meanwhile."""
        return self.get(key, " FOR UPDATE")

    def put(self, key, value):
        while True:
            reply = self.locked(key)
            if reply is not None:
                self.connection.query(f"UPDATE pairs SET value = {value} WHERE key = {key}")
                return reply
            insert = f"INSERT INTO pairs VALUES ({key}, {value}) ON CONFLICT DO NOTHING"
            if self.connection.query(insert)[1] == "INSERT 0 1":
                return None

    def take(self, key):
        reply = self.locked(key)
        if reply is not None:
            self.connection.query(f"DELETE FROM pairs WHERE key = {key}")
        return reply

    def commit(self, has_counter=False):
        """Commits, and notes it once the server says so."""
        if has_counter:
            self.connection.query("UPDATE places SET place = place + 1 WHERE id = 1")
        self.connection.query("COMMIT")
        self.recorder.count("committed", self.caller)

    def abort(self):
        self.connection.query("ROLLBACK")
        self.recorder.note("leave", self.caller, None)
        for _ in range(self.changes):
            self.recorder.note("undone", self.caller)
        self.recorder.note("aborted", self.caller)


def empty(server):
    """Makes the table, without any row, and the counter."""
    connection = server.connect()
    connection.query("DROP TABLE IF EXISTS pairs, places")
    connection.query("CREATE TABLE pairs (key BIGINT PRIMARY KEY, value BIGINT NOT NULL)")
    connection.query("CREATE TABLE places (id INT PRIMARY KEY, place BIGINT NOT NULL)")
    connection.query("INSERT INTO places VALUES (1, 0)")
    connection.close()


def work(recorder, caller, server, level, words):
    """Runs the transactions of a caller, each with values of its own."""
    draw, connection = random.Random(f"{words.seed} {caller}"), server.connect()
    for number in range(words.transactions // CALLERS):
        transaction = Transaction(recorder, caller, connection, level)
        try:
            for step in range(draw.randint(2, 5)):
                is_take = draw.random() < words.takes / 100
                name = "take" if is_take else draw.choice(["get", "put"])
                values = [caller * 1_000_000 + number * 10 + step] if name == "put" else []
                transaction.operate(name, draw.randrange(KEYS), *values)
                time.sleep(draw.expovariate(1 / PAUSE))
            transaction.commit(words.counter)
        except Refused:
            transaction.abort()
    connection.close()


def run(server, level, words):
    """Runs all callers' transactions on a table whose keys a first transaction has put."""
    empty(server)
    recorder, connection = Recorder(), server.connect()
    first = Transaction(recorder, 0, connection, level)
    for key in range(KEYS):
        first.operate("put", key, CALLERS * 1_000_000 + key)
    first.commit()
    connection.close()
    threads = [
        threading.Thread(target=work, args=(recorder, caller, server, level, words))
        for caller in range(CALLERS)
    ]
    for thread in threads:
        thread.start()
    for thread in threads:
        thread.join()
    ended = recorder.counts["committed"] + sum(it[0] == "aborted" for it in recorder.entries)
    if ended != 1 + CALLERS * (words.transactions // CALLERS):
        sys.exit("a caller did not end")
    return recorder.history()


def verdict(program, history, real_time):
    """The first line of `judge check` on a history, or of the plain judge if there is no program."""
    if program is None:
        return plain_order_judge.judged(history["entries"], real_time)[0]
    check = [program, "check", "--serializable", *["--real-time"] * real_time, "/dev/stdin"]
    found = subprocess.run(check, input=json.dumps(history), capture_output=True, text=True, check=False)
    return (found.stdout + found.stderr).split("\n", 1)[0]


def more(history):
    """What the plain judges say in real time, and by the order in which the commits returned."""
    yield kind(plain_order_judge.judged(history["entries"], real_time=True)[0]) + " in real time"
    yield kind(plain_serial_judge.verdict(history["entries"])) + " by the order of return"


def kind(line):
    """A verdict without its details."""
    return "not serializable" if line.startswith("not ") else line.split()[0]


def is_due(level, line, has_counter):
    """Whether this is the verdict that the level must have."""
    is_serial = level == "SERIALIZABLE" or (has_counter and level == "REPEATABLE READ")
    return kind(line) == ("serializable" if is_serial else "not serializable")


def judge_level(server, level, words):
    """Judges a run of each seed. Returns how many have the verdict that the level must have."""
    tally, passed = collections.Counter(), 0
    for words.seed in range(1, words.seeds + 1):
        history = run(server, level, words)
        line = verdict(words.judge, history, words.real_time)
        passed += is_due(level, line, words.counter)
        tally.update(it[0] for it in history["entries"] if it[0] in ("committed", "aborted"))
        tally[kind(line)] += 1
        if words.more:
            tally.update(more(history))
    told = ", ".join(f"{count} {what}" for what, count in tally.items())
    print(f"{level}: {words.seeds} runs: {told}", flush=True)
    return passed


def main():
    parser = argparse.ArgumentParser(description=__doc__.split("\n", 1)[0])
    parser.add_argument("--level", choices=LEVELS)
    parser.add_argument("--seed", type=int, default=1)
    parser.add_argument("--seeds", type=int, default=20)
    parser.add_argument("--transactions", type=int, default=396)
    parser.add_argument("--takes", type=int, default=0, help="how many of 100 operations are takes")
    parser.add_argument("--judge", metavar="PROGRAM", help="the program judge")
    parser.add_argument("--real-time", action="store_true", help="judge with real time")
    parser.add_argument("--counter", action="store_true", help="each transaction raises a counter")
    parser.add_argument("--more", action="store_true", help="the plain judges judge in other ways too")
    parser.add_argument("--write", action="store_true", help="write one history, and judge nothing")
    words = parser.parse_args()
    with Server() as server:
        if words.write:
            level = LEVELS[words.level or "serializable"]
            history = {"test": "postgres.py", "level": level, **run(server, level, words)}
            print(json.dumps(history, separators=(",", ":")))
            return 0
        print(f"PostgreSQL {server.version()}")
        levels = [words.level] if words.level else LEVELS
        passed = sum(judge_level(server, LEVELS[level], words) for level in levels)
    failed = words.seeds * len(levels) - passed
    print(f"postgres: {passed} passed, {failed} failed")
    return int(failed != 0)


if __name__ == "__main__":
    sys.exit(main())
