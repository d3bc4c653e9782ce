#!/usr/bin/env -S python3 -B
"""Judges drawn histories by `judge check --commit-order` and by plain_serial_judge.py.

    tests/forged_serial.py PROGRAM COUNT SEED

The histories are those of a store without locks, drawn from the seed: its transactions read the
committed map or changes that others have not committed, go back to savepoints, abort, and mostly
commit only if what they read first is still committed. Some entries are then forged: left out,
doubled, swapped with the next one, or given another reply. Verdict and exit status must be the same,
and standard error empty; a history that is legal by locks must be legal here. The last line is
'forged: N passed, M failed', and the status is 1 if M is not 0.
"""
import collections
import json
import random
import subprocess
import sys

import plain_judge
import plain_serial_judge

CALLERS = [0, 1, 2, 63]
KEYS = [0, 1, 2**64 - 1]
VALUES = [0, 1, 2, 2**64 - 1]


class Store:
    """A store that records what its transactions ask and what it tells them. To some it lies."""

    def __init__(self, draws):
        self.draws = draws
        self.entries = []
        self.committed = {}
        self.running = {}
        self.began = self.commits = 0

    def seen(self, txn, key):
        """The reply to a transaction at a key: mostly its own value, or the committed one."""
        if key in txn["own"]:
            return txn["own"][key]
        if self.draws.random() < 0.1:
            others = [it["own"].get(key) for it in self.running.values()]
            return self.draws.choice([*others, *VALUES])
        return self.committed.get(key)

    def value(self):
        """A value to put."""
        return self.draws.choice(VALUES)

    def ask(self, caller, txn):
        word, key = self.draws.choice(["get", "put", "take", "put_if"]), self.draws.choice(KEYS)
        reply = self.seen(txn, key)
        rest = {"put": [self.value()]}
        expected = self.draws.choice([reply, None, *VALUES])
        rest["put_if"] = [expected, self.value()]
        op = [word, key, *rest.get(word, [])]
        self.entries.append(["asked", caller, *op])
        if self.draws.random() < 0.02:
            return self.give_up(caller, txn)
        self.entries.append(["did", caller, reply])
        txn["reads"].setdefault(key, reply)
        if plain_judge.is_change(op, reply):
            txn["undo"].append((key, reply))
        txn["own"][key] = plain_judge.after({key: reply} if reply is not None else {}, op).get(key)
        return None

    def undo(self, caller, txn, standing):
        while len(txn["undo"]) > standing:
            key, before = txn["undo"].pop()
            txn["own"][key] = before
            self.entries.append(["undone", caller])

    def go_back(self, caller, txn):
        level = self.draws.randrange(len(txn["levels"]))
        self.entries.append(["leave", caller, level])
        self.undo(caller, txn, txn["levels"][level])
        self.entries.append(["returned", caller, level])
        del txn["levels"][level + 1 :]

    def give_up(self, caller, txn):
        self.entries.append(["leave", caller, None])
        self.undo(caller, txn, 0)
        self.entries.append(["aborted", caller])
        del self.running[caller]

    def end(self, caller, txn):
        is_valid = all(self.committed.get(key) == it for key, it in txn["reads"].items())
        if not is_valid and self.draws.random() < 0.6:
            return self.give_up(caller, txn)
        for key, value in txn["own"].items():
            self.committed.pop(key, None)
            if value is not None:
                self.committed[key] = value
        self.commits += 1
        self.entries.append(["committed", caller, self.commits])
        del self.running[caller]
        return None

    def step(self):
        caller = self.draws.choice(CALLERS)
        txn = self.running.get(caller)
        if txn is None:
            self.began += 1
            self.entries.append(["began", caller, self.began])
            self.running[caller] = {"own": {}, "reads": {}, "undo": [], "levels": [0]}
            return
        chance = self.draws.random()
        if chance < 0.5:
            self.ask(caller, txn)
        elif chance < 0.6:
            self.entries.append(["saved", caller])
            txn["levels"].append(len(txn["undo"]))
        elif chance < 0.7:
            self.go_back(caller, txn)
        elif chance < 0.75:
            self.give_up(caller, txn)
        else:
            self.end(caller, txn)


def forged(entries, draws):
    """The entries with one reply changed, or one entry left out, doubled or swapped; or unchanged."""
    replies = [i for i, entry in enumerate(entries[:-1]) if entry[0] == "did"]
    every = range(len(entries) - 1)
    i = draws.choice(replies if replies and draws.random() < 0.6 else every)
    entry, behind = entries[i], entries[i + 1]
    ways = [[entry, behind]] * 3 + [[behind], [entry, entry, behind], [behind, entry]]
    if entry[0] == "did":
        ways += [[[*entry[:2], draws.choice([None, *VALUES])], behind]] * 12
    return entries[:i] + draws.choice(ways) + entries[i + 2 :]


def histories(draws):
    """Drawn histories, without end."""
    while True:
        store = Store(draws)
        for _ in range(draws.randint(5, 30)):
            store.step()
        yield forged(store.entries, draws)


def judged(program, entries):
    file = {"version": 3, "stripes": 4096, "entries": entries}
    text = json.dumps(file, separators=(",", ":"))
    words = [program, "check", "--commit-order", "/dev/stdin"]
    found = subprocess.run(words, input=text, capture_output=True, text=True)
    return found.stdout, found.stderr, found.returncode


def main():
    program, count, seed = sys.argv[1], int(sys.argv[2]), int(sys.argv[3])
    tally, failed = collections.Counter(), 0
    drawn = histories(random.Random(seed))
    for entries in (next(drawn) for _ in range(count)):
        line = plain_serial_judge.verdict(entries)
        found = judged(program, entries)
        by_locks = plain_judge.verdict(entries, 4096, 3).startswith("legal")
        is_legal = line.startswith("legal")
        if found != (line + "\n", "", int(not is_legal)) or (by_locks and not is_legal):
            failed += 1
            print(f"forged: wanted {line}, found {found}: {entries}", file=sys.stderr)
        tally["legal by locks" if by_locks else "legal" if is_legal else line[-6:]] += 1
    told = ", ".join(f"{tally[kind]} {kind}" for kind in sorted(tally))
    print(f"forged: {told}")
    print(f"forged: {count - failed} passed, {failed} failed")
    return int(failed != 0)


if __name__ == "__main__":
    sys.exit(main())
