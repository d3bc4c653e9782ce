#!/usr/bin/env -S python3 -B
"""Judges drawn histories by `judge check --serializable --show-order`, with and without `--real-time`, and
by plain_order_judge.py.

    tests/forged_order.py PROGRAM COUNT SEED

The histories are those of stores without locks, drawn from the seed: their transactions read the
committed map or a snapshot of it, go back to savepoints and abort; the first to commit may win or
not; each value may be put once or many times. Some are written down in another order, and in some
an entry is forged (forged_serial.py). All orders are tried if there are at most seven commits.
Each verdict must be right: an order must be a serial one, each edge of a cycle must hold in all
orders, no such cycle may be shorter, or as long and without the edges of real time that it has,
its class must be that of the edges, a value without a writer must have none, and an undecided
value must come more than once, and the transactions that are named must be those that write it.
With real time the order must keep it, and an edge may say that a transaction had committed when
another one began. At most one verdict in a hundred may be undecided, with and without real time. A
history that is serializable in the order of its commits must be found so. Exit status and standard
error must fit. The plain judge's two ways must agree too. A history counts as passed if both
verdicts are right. The last line is 'forged: N passed, M failed', and the status is 1 if M is not
0.
"""
import collections
import json
import random
import re
import subprocess
import sys

import plain_order_judge
import plain_serial_judge
from forged_serial import Store, forged
from plain_judge import alone, committed, is_open, transactions

MOST_TRIED = 7
EDGE = r"transaction (\d+) (left|read) (\d+|none) at key (\d+), which transaction (\d+) (read|replaced)"
TIME_EDGE = r"transaction (\d+) (committed) before(()) transaction (\d+) (began)"
UNWRITTEN = r"transaction (\d+) read (\d+) at key (\d+), which no committed transaction left"
IMPOSSIBLE = r"transaction (\d+) read (\d+|none) at key (\d+), which no serial order( in real time)? gives"
TORN = r"the replies of transaction (\d+) contradict one another"
CYCLE = r"((?:lost update|G1c|G-single|G2-item)(?:-realtime)?), cycle of (\d+); (.*)"


class Unordered(Store):
    """A store whose transactions read the committed map or a snapshot, and do not validate reads."""

    def __init__(self, draws):
        super().__init__(draws)
        self.is_snapshot, self.is_unique, self.first_wins = (draws.random() < 0.5 for _ in range(3))
        self.last = 2

    def value(self):
        if not self.is_unique:
            return super().value()
        self.last += 1
        return self.last

    def seen(self, txn, key):
        if key in txn["own"]:
            return txn["own"][key]
        snapshot = txn.setdefault("snapshot", dict(self.committed))
        return (snapshot if self.is_snapshot else self.committed).get(key)

    def end(self, caller, txn):
        """Commits what was changed, unless the first to commit wins and another one was it."""
        changed = {key for key, value in txn["own"].items() if value != txn["reads"][key]}
        if self.first_wins and any(self.committed.get(key) != txn["reads"][key] for key in changed):
            return self.give_up(caller, txn)
        txn["own"] = {key: txn["own"][key] for key in changed}
        txn["reads"] = {}
        return super().end(caller, txn)


def rewritten(entries, draws):
    """The ended transactions one after another, in a drawn order."""
    found, counts = [it for it in transactions(entries) if not is_open(it)], collections.Counter()
    draws.shuffle(found)
    for entry in (entry for it in found for entry in it):
        counts[entry[0]] += 1
        is_numbered = entry[0] in ("began", "committed")
        yield [*entry[:2], counts[entry[0]]] if is_numbered else entry


def histories(draws):
    """Drawn histories, without end."""
    while True:
        store = Unordered(draws)
        for _ in range(draws.randint(5, 60)):
            store.step()
        entries = store.entries
        if draws.random() < 0.3:
            entries = list(rewritten(entries, draws))
        yield forged(entries, draws) if len(entries) > 1 and draws.random() < 0.3 else entries


def class_of(edges):
    """The class of a cycle: a lost update has two transactions, which replaced one value that both
    read. Else the number of edges that lead to a transaction that replaced something decides. An edge of
    real time is named too."""
    replaced = [edge[2:4] for edge in edges if edge[5] == "replaced"]
    if len(edges) == len(replaced) == 2 and replaced[0] == replaced[1]:
        return "lost update"
    suffix = "-realtime" if any(edge[5] == "began" for edge in edges) else ""
    return ["G1c", "G-single", "G2-item"][min(len(replaced), 2)] + suffix


def edges_in(text):
    """The edges of a cycle, or None if the text has something else."""
    found = [re.fullmatch(EDGE, it) or re.fullmatch(TIME_EDGE, it) for it in text.split("; ")]
    return [it.groups() for it in found] if all(found) else None


class Truth:
    """What is true of a history, by trying all orders or by the plain judge's search."""

    def __init__(self, entries):
        self.entries, self.at = entries, plain_order_judge.misshapen(entries)
        if self.at is not None:
            self.kind = self.kind_in_time = "wrong shape"
            return
        self.commits = committed(entries)
        self.numbers = [it[0][2] for it in self.commits]
        self.footprints = [plain_order_judge.footprint(it) for it in self.commits]
        self.whole = [it or {} for it in self.footprints]
        self.accesses = plain_order_judge.Accesses(self.whole)
        self.kind = self.agreed(False)
        self.lowest = plain_order_judge.floors(entries)
        self.kind_in_time = self.agreed(True)
        assert self.kind_in_time != "serializable" or self.kind != "not serializable", entries

    def agreed(self, real_time):
        """What the ways of the plain judge say, which must be the same."""
        line, order = plain_order_judge.judged(self.entries, real_time)
        found = "not serializable" if line.startswith("not ") else line.split()[0]
        lowest = plain_order_judge.floors(self.entries) if real_time else [0] * len(self.commits)
        if len(self.commits) <= MOST_TRIED:
            tried = plain_order_judge.order_by_trying(self.commits, lowest)
            due = "not serializable" if tried is None else "serializable"
            assert found == due, (found, self.entries)
        if order is not None:
            assert self.is_serial([self.numbers[i - 1] for i in order]), self.entries
            assert all(set(range(1, lowest[i - 1] + 1)) <= set(order[:n]) for n, i in enumerate(order))
        return found

    def is_serial(self, order, real_time=False):
        """Whether this is a serial order, by the numbers of the transactions."""
        pairs = {}
        if sorted(order) != sorted(self.numbers):
            return False
        for place, number in enumerate(order):
            lowest = self.lowest[self.numbers.index(number)] if real_time else 0
            if not set(self.numbers[:lowest]) <= set(order[:place]):
                return False
            pairs, is_right = alone(pairs, self.commits[self.numbers.index(number)])
            if not is_right:
                return False
        return True

    def comes_once(self, key, value):
        return len(self.accesses.writing[key, value]) == (value is not None)

    def is_edge(self, edge, real_time):
        """Whether this edge holds in all orders."""
        first, did, value, key, second, what = edge
        first, second = self.numbers.index(int(first)), self.numbers.index(int(second))
        if did == "committed":
            return real_time and first < self.lowest[second]
        value = int(key), None if value == "none" else int(value)
        it = self.accesses
        if did == "left":
            holds = what == "read" and first in it.writing[value] and second in it.needing[value]
        else:
            holds = what == "replaced" and first in it.needing[value] and second in it.replacing[value]
        return first != second and holds and self.comes_once(*value)

    def is_cycle(self, name, count, text, real_time):
        """Whether these are so many edges that hold in all orders, in a circle of the class with this
        name."""
        edges = edges_in(text)
        return (
            edges is not None
            and len(edges) == count > 0
            and name == class_of(edges)
            and all(self.is_edge(it, real_time) for it in edges)
            and all(one[4] == other[0] for one, other in zip(edges, edges[1:] + edges[:1]))
            and self.is_shortest(edges, real_time)
        )

    def is_shortest(self, edges, real_time):
        """Whether no cycle has fewer edges that hold in all orders. If the cycle has an edge of
        real time, none of its length may be without."""
        is_timed = any(edge[1] == "committed" for edge in edges)
        least = plain_order_judge.shortest_cycle
        without = least(self.accesses.edges([0] * len(self.commits)))
        due = least(self.accesses.edges(self.lowest)) if real_time else without
        return len(edges) == due and is_timed == (without != due)

    def allows(self, line, order, real_time):
        """Whether a verdict is right, with or without real time."""
        words = " in real time" if real_time else ""
        kind = self.kind_in_time if real_time else self.kind
        if self.at is not None:
            return line == f"not serializable{words}: entry {self.at} has the wrong shape"
        if re.fullmatch(rf"serializable{words} \d+ commits \d+ open", line):
            return kind == "serializable" and self.is_serial(order, real_time)
        if line.startswith("undecided "):
            key, value, *_ = re.fullmatch(r"undecided key (\d+) value (\d+|none): transactions(( \d+)+)", line).groups()
            value = None if value == "none" else int(value)
            writers = [self.numbers[i] for i in sorted(self.accesses.writing[int(key), value])]
            is_named = line.endswith(": transactions " + " ".join(map(str, writers)))
            by_commits = plain_serial_judge.verdict(self.entries)
            return is_named and not self.comes_once(int(key), value) and not by_commits.startswith("legal")
        reason = line.removeprefix(f"not serializable{words}: ")
        if kind != "not serializable" or reason == line:
            return False
        if re.fullmatch(TORN, reason):
            (number,) = re.fullmatch(TORN, reason).groups()
            return self.footprints[self.numbers.index(int(number))] is None
        if re.fullmatch(IMPOSSIBLE, reason):
            number, value, key, in_time = re.fullmatch(IMPOSSIBLE, reason).groups()
            value = None if value == "none" else int(value)
            needing = self.accesses.needing[int(key), value]
            return (in_time or "") == words and self.numbers.index(int(number)) in needing
        if re.fullmatch(UNWRITTEN, reason):
            number, value, key = map(int, re.fullmatch(UNWRITTEN, reason).groups())
            needing = self.accesses.needing[key, value]
            return self.numbers.index(number) in needing and not self.accesses.writing[key, value]
        cycle = re.fullmatch(CYCLE, reason)
        return cycle is not None and self.is_cycle(cycle[1], int(cycle[2]), cycle[3], real_time)


def judged(program, entries, real_time):
    """The verdict, the order, standard error and the exit status."""
    text = json.dumps({"version": 3, "stripes": 1, "entries": entries}, separators=(",", ":"))
    words = [program, "check", "--serializable", "--show-order", "/dev/stdin"]
    if real_time:
        words.append("--real-time")
    found = subprocess.run(words, input=text, capture_output=True, text=True, check=False)
    line, *lines = found.stdout.split("\n")[:-1] or [""]
    order = [int(it.removeprefix("transaction ")) for it in lines]
    return line, order, found.stderr, found.returncode


def main():
    program, count, seed = sys.argv[1], int(sys.argv[2]), int(sys.argv[3])
    tally, failed, drawn = collections.Counter(), 0, histories(random.Random(seed))
    for entries in (next(drawn) for _ in range(count)):
        truth = Truth(entries)
        is_right = True
        for real_time, kind in ((False, truth.kind), (True, truth.kind_in_time)):
            line, order, error, status = judged(program, entries, real_time)
            due = {"serializable": 0, "undecided": 5}.get(line.split(" ")[0], 1)
            if error or status != due or not truth.allows(line, order, real_time):
                is_right = False
                print(f"forged: {kind}, but {line} {order} {error} {status}: {entries}", file=sys.stderr)
            tally["undecided in real time" if real_time else "undecided"] += status == 5
        failed += not is_right
        by_commits = truth.kind == "serializable" and plain_serial_judge.verdict(entries)[:5] == "legal"
        only_plain = truth.kind != truth.kind_in_time
        kind = truth.kind + (" but not in real time" if only_plain else " by commits" if by_commits else "")
        tally[kind] += 1
    for kind in ("undecided", "undecided in real time"):
        if tally[kind] * 100 > count:
            failed += 1
            print(f"forged: {tally[kind]} of {count} are {kind}", file=sys.stderr)
    told = ", ".join(f"{tally[kind]} {kind}" for kind in sorted(tally))
    print(f"forged: {told}")
    print(f"forged: {count - failed} passed, {failed} failed")
    return int(failed != 0)


if __name__ == "__main__":
    sys.exit(main())
