#!/usr/bin/env -S python3 -B
"""The class of the anomaly that a history has: Adya's names, and two that Hermitage uses beside them.

    G0            transactions replace each other's changes in a circle
    G1a           a transaction reads what one that aborted had put
    G1b           a transaction reads a value over which its writer then put another
    G1c           a circle as in G0, of changes and of reads of changes
    OTV           a transaction reads one change of another one, and later misses one
    lost update   a transaction changes a key that another one has changed since it read the key
    G-single      a circle as in G1c, except that one transaction read what the next one replaced
    G2-item       a circle in which several transactions did so: write skew

Each value must be put only once at its key, and nothing must be taken or undone at a savepoint.

    tests/stores/anomaly.py      prints a history of each class, written by hand, one a line

The status is 1 if `anomaly` finds another class in one of these histories.
"""
import itertools
import json
import os
import sys

sys.path.insert(0, os.path.dirname(os.path.dirname(os.path.abspath(__file__))))
from plain_judge import committed, transactions

# One history of each class, by hand. The number behind a get, and the last one behind a put, is the
# reply. Keys 1 and 2 begin as 10 and 20.
EXAMPLES = {
    "G0": """T1 put 1 11 10; T2 put 1 12 11; T2 put 2 22 20; T1 put 2 21 22; T1 commit; T2 commit""",
    "G1a": "T1 put 1 11 10; T2 get 1 11; T1 abort; T2 commit",
    "G1b": "T1 put 1 11 10; T2 get 1 11; T1 put 1 12 11; T1 commit; T2 commit",
    "G1c": "T1 put 1 11 10; T2 put 2 22 20; T1 get 2 22; T2 get 1 11; T1 commit; T2 commit",
    "OTV": """T1 put 1 11 10; T1 put 2 21 20; T1 commit; T2 put 1 12 11; T2 put 2 22 21; T3 get 1 12;
        T3 get 2 21; T2 commit; T3 commit""",
    "lost update": """T1 get 1 10; T2 get 1 10; T1 put 1 11 10; T1 commit; T2 put 1 12 10;
        T2 commit""",
    "G-single": "T1 get 1 10; T2 put 1 12 10; T2 put 2 22 20; T2 commit; T1 get 2 22; T1 commit",
    "G2-item": """T1 get 1 10; T1 get 2 20; T2 get 1 10; T2 get 2 20; T1 put 1 11 10; T2 put 2 22 20;
        T1 commit; T2 commit""",
}


def written(steps):
    """The entries of a history that is written by hand. A caller runs one transaction."""
    entries, begun, commits, changes = [], set(), 0, [0] * 64
    for step in ["T0 put 1 10", "T0 put 2 20", "T0 commit", *steps.split(";")]:
        name, word, *numbers = step.split()
        caller, values = int(name[1:]), [int(it) for it in numbers]
        if caller not in begun:
            begun.add(caller)
            entries.append(["began", caller, len(begun)])
        if word == "commit":
            commits += 1
            entries.append(["committed", caller, commits])
        elif word == "abort":
            undone = [["undone", caller]] * changes[caller]
            entries += [["leave", caller, None], *undone, ["aborted", caller]]
        else:
            changes[caller] += word == "put"
            asked = 2 if word == "put" else 1
            reply = values[asked] if len(values) > asked else None
            entries += [["asked", caller, word, *values[:asked]], ["did", caller, reply]]
    return entries


def walk(entries):
    """The values of others that a transaction reads; and for each key that it changes, the value that
    it replaces and the one that it leaves."""
    reads, last, op = [], {}, None
    for entry in entries:
        if entry[0] == "asked":
            op = entry[2:]
        elif entry[0] == "did":
            if op[1] not in last or last[op[1]][1] != entry[2]:
                reads.append((op[1], entry[2]))
            if op[0] == "put":
                last[op[1]] = last.get(op[1], (entry[2],))[0], op[2]
    return reads, last


class Versions:
    """What committed transactions read, write and replace: values, as pairs of key and value."""

    def __init__(self, history):
        self.reads, self.replaced, self.writer, self.puts = [], {}, {}, {}
        commits = committed(history)
        for i, entries in enumerate(commits):
            reads, last = walk(entries)
            self.reads += [(i, it) for it in reads]
            for key, (before, value) in last.items():
                self.writer[key, value] = i
                self.replaced.setdefault((key, before), []).append(i)
        for entries in transactions(history):
            for entry in entries:
                if entry[0] == "asked" and entry[2] == "put":
                    self.puts[entry[3], entry[4]] = entries in commits

    def depends(self):
        """Pairs of which the second replaces a value of the first (ww)."""
        for value, those in self.replaced.items():
            if value in self.writer:
                yield from ((self.writer[value], j) for j in those)

    def reads_from(self):
        """Pairs of which the second reads a value of the first (wr)."""
        for i, value in self.reads:
            if self.writer.get(value, i) != i:
                yield self.writer[value], i

    def precedes(self):
        """Pairs of which the second replaces a value that the first reads (rw)."""
        for i, value in self.reads:
            yield from ((i, j) for j in self.replaced.get(value, []) if j != i)

    def bad_read(self):
        """The class of the first read of a value that no committed transaction leaves, or None."""
        for _, value in self.reads:
            if value[1] is not None and value not in self.writer:
                return "G1b" if self.puts.get(value) else "G1a"
        return None

    def has_vanished(self):
        """Whether a transaction reads one change of another one, and later misses one."""
        for (i, value), (j, later) in itertools.combinations(self.reads, 2):
            of = self.writer.get(value, i)
            if i == j != of and of in self.replaced.get(later, []):
                return True
        return False

    def has_lost_update(self):
        """Whether a transaction changes a key that another one has changed since it read the key."""
        changes = {(i, key) for (key, _), those in self.replaced.items() for i in those}
        return any(
            (i, value[0]) in changes and any(j != i for j in self.replaced.get(value, []))
            for i, value in self.reads
        )


def reaches(edges, start, end):
    """Whether a way leads along these edges."""
    found, todo = set(), [start]
    while todo:
        at = todo.pop()
        new = {j for i, j in edges if i == at} - found
        found |= new
        todo += new
    return end in found


def is_circle(edges):
    return any(reaches(edges, j, i) for i, j in edges)


def anomaly(history):
    """The class of the first of the anomalies above that a history has, or None."""
    it = Versions(history)
    ww, wr, rw = (list(found) for found in (it.depends(), it.reads_from(), it.precedes()))
    if is_circle(ww):
        return "G0"
    if it.bad_read():
        return it.bad_read()
    if is_circle(ww + wr):
        return "G1c"
    if it.has_vanished():
        return "OTV"
    if it.has_lost_update():
        return "lost update"
    if any(reaches(ww + wr, j, i) for i, j in rw):
        return "G-single"
    return "G2-item" if is_circle(ww + wr + rw) else None


def main():
    is_right = True
    for name, steps in EXAMPLES.items():
        entries = written(steps)
        print(json.dumps({"test": "class", "level": name, "version": 3, "stripes": 1, "entries": entries}))
        if anomaly(entries) != name:
            print(f"anomaly.py: {anomaly(entries)} instead of {name}", file=sys.stderr)
            is_right = False
    return int(not is_right)


if __name__ == "__main__":
    sys.exit(main())
