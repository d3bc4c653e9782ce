#!/usr/bin/env -S python3 -B
"""Judges a history by any order of its transactions, as `judge check --serializable` does.

    tests/plain_order_judge.py [--real-time] FILE

A history is serializable if it has the right shape (docs/VERDICTS.md), and if its committed
transactions have a serial order: one in which each of them, run alone after those before it, from the
empty map, gets the replies that it got. With --real-time, a transaction that began after another one
had committed must also come after it in the order.

`order_by_trying` tries all orders: it is for a few transactions. `judged` first looks for a cycle of
edges that each order must keep, and then searches for an order, with a bound on what it tries. It does
not test the file's shape.
"""
import collections
import json
import sys

from plain_judge import alone, committed, counted, is_shaped

# How many sets of placed transactions a search meets at most, beside one for each transaction.
MOST_SETS = 10_000


def misshapen(history):
    """The index of the first entry of the wrong shape, or None."""
    return next((i for i, it in enumerate(history) if not is_shaped(history[:i], it)), None)


def floors(history):
    """For each committed transaction, in the order of the commits: how many of these had committed
    when it began. In real time these are before it."""
    commits, at_begin, found = 0, {}, []
    for entry in history:
        if entry[0] == "began":
            at_begin[entry[1]] = commits
        elif entry[0] == "committed":
            found.append(at_begin[entry[1]])
            commits += 1
    return found


def order_by_trying(transactions, lowest, placed=(), pairs=None):
    """A serial order of these transactions, by their places in the list; or None."""
    if len(placed) == len(transactions):
        return placed
    for i, entries in enumerate(transactions):
        if i not in placed and set(range(lowest[i])) <= set(placed):
            after, is_right = alone(pairs or {}, entries)
            if is_right:
                found = order_by_trying(transactions, lowest, placed + (i,), after)
                if found is not None:
                    return found
    return None


def footprint(entries):
    """What a transaction needs at each key that it asks for, and what it leaves there; or None if no
    map gives it all its replies."""
    needs, key = {}, None
    for entry in entries:
        if entry[0] == "asked":
            key = entry[3]
        elif entry[0] == "did":
            needs.setdefault(key, entry[2])
    first = {key: value for key, value in needs.items() if value is not None}
    last, is_right = alone(first, entries)
    return {key: (need, last.get(key)) for key, need in needs.items()} if is_right else None


class Accesses:
    """Who needs, writes and replaces each value: a value is a pair of a key and what it has there."""

    def __init__(self, footprints):
        self.needing, self.writing, self.replacing = (collections.defaultdict(set) for _ in range(3))
        for i, cells in enumerate(footprints):
            for key, (need, left) in cells.items():
                self.needing[key, need].add(i)
                if need != left:
                    self.replacing[key, need].add(i)
                    self.writing[key, left].add(i)

    def is_unwritten(self):
        """Whether a transaction needs a value that no transaction writes."""
        return any(it[1] is not None and not self.writing[it] for it in list(self.needing))

    def edges(self, lowest):
        """Pairs of transactions of which the first is before the second in every order. Only values
        that the key gets once count: one transaction writes it, or it is absence and none does."""
        for value in list(self.needing):
            writers = self.writing[value]
            if len(writers) == (value[1] is not None):
                yield from ((i, j) for i in writers for j in self.needing[value] if i != j)
                replaces = self.replacing[value]
                yield from ((i, j) for i in self.needing[value] for j in replaces if i != j)
        yield from ((i, j) for j, low in enumerate(lowest) for i in range(low))


def has_cycle(count, edges):
    """Whether these edges between so many transactions form a cycle."""
    after, before = collections.defaultdict(set), collections.Counter()
    for i, j in set(edges):
        after[i].add(j)
        before[j] += 1
    free, freed = [i for i in range(count) if not before[i]], 0
    while free:
        i = free.pop()
        freed += 1
        for j in after[i]:
            before[j] -= 1
            if not before[j]:
                free.append(j)
    return freed < count


def shortest_cycle(edges):
    """The number of edges of a shortest cycle that these edges form, or None. It makes all ways of
    one edge, of two, and so on."""
    edges = set(edges)
    ways, length = edges, 1
    while ways:
        if any(i == j for i, j in ways):
            return length
        ways, length = {(i, k) for i, j in ways for other, k in edges if j == other}, length + 1
    return None


class Search:
    """A search for a serial order that places one transaction after another.

    A transaction fits if the map has what it needs. If no other one that is left needs what it
    replaces, it may come first in any serial order of those that are left: it is then placed at once.
    """

    def __init__(self, footprints, lowest, accesses):
        self.footprints, self.lowest, self.accesses = footprints, lowest, accesses

    def fitting(self, left, pairs):
        """Those that may come next, in the order of the commits."""
        first = min(left)
        return [
            i
            for i in sorted(left)
            if self.lowest[i] <= first
            and all(pairs.get(key) == need for key, (need, _) in self.footprints[i].items())
        ]

    def kept(self, i, left):
        """The values that the transaction replaces and that another one that is left needs."""
        mine = [(key, need) for key, (need, to) in self.footprints[i].items() if need != to]
        return [value for value in mine if self.accesses.needing[value] & left - {i}]

    def comes_back(self, value, left):
        """Whether one that is left writes the value."""
        return not self.accesses.writing[value].isdisjoint(left)

    def order(self, most):
        """A serial order, or None; and whether the search was given up at its bound.

        No set of placed transactions is met twice: the map depends only on the set.
        """
        seen, stack = set(), [((), frozenset(range(len(self.footprints))), {})]
        while stack:
            placed, left, pairs = stack.pop()
            if not left:
                return placed, False
            if left in seen:
                continue
            if len(seen) >= most + len(self.footprints):
                return None, True
            seen.add(left)
            ways = []
            for i in self.fitting(left, pairs):
                kept = self.kept(i, left)
                if not kept:
                    ways = [i]
                    break
                if all(self.comes_back(value, left) for value in kept):
                    ways.append(i)
            for i in reversed(ways):
                leaves = {key: to for key, (_, to) in self.footprints[i].items()}
                stack.append((placed + (i,), left - {i}, {**pairs, **leaves}))
        return None, False


def judged(history, real_time=False, most=MOST_SETS):
    """The verdict on a history, and the serial order by commit numbers if there is one."""
    at = misshapen(history)
    if at is not None:
        return f"not serializable: entry {at} has the wrong shape", None
    footprints = [footprint(entries) for entries in committed(history)]
    if None in footprints:
        return "not serializable", None
    lowest = floors(history) if real_time else [0] * len(footprints)
    accesses = Accesses(footprints)
    if accesses.is_unwritten() or has_cycle(len(footprints), accesses.edges(lowest)):
        return "not serializable", None
    order, is_bound_met = Search(footprints, lowest, accesses).order(most)
    if order is None:
        return "undecided" if is_bound_met else "not serializable", None
    return f"serializable {counted(history)}", [i + 1 for i in order]


def main():
    words = sys.argv[1:]
    with open(words[-1], encoding="utf-8") as file:
        line, _ = judged(json.load(file)["entries"], real_time="--real-time" in words)
    print(line)
    return {"serializable": 0, "undecided": 5}.get(line.split()[0], 1)


if __name__ == "__main__":
    sys.exit(main())
