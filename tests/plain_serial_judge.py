#!/usr/bin/env -S python3 -B
"""Judges a history as `judge check --commit-order` does, from the beginning at each entry.

    tests/plain_serial_judge.py FILE

It follows the rules in docs/VERDICTS.md: each entry has the right shape; and at each committed
entry, its transaction, run alone on the map of those that committed before it, gets the replies that
it got.
It is slow: its time grows with the square of the number of entries. It does not test the file's shape.
"""
import json
import sys

from plain_judge import alone, committed, counted, is_open, is_shaped, transactions


def commits_right(before, entry):
    """Whether a transaction that commits now has the replies of running alone."""
    pairs = {}
    for entries in committed(before):
        pairs, _ = alone(pairs, entries)
    [mine] = [it for it in transactions(before) if is_open(it) and it[0][1] == entry[1]]
    return alone(pairs, mine)[1]


def broken(before, entry):
    """The rule that the entry after a serializable history breaks, or None."""
    if not is_shaped(before, entry):
        return 3
    if entry[0] == "committed" and not commits_right(before, entry):
        return 1
    return None


def verdict(history):
    """The line that `check --commit-order` prints."""
    for i, entry in enumerate(history):
        rule = broken(history[:i], entry)
        if rule:
            return f"illegal entry {i} rule {rule}"
    return f"legal {counted(history)}"


def main():
    with open(sys.argv[1], encoding="utf-8") as file:
        line = verdict(json.load(file)["entries"])
    print(line)
    return int(not line.startswith("legal"))


if __name__ == "__main__":
    sys.exit(main())
