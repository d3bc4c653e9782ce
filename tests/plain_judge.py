#!/usr/bin/env python3
"""Judges a history as `boostmap check` does, with whole maps, and from the beginning at each entry.

    tests/plain_judge.py FILE

It follows the three rules in docs/VERDICTS.md line by line, and is slow: its time grows with the
square of the number of entries. It does not test the file's shape.
"""
import json
import sys

CALLERS = range(64)


def after(pairs, op):
    """The map after an operation."""
    word, key = op[:2]
    pairs = dict(pairs)
    if word == "put" or (word == "put_if" and pairs.get(key) == op[2]):
        pairs[key] = op[-1]
    elif word == "take":
        pairs.pop(key, None)
    return pairs


def is_change(op, reply):
    """Whether an operation that got this reply is a change."""
    return (
        op[0] == "put"
        or (op[0] == "take" and reply is not None)
        or (op[0] == "put_if" and reply == op[2])
    )


def alone(pairs, entries):
    """The map after a transaction that runs alone on a map, and whether it gets its replies."""
    maps, is_right, op = [pairs], True, None
    for entry in entries:
        if entry[0] == "asked":
            op = entry[2:]
        elif entry[0] == "did":
            is_right &= maps[-1].get(op[1]) == entry[2]
            if is_change(op, entry[2]):
                maps.append(after(maps[-1], op))
        elif entry[0] == "undone":
            maps.pop()
    return maps[-1], is_right


def transactions(history):
    """The entries of each transaction, in the order in which they begin."""
    found, newest = [], {}
    for entry in history:
        if entry[0] == "began":
            newest[entry[1]] = []
            found.append(newest[entry[1]])
        newest[entry[1]].append(entry)
    return found


def is_open(entries):
    return entries[-1][0] not in ("committed", "aborted")


def committed(history):
    """The entries of each committed transaction, in the order of the commits."""
    found = [it for it in transactions(history) if it[-1][0] == "committed"]
    return sorted(found, key=lambda it: it[-1][2])


def counted(history):
    """The commits and the open transactions, as a verdict counts them."""
    running = sum(is_open(entries) for entries in transactions(history))
    return f"{len(committed(history))} commits {running} open"


def replies_hold(history):
    """Whether rule 1 holds at the last entry of a history."""
    pairs = {}
    for entries in committed(history):
        pairs, _ = alone(pairs, entries)
    return all(alone(pairs, it)[1] for it in transactions(history) if is_open(it))


def locks_hold(before, entry, stripes, version):
    """Whether the next entry keeps rule 2."""

    def holds(caller):
        return any(
            asked[0] == "asked" and asked[3] % stripes == entry[3] % stripes
            for entries in transactions(before)
            if is_open(entries) and entries[0][1] == caller
            for asked in entries
        )

    if entry[0] == "asked":
        return not any(holds(it) for it in CALLERS if it != entry[1])
    if entry[0] == "busy":
        named = entry[-1]
        has_begun = any(it[:2] == ["began", named] for it in before)
        return named != entry[1] and (has_begun if version == 3 else holds(named))
    return True


CLOSED = ("closed", [0], 0, None)


def row(seat, entry):
    """The table of rule 3: the seat after an entry, or None if the table does not have it.

    A seat is the state, how many changes stood at each level, how many stand, and the operation
    that waits for its reply or the level that the caller goes back to, None for the end.
    """
    state, kept, standing, what = seat
    at = (state, entry[0])
    if at == ("closed", "began"):
        return "open", [0], 0, None
    if at == ("open", "asked"):
        return "asked", kept, standing, entry[2:]
    if at == ("open", "busy"):
        return "leaving", kept, standing, None
    if at == ("open", "saved"):
        return "open", kept + [standing], standing, None
    if at == ("open", "leave") and (entry[2] is None or entry[2] < len(kept)):
        return "leaving", kept, standing, entry[2]
    if at == ("open", "committed"):
        return CLOSED
    if at == ("asked", "did"):
        return "open", kept, standing + is_change(what, entry[2]), None
    if at == ("asked", "leave") and entry[2] is None:
        return "leaving", kept, standing, None
    if at == ("leaving", "undone") and standing > (0 if what is None else kept[what]):
        return "leaving", kept, standing - 1, what
    if at == ("leaving", "returned") and entry[2] == what and standing == kept[what]:
        return "open", kept[: what + 1], standing, None
    if at == ("leaving", "aborted") and what is None and standing == 0:
        return CLOSED
    return None


def is_shaped(before, entry):
    """Whether the next entry keeps rule 3."""
    seat = CLOSED
    for it in before:
        if it[1] == entry[1]:
            seat = row(seat, it)
    if entry[0] in ("began", "committed"):
        if entry[2] != 1 + sum(it[0] == entry[0] for it in before):
            return False
    return row(seat, entry) is not None


def broken(before, entry, stripes, version):
    """The rule that the entry after a legal history breaks, or None."""
    if not is_shaped(before, entry):
        return 3
    if not replies_hold(before + [entry]):
        return 1
    if not locks_hold(before, entry, stripes, version):
        return 2
    return None


def verdict(history, stripes, version):
    """The line that `check` prints."""
    for i, entry in enumerate(history):
        rule = broken(history[:i], entry, stripes, version)
        if rule:
            return f"illegal entry {i} rule {rule}"
    return f"legal {counted(history)}"


def main():
    with open(sys.argv[1], encoding="utf-8") as file:
        it = json.load(file)
    line = verdict(it["entries"], it["stripes"], it["version"])
    print(line)
    return int(not line.startswith("legal"))


if __name__ == "__main__":
    sys.exit(main())
