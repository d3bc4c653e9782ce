#!/usr/bin/env -S python3 -B
"""Judges forged histories by `boostmap check` and by plain_judge.py, which must agree.

    tests/forged.py PROGRAM COUNT SEED

Scripts are drawn from the seed, and `mix` records short histories of them. In each history each
entry in turn is left out, doubled, swapped with the next one, and changed in one part, in CHANGES
drawn ways, until COUNT files have been judged. Each file has the shape of a history file, and some
are still legal. Verdict, entry, rule and exit status must be the same, and standard error empty. It
prints how many files had each verdict; the last line is 'forged: N passed, M failed', and the status
is 1 if M is not 0.
"""
import collections
import itertools
import json
import random
import subprocess
import sys

import plain_judge

LENGTHS = range(10, 41)
CHANGES = 3
TOP = 2**64 - 1
CALLERS = [0, 1, 2, 3, 63]
KEYS = [0, 1, 2, 3, 8, 9, 2**63, TOP]
VALUES = [0, 1, 2, TOP]


def drawn_script(draws, version, keys, most):
    """A script with this many actions at most, which goes back only to savepoints that it has set."""
    script, level = [], 0
    words = ["put", "take", "get", "save", "back"] * 3 + ["put_if"] * 3 * (version - 1)
    for _ in range(draws.randint(0, most)):
        word = draws.choice([*words, "help", "abort"])
        key, value = draws.choice(keys), draws.choice(VALUES)
        if word == "save":
            level += 1
        elif word == "back":
            level = draws.randint(0, level)
        rest = {"put": [key, value], "save": [], "back": [level], "abort": []}
        rest["put_if"] = [key, draws.choice([None, *VALUES]), value]
        script.append([word, *rest.get(word, [key])])
    return script


def crossing(keys):
    """Scripts of which the second may begin last and commit first."""
    return [[["get", keys[0]], ["put", keys[1], 0]], [["put", keys[1], 1]]]


def returning(keys):
    """A script that goes back twice to one savepoint, below which a change stands."""
    twice = [["put", keys[1], 1], ["back", 1], ["take", keys[0]], ["back", 1]]
    return [[["put", keys[0], 0], ["save"], *twice, ["get", keys[0]]]]


def drawn_scripts(draws):
    """A script file whose workers share a few keys; the last two scripts get each of these keys."""
    version, most = draws.choice([1, 2]), draws.choice([3, 9])
    keys = draws.sample(KEYS if version == 2 else KEYS[:6], draws.randint(2, 3))
    scripts = draws.choice([crossing(keys), returning(keys), []])
    for _ in range(draws.randint(2, 18 // most) - len(scripts)):
        scripts.append(drawn_script(draws, version, keys, most))
    return {
        "version": version,
        "workers": draws.randint(1, 4),
        "stripes": draws.choice([1, 2, 3, 8, 8]),
        "buckets": 8,
        "tries": draws.randrange(3),
        "scripts": scripts + [[["get", key] for key in keys]] * 2,
    }


def operations(version):
    yield from (["put", key, value] for key in KEYS for value in VALUES)
    yield from ([word, key] for word in ("take", "get") for key in KEYS)
    if version > 1:
        for key, expected, value in itertools.product(KEYS, [None, *VALUES], VALUES):
            yield ["put_if", key, expected, value]


def entries(version):
    """Entries of every shape."""
    for caller in CALLERS:
        yield from ([word, caller] for word in ("saved", "undone", "aborted"))
        for word in ("began", "committed", "returned", "did", "leave"):
            yield from ([word, caller, number] for number in [*range(10), TOP])
        yield from ([word, caller, None] for word in ("did", "leave"))
        for op in operations(version):
            yield ["asked", caller, *op]
            yield from (["busy", caller, *op, holder] for holder in CALLERS)


ENTRIES = {version: list(entries(version)) for version in (1, 2, 3)}


def changes(entry, version):
    """The entries that differ from this one in one part; and for an asked, a busy instead."""
    found = [
        other
        for other in ENTRIES[version]
        if len(other) == len(entry) and sum(map(lambda a, b: a != b, other, entry)) == 1
    ]
    if entry[0] == "asked":
        found += [["busy", *entry[1:], holder] for holder in CALLERS]
    return found


def forgeries(history, version, draws):
    """Histories that differ from this one in one entry, or in two neighbours."""
    for i, entry in enumerate(history):
        before, behind = history[:i], history[i + 1 :]
        yield before + behind
        yield before + [entry, entry] + behind
        if behind:
            yield before + [behind[0], entry] + behind[1:]
        ways = changes(entry, version)
        for other in draws.sample(ways, min(CHANGES, len(ways))):
            yield before + [other] + behind


def run(program, words, file):
    """Runs a command on a file that it reads from standard input."""
    text = json.dumps(file, separators=(",", ":"))
    return subprocess.run(
        [program, *words, "/dev/stdin"], input=text, capture_output=True, text=True
    )


def recorded(program, draws):
    """Recorded histories, without end."""
    while True:
        seed = draws.randrange(2**32)
        mixed = run(program, ["mix", "--seed", str(seed)], drawn_scripts(draws))
        file = json.loads(mixed.stdout)
        # A history of version 2 is one of version 3 too, in which a busy may name more callers.
        if file["version"] == 2:
            file["version"] = draws.choice([2, 3])
        if len(file["entries"]) in LENGTHS:
            yield file


def files(program, draws):
    """Recorded histories, each followed by its forgeries, without end."""
    for file in recorded(program, draws):
        yield file
        for history in forgeries(file["entries"], file["version"], draws):
            yield {**file, "entries": history}


def main():
    program, count, seed = sys.argv[1], int(sys.argv[2]), int(sys.argv[3])
    tally, failed = collections.Counter(), 0
    for file in itertools.islice(files(program, random.Random(seed)), count):
        line = plain_judge.verdict(file["entries"], file["stripes"], file["version"])
        judged = run(program, ["check"], file)
        found = (judged.stdout, judged.stderr, judged.returncode)
        if found != (line + "\n", "", int(not line.startswith("legal"))):
            failed += 1
            text = json.dumps(file)
            print(f"forged: wanted {line}, found {found}: {text}", file=sys.stderr)
        tally[line[-6:] if line.startswith("illegal") else "legal"] += 1
    told = ", ".join(f"{tally[kind]} {kind}" for kind in sorted(tally))
    print(f"forged: {told}")
    print(f"forged: {count - failed} passed, {failed} failed")
    return int(failed != 0)


if __name__ == "__main__":
    sys.exit(main())
