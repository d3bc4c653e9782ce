#!/usr/bin/env python3
"""Refuses memory to the built program and to built tests, as refused.sh says.

    tests/refused.py FOLDER [WORD..]

FOLDER is a folder to work in. It has refuse.so, which counts the allocations and refuses them.
"""
import collections
import itertools
import json
import os
import pathlib
import re
import resource
import signal
import subprocess
import sys

PROGRAM = "crates/boostmap/out/boostmap"
# How many allocations are refused, from the one whose turn it is: one, a few, or all.
LENGTHS = [1, 8, 2**62]

# Tests that pass whichever single allocation is refused: crate and name. If more are refused, they may
# also give up by an error, or stop at an assertion that says so.
PASSING = """
table_tests node_list_tests::refused_allocations
table_tests bucket_table_tests::refused_allocations
table_tests map_ops_tests::refused::refused_memory_for_puts
table_tests map_ops_tests::refused::refused_memory_for_a_preparation
table_tests map_ops_tests::refused::refused_memory_for_a_link
table_tests probe_map_tests::refused_memory
table_tests stripe_shard_tests::refused_memory
striped_tests refused::refused_memory
striped_tests refused::refused_memory_with_room
thread_tests lock_tests::a_stripe_is_held_until_its_holder_releases
core_tests traces::savepoints_without_memory
core_tests histories::verdicts::have_both_verdicts
core_tests histories::verdicts::fed_entry_by_entry
"""
# Tests that pass whichever single allocation is refused, or eight in a row, or all from one on.
WHOLE = """
table_tests bucket_table_tests::bucket_initialisation
table_tests undo_log_tests::nine_undone_newest_first
table_tests undo_log_tests::a_savepoint_keeps_its_jobs
table_tests undo_log_tests::side_value_returns
table_tests undo_log_tests::a_settled_value_stays
core_tests cores::refused::five_callers_undone
core_tests cores::refused::segments
core_tests owned::the_table_grows_by_itself
core_tests owned::a_history_is_cut_off
core_tests owned::a_savepoint_is_gone_back_to
core_tests histories::fed_entry_by_entry
core_tests histories::fed_with_savepoints
thread_tests map_tests::refused::refused_memory_between_callers
thread_tests map_tests::refused::refused_memory_in_each_call
thread_tests map_tests::side::side_value_returns
thread_tests run_tests::refused_memory_for_crossing_scripts
program_tests engines::refused::a_cursor_stands_beside_a_refusal
"""
# Tests that pass whichever single allocation is refused. They are not run with more refused.
ALONE = """
program_tests files::memory_refused
program_tests engines::failing::refused_allocations
program_tests engines::failing::history_without_memory
program_tests engines::failing::mix_without_memory
program_tests engines::failing::run_without_memory
program_tests commands::refused_allocations
"""
# The largest allocation of a test, in bytes. In a small core it is the list's counts of marked nodes,
# 4,096 of 8 bytes, which take more than the entries that a token of the map of threads has seen. A log
# of nine jobs takes room for 16 jobs of 16 bytes, since the ninth is not inline. The largest array of a
# map of eleven keys has 64 slots of 24 bytes: at least four times as many slots as keys.
LARGEST = """
core_tests cores::nine_undone_newest_first 32768
thread_tests map_tests::rows::help_grows 32768
table_tests undo_log_tests::nine_undone_newest_first 256
table_tests probe_map_tests::removed_keys 1536
"""
# The text of an assertion that a call was refused memory.
OF_MEMORY = re.compile("AllocError|AllocFailed|NoMemory")

LIMITS = {"version": 1, "stripes": 8, "buckets": 8}
Ended = collections.namedtuple("Ended", "status out err")


def do(caller, *op):
    return [["ask", caller, *op], ["seek", caller], ["act", caller]]


def five_callers_undone():
    """Five callers change one key each, three times, and take all of it back, taking turns."""
    steps = []
    for c in range(5):
        steps += [["begin", c], *do(c, "put", c + 1, 10)]
    for c in range(5):
        steps += [*do(c, "put", c + 1, 20), *do(c, "take", c + 1)]
    steps += [["abort", c] for c in range(5)]
    for _ in range(3):
        for c in range(5):
            steps += [["seek", c], ["act", c]]
    return steps + [["act", c] for c in range(5)]


def busy_between_callers():
    """Caller 1 finds a lock of caller 0, begins again and commits first."""
    steps = [["begin", 0], *do(0, "put", 1, 10), ["begin", 1], ["ask", 1, "get", 9]]
    return steps + [["act", 1], ["begin", 1], ["commit", 1], ["commit", 0]]


def bucket_initialisation():
    """Two helpers link the dummy nodes of three buckets."""
    steps = [["begin", 0]]
    for key in range(1, 6):
        steps += do(0, "put", key, 10 * key)
    steps += [["double", 2], ["commit", 0]]
    for h, b in [(0, 1), (1, 3), (0, 2), (0, 3)]:
        steps += [["init_seek", h, b], ["init_link", h], ["init_store", h]]
    return steps


def nine_changes():
    """Nine changes with savepoints, of which four are taken back."""
    steps = [["begin", 0]]
    for key in range(1, 10):
        steps += [*do(0, "put", key, key), ["save", 0]]
    steps += [["back", 0, 5], *[["seek", 0], ["act", 0]] * 4, ["act", 0]]
    return [*steps, *do(0, "put", 6, 60), ["commit", 0], ["sweep"]]


def two_workers():
    """Scripts that share the lock of keys 1 and 9, with savepoints, help and an abort."""
    first = [["put", 1, 10], ["save"], ["put", 2, 20], ["help", 3], ["back", 1]]
    second = [["get", 9], ["put", 3, 30], ["take", 3], ["put", 4, 40]]
    return [first, second, [["get", 1], ["abort"]]] * 2


def crossing_gate():
    """Two scripts of two puts, each with other keys."""
    return [[["put", 1, 10], ["put", 2, 20]], [["put", 3, 30], ["put", 4, 40]]]


def small_files():
    """More files than those of examples/, with their names."""
    for steps in [five_callers_undone, busy_between_callers, bucket_initialisation, nine_changes]:
        yield steps.__name__, {**LIMITS, "callers": 5, "steps": steps()}
    yield "two_workers", {**LIMITS, "workers": 2, "tries": 2, "scripts": two_workers()}
    yield "crossing_gate", {**LIMITS, "workers": 1, "tries": 0, "scripts": crossing_gate()}


class Runner:
    """Runs programs with some of their allocations refused."""

    def __init__(self, folder):
        self.library = f"{folder}/refuse.so"
        self.told = os.open(f"{folder}/told", os.O_RDWR | os.O_CREAT | os.O_APPEND)

    def run(self, words, first=0, last=0, larger=0):
        """How a call with these words ends if these allocations are refused, and whether one was met.

        If `larger` is not 0, each allocation of more bytes than that is refused too.
        """
        os.ftruncate(self.told, 0)
        given = {"REFUSE_FIRST": first, "REFUSE_LAST": last, "REFUSE_LARGER": larger}
        given["REFUSE_TOLD"] = self.told
        ran = subprocess.run(
            words,
            stdin=subprocess.DEVNULL,
            capture_output=True,
            pass_fds=[self.told],
            env={
                **os.environ,
                **{name: str(number) for name, number in given.items()},
                "LD_PRELOAD": self.library,
            },
        )
        ended = Ended(ran.returncode, ran.stdout.decode(), ran.stderr.decode())
        return ended, os.fstat(self.told).st_size > 0

    def asks_for(self, name, words, largest):
        """Whether the largest allocation has this many bytes; prints a line."""
        is_enough = not self.run(words, larger=largest)[1]
        is_wanted = self.run(words, larger=largest - 1)[1]
        told = "is" if is_enough and is_wanted else "is not"
        print(f"refused: {name}: the largest allocation {told} of {largest} bytes", flush=True)
        return is_enough and is_wanted

    def refuse_in_turn(self, name, words, lengths, kind_of):
        """Refuses one allocation after the other until a run meets none, and prints a line.

        `kind_of` is given the end with all memory and another end, and names the kind of the latter;
        None if it is wrong. The answer is whether no end was wrong and an allocation was refused: a
        test that does not exist asks for none.
        """
        calm, _ = self.run(words)
        kinds, count = collections.Counter(), 0
        for length in lengths:
            for first in itertools.count(1):
                ended, is_met = self.run(words, first, first + length - 1)
                if not is_met:
                    break
                count = max(count, first)
                kind = kind_of(calm, ended) or "wrong"
                kinds[kind] += 1
                if kind == "wrong":
                    print(f"refused: {name}: {length} from {first}: {ended}", file=sys.stderr)
        told = ", ".join(f"{kinds[kind]} {kind}" for kind in sorted(kinds))
        print(f"refused: {name}: {count} allocations, {told}", flush=True)
        return count > 0 and kinds["wrong"] == 0


class Commands:
    """The program's commands on small files."""

    def __init__(self, runner, folder):
        self.runner = runner
        self.folder = folder

    def written(self, name, text):
        """The path of a file with this text."""
        path = pathlib.Path(self.folder, f"{name}.json")
        path.write_text(text)
        return str(path)

    def accepts_report(self, file):
        """Whether a report is as if the steps that are answered `refused 14` were not there."""

        def accepts(report):
            steps, lines = file["steps"], report.split("\n")
            refused = [i for i, _ in enumerate(steps) if lines[i : i + 1] == ["refused 14"]]
            left = [step for i, step in enumerate(steps) if i not in refused]
            path = self.written("left", json.dumps({**file, "steps": left}))
            wanted, _ = self.runner.run([PROGRAM, "replay", path])
            found = [line for i, line in enumerate(lines) if i not in refused]
            return refused and wanted == Ended(0, "\n".join(found), "")

        return accepts

    def accepts_history(self, text):
        """Whether a history is legal and leaves nobody in a transaction."""
        path = self.written("history", text)
        judged, _ = self.runner.run([PROGRAM, "check", path])
        return judged.status == 0 and judged.out.endswith(" 0 open\n")

    def one(self, name, words, accepts=lambda _: False, faults=("no memory",)):
        """Refuses memory to the program with these words.

        It ends as with memory, or writes nothing but one of `faults`, or what `accepts` takes.
        """

        def kind_of(calm, ended):
            if ended == calm:
                return "as with memory"
            for fault in faults:
                if ended == Ended(4, "", f"{fault}\n"):
                    return fault
            if (ended.status, ended.err) == (0, "") and accepts(ended.out):
                return "refused 14"
            return None

        return self.runner.refuse_in_turn(name, [PROGRAM, *words], LENGTHS, kind_of)

    def all(self):
        """For each file and each fault, whether all is right."""
        paths = {path.stem: str(path) for path in sorted(pathlib.Path("examples").iterdir())}
        for name, file in small_files():
            paths[name] = self.written(name, json.dumps(file))
        for name, path in paths.items():
            file = json.loads(pathlib.Path(path).read_text())
            if "steps" in file:
                yield self.one(f"replay {name}", ["replay", path], self.accepts_report(file))
            elif "scripts" in file:
                words = ["mix", "--seed", "7", path]
                yield self.one(f"mix {name}", words, self.accepts_history)
                words, faults = ["run", path], ("no memory", "no thread")
                yield self.one(f"run {name}", words, self.accepts_history, faults)
            else:
                yield self.one(f"check {name}", ["check", path])
        yield self.one("check of an illegal history", ["check", "samples/judge/example.json"])
        yield self.one("check of a script file", ["check", paths["scripts"]])
        yield self.one("mix with a word too few", ["mix", "--seed"])


def kind_of_test(kinds):
    """How a test ended: it passed, or in one of these ways.

    It gave up by an error that it returns, or stopped at an assertion that says that memory was
    refused.
    """

    def kind_of(calm, ended):
        if ended == calm:
            return "passed"
        kind = None
        if ended.status == 101:
            kind = "gave up"
        elif ended.status == -signal.SIGABRT and "test stopped at" in ended.out:
            kind = "stopped" if OF_MEMORY.search(ended.err) else None
        return kind if kind in kinds else None

    return kind_of


def largest_are(runner, crates):
    """For each test of these crates whose largest allocation is known, whether that is right."""
    for crate, name, largest in map(str.split, LARGEST.strip().split("\n")):
        program = f"crates/{crate}/out/{crate}_tests"
        if not crates or crate in crates:
            is_built = os.path.exists(program)
            yield is_built and runner.asks_for(f"{crate} {name}", [program, name], int(largest))


def all_tests(runner, crates):
    """For each test of these crates, or of all crates, whether all is right."""
    yield from largest_are(runner, crates)
    ends = [(ALONE, LENGTHS[:1], []), (PASSING, LENGTHS[:1], [])]
    ends += [(PASSING, LENGTHS[1:], ["gave up", "stopped"])]
    ends += [(WHOLE, LENGTHS, [])]
    for tests, lengths, kinds in ends:
        for crate, name in map(str.split, tests.strip().split("\n")):
            program = f"crates/{crate}/out/{crate}_tests"
            if crates and crate not in crates:
                continue
            if os.path.exists(program):
                words, kind_of = [program, name], kind_of_test(kinds)
                yield runner.refuse_in_turn(f"{crate} {name}", words, lengths, kind_of)
            else:
                print(f"refused: {crate} {name}: not built; rt test in crates/{crate} does that")
                yield False


def main():
    folder, *words = sys.argv[1:]
    resource.setrlimit(resource.RLIMIT_CORE, (0, 0))
    runner, found = Runner(folder), []
    if not words or "commands" in words:
        found += Commands(runner, folder).all()
    if words != ["commands"]:
        found += all_tests(runner, words)
    print(f"refused: {found.count(True)} passed, {found.count(False)} failed")
    return int(False in found)


if __name__ == "__main__":
    sys.exit(main())
