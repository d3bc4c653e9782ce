#!/usr/bin/env -S python3 -B
"""Runs Kleppmann's Hermitage on a real PostgreSQL: its item cases, as fixed schedules at each level.

    tests/stores/hermitage.py                     judged by the plain judge
    tests/stores/hermitage.py --judge PROGRAM     by `PROGRAM check --serializable`
    tests/stores/hermitage.py --write >hermitage.jsonl

Hermitage (github.com/ept/hermitage) publishes at which levels a store prevents which anomalies. This
prints the table of docs/JUDGE.md: for each schedule and level, whether its history is serializable, and
otherwise the class of its anomaly (anomaly.py). Each cell is a test. It fails if the level prevents
this class, if the history lacks an anomaly that the schedule tests and the level allows, or if the
verdict does not fit. The last line is 'hermitage: N passed, M failed', and the status is 1 if M is not
0. With --write the histories are written instead, one a line.
"""
import argparse
import json
import queue
import sys
import threading
import time

from anomaly import anomaly
from postgres import LEVELS, Recorder, Transaction, empty, verdict
from server import PATIENCE, Refused, Server

RC, RR, SER = LEVELS.values()

# The lowest level at which PostgreSQL prevents each class, by Hermitage's table.
PREVENTED = {
    "G0": RC,
    "G1a": RC,
    "G1b": RC,
    "G1c": RC,
    "OTV": RC,
    "lost update": RR,
    "G-single": RR,
    "G2-item": SER,
}

# Hermitage's schedules, without those about predicates, each with the class that it tests. Keys 1 and 2
# begin as 10 and 20. Values differ, where Hermitage puts one twice. Some of the schedules are once more
# there, with fewer reads or with a change at the end.
SCHEDULES = {
    "G0": ("G0", """T1 put 1 11; T2 put 1 12; T1 put 2 21; T1 commit; T3 get 1; T3 get 2; T3 commit;
        T2 put 2 22; T2 commit; T4 get 1; T4 get 2; T4 commit"""),
    "G1a": ("G1a", "T1 put 1 101; T2 get 1; T1 abort; T2 get 1; T2 commit"),
    "G1b": ("G1b", "T1 put 1 101; T2 get 1; T1 put 1 11; T1 commit; T2 get 1; T2 commit"),
    "G1b, read once": ("G1b", "T1 put 1 101; T2 get 1; T1 put 1 11; T1 commit; T2 commit"),
    "G1c": ("G1c", "T1 put 1 11; T2 put 2 22; T1 get 2; T2 get 1; T1 commit; T2 commit"),
    "OTV": ("OTV", """T1 put 1 11; T1 put 2 19; T2 put 1 12; T1 commit; T3 get 1; T2 put 2 18;
        T3 get 2; T2 commit; T3 get 2; T3 get 1; T3 commit"""),
    "OTV, read once": ("OTV", """T1 put 1 11; T1 put 2 19; T2 put 1 12; T1 commit; T3 get 1;
        T2 put 2 18; T3 get 2; T2 commit; T3 commit"""),
    "P4": ("lost update", "T1 get 1; T2 get 1; T1 put 1 11; T2 put 1 12; T1 commit; T2 commit"),
    "G-single": ("G-single", """T1 get 1; T2 get 1; T2 get 2; T2 put 1 12; T2 put 2 18; T2 commit;
        T1 get 2; T1 commit"""),
    "G-single, then a put": ("G-single", """T1 get 1; T2 get 1; T2 get 2; T2 put 1 12; T2 put 2 18;
        T2 commit; T1 put 2 21; T1 commit"""),
    "G2-item": ("G2-item", """T1 get 1; T1 get 2; T2 get 1; T2 get 2; T1 put 1 11; T2 put 2 21;
        T1 commit; T2 commit"""),
    "G2-two-edges": ("G2-item", """T1 get 1; T1 get 2; T2 get 2; T2 put 2 25; T2 commit; T3 get 1;
        T3 get 2; T3 commit; T1 put 1 0; T1 commit"""),
}


class Worker(threading.Thread):
    """One transaction of a schedule, in a thread of its own, so that it may wait for a lock."""

    def __init__(self, recorder, caller, server, level):
        super().__init__(daemon=True)
        self.connection = server.connect()
        self.steps, self.level = queue.Queue(), level
        self.transaction, self.recorder, self.caller = None, recorder, caller
        self.start()

    def run(self):
        """Takes steps until the transaction ends. After a refusal it aborts, and steps do nothing."""
        is_over = False
        while True:
            step = self.steps.get()
            try:
                if step and not is_over:
                    is_over = self.take(step)
            except Refused:
                self.transaction.abort()
                is_over = True
            self.steps.task_done()
            if step is None:
                return

    def take(self, step):
        """Takes a step, the first of which begins the transaction. Returns whether it has ended."""
        if self.transaction is None:
            self.transaction = Transaction(self.recorder, self.caller, self.connection, self.level)
        name, *numbers = step
        if name in ("commit", "abort"):
            getattr(self.transaction, name)()
            return True
        self.transaction.operate(name, *map(int, numbers))
        return False

    def settle(self, watcher):
        """Waits until all steps are taken, or until the server says that they wait for a lock."""
        last = time.monotonic() + PATIENCE
        blocked = f"SELECT cardinality(pg_blocking_pids({self.connection.pid}))"
        while self.steps.unfinished_tasks:
            if int(watcher.query(blocked)[0][0][0]) > 0:
                return
            if time.monotonic() > last:
                sys.exit("a step does not end")
            time.sleep(0.002)

    def end(self):
        self.steps.put(None)
        self.join()
        self.connection.close()


def run(server, level, schedule):
    """Runs a schedule. A step begins when each step before it is taken, or waits for a lock."""
    empty(server)
    recorder, watcher, workers = Recorder(), server.connect(), {}
    first = Transaction(recorder, 0, watcher, level)
    first.operate("put", 1, 10)
    first.operate("put", 2, 20)
    first.commit()
    for step in schedule.split(";"):
        name, *rest = step.split()
        if name not in workers:
            workers[name] = Worker(recorder, int(name[1:]), server, level)
        workers[name].steps.put(rest)
        for worker in workers.values():
            worker.settle(watcher)
    for worker in workers.values():
        worker.end()
    watcher.close()
    return recorder.history()


def is_prevented(kind, level):
    """Whether PostgreSQL prevents it at this level, by Hermitage's table."""
    levels = list(LEVELS.values())
    return levels.index(level) >= levels.index(PREVENTED[kind])


def fault(kind, level, found, line):
    """What is wrong with the class that was found and with the verdict, or None."""
    if found is not None and is_prevented(found, level):
        return f"{found}, which the level prevents"
    if found != kind and not is_prevented(kind, level):
        return f"{found}, but the level allows {kind}"
    if line.split()[0] != ("serializable" if found is None else "not"):
        return f"{line}, but the class is {found}"
    return None


def judge_all(server, program):
    """Prints the table. Returns how many cells passed, and how many failed."""
    print(f"PostgreSQL {server.version()}")
    passed = failed = 0
    for name, (kind, schedule) in SCHEDULES.items():
        cells = []
        for level in LEVELS.values():
            history = run(server, level, schedule)
            found = anomaly(history["entries"])
            wrong = fault(kind, level, found, verdict(program, history, False))
            passed, failed = passed + (wrong is None), failed + (wrong is not None)
            if wrong is not None:
                print(f"hermitage: {name} at {level}: {wrong}", file=sys.stderr)
            cells.append("serializable" if found is None else found)
        print("|", " | ".join([name, *cells, PREVENTED[kind]]), "|", flush=True)
    return passed, failed


def main():
    parser = argparse.ArgumentParser(description=__doc__.split("\n", 1)[0])
    parser.add_argument("--judge", metavar="PROGRAM", help="the program judge")
    parser.add_argument("--write", action="store_true", help="write the histories, and judge nothing")
    words = parser.parse_args()
    with Server() as server:
        if words.write:
            for name, (_, schedule) in SCHEDULES.items():
                for level in LEVELS.values():
                    history = {"test": name, "level": level, **run(server, level, schedule)}
                    print(json.dumps(history, separators=(",", ":")))
            return 0
        passed, failed = judge_all(server, words.judge)
    print(f"hermitage: {passed} passed, {failed} failed")
    return int(failed != 0)


if __name__ == "__main__":
    sys.exit(main())
