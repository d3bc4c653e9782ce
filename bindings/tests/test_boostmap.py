import ast
import contextlib
import inspect
import os
import random
import signal
import sys
import threading
import time
import unittest

import boostmap
from boostmap import (
    Busy, Caller, CallerTransaction, Counts, Entry, Error, Host, Judge, Link, Map, Missed, NotFed, Refused, Transaction,
    Verdict, judge_any_order, open_striped)


class Thread(threading.Thread):
    """A thread whose join raises what its target raised."""

    raised = None

    def run(self):
        try:
            super().run()
        except BaseException as error:
            self.raised = error

    def join(self, timeout=None):
        super().join(timeout)
        if self.raised:
            raise self.raised


class Interrupt(Exception):
    """What a signal handler raises in these tests."""


def interrupted(job, seconds):
    """Runs a job again and again, and raises Interrupt in it at many moments: for so long, and on a loaded machine until
    it was raised eleven times and the job has returned once, at most a minute. Returns how often it was raised."""

    def handle(*_):
        raise Interrupt

    def runs():  # its own function, since a loop's jump back may lie outside of its try
        nonlocal returned
        signal.setitimer(signal.ITIMER_REAL, 1e-5 * 1.05 ** (rounds % 97))
        ends = time.monotonic() + 0.02
        while time.monotonic() < ends:  # an interrupt in a destructor is lost
            job()
            returned += 1
        signal.setitimer(signal.ITIMER_REAL, 0)

    before, starts = signal.signal(signal.SIGALRM, handle), time.monotonic()
    count = rounds = returned = 0
    try:
        while time.monotonic() < starts + (seconds if count > 10 and returned else 60):
            try:
                runs()
            except Interrupt:
                count += 1
            rounds += 1
    finally:
        signal.setitimer(signal.ITIMER_REAL, 0)
        signal.signal(signal.SIGALRM, before)
    return count


class Calls(unittest.TestCase):
    def test_a_transaction_commits(self):
        with Map(callers=2, stripes=16) as m:
            with m.transaction() as t:
                self.assertIsNone(t.put(1, 10))
                level = t.save()
                self.assertEqual(t.take(1), 10)
                t.back(level)
                self.assertEqual(t.put_if(1, None, 11), 10)
                self.assertEqual(t.put_if(1, 10, 2**64 - 1), 10)
                self.assertEqual(t.get(1), 2**64 - 1)
            self.assertEqual((t.number, t.commit_number, len(m)), (1, 1, 1))
            self.assertEqual(m.copy(), {1: 2**64 - 1})
            m.help(1)

    def test_an_exception_aborts(self):
        with Map() as m:
            with self.assertRaises(KeyError):
                with m.transaction() as t:
                    t.put(2, 20)
                    raise KeyError
            self.assertEqual(len(m), 0)
            with m.transaction() as t:
                t.put(2, 20)
                t.roll_back()
            self.assertEqual((len(m), bool(m), bool(t)), (0, True, True))
            m.transaction().__enter__()
            self.assertEqual((m.abort(), m.abort()), (True, False))
            m.transaction().__enter__().put(2, 20)  # which nobody has, so that the next one takes it back
            self.assertEqual((m.transact(lambda t: t.get(2)), len(m)), (None, 0))

    def test_a_job_returns_and_fails(self):
        with Map(callers=2, stripes=16) as m:
            self.assertEqual(m.transact(lambda t: (t.put(1, 10), t.get(1)), caller=1), (None, 10))
            with self.assertRaises(KeyError):
                m.transact(lambda t: (t.put(1, 11), t[2]))
            with m.transaction(1) as holds:
                holds.put(1, 12)
                with self.assertRaises(Busy) as busy:
                    m.transact(lambda t: (t.put(2, 20), t.get(1)))
                with self.assertRaises(Refused) as refused, contextlib.suppress(Busy):
                    m.transact(lambda t: t.get(3), caller=1)
            self.assertEqual((busy.exception.holder, refused.exception.status, m.copy()), (1, 20, {1: 12}))

    def test_an_interrupt_leaves_no_transaction(self):
        with Map() as m:
            def moves():
                with m.transaction() as t:
                    t.put(1, 1)

            self.assertGreater(interrupted(moves, 0.5), 10)
            moves()

    def test_a_map_grows_by_itself(self):
        """If it did not, 50,000 keys would be long lists, and take minutes."""
        with Map() as m:
            with m.transaction() as t:
                for key in range(50_000):
                    t[key] = key
            self.assertEqual(len(m), 50_000)

    def test_the_history_of_a_map_is_legal(self):
        with Map(callers=2, stripes=16) as m:
            with m.transaction(0) as t:
                t.put(1, 10)
                level = t.save()
                t.put_if(1, 10, 11)
                t.put_if(2, None, 20)
                t.back(level)
                with self.assertRaises(Busy), m.transaction(1) as u:
                    u.take(1)
                t.take(2)
            with m.transaction(1) as t:
                t.put(3, 30)
                t.roll_back()
            entries = m.history()
            self.assertEqual(entries[:3], [
                Entry("began", 0, number=1), Entry("asked", 0, "put", key=1, value=10), Entry("did", 0)])
            self.assertEqual({entry.kind for entry in entries}, {
                "began", "asked", "did", "saved", "leave", "undone", "returned", "committed", "busy", "aborted"})
            self.assertEqual(len(entries), m.entries())
            for verdict in (Verdict(True, 1, 0, None, None),) * 2:
                with Judge(stripes=16) as judge:
                    judge.feed_all(m.history())
                    self.assertEqual(judge.verdict(), verdict)
                m.trim()
            self.assertEqual((m.entries(), m.copy()), (4, {1: 10}))
            m.trim_above(1)
            for _ in range(100):
                with m.transaction() as t:
                    t.put(1, 10)
            self.assertLess(m.entries(), 20)

    def test_a_transaction_is_over_after_its_with(self):
        with Map() as m:
            with m.transaction() as first:
                first.put(1, 10)
            with m.transaction() as second:
                with self.assertRaises(Refused) as refused:
                    first.put(1, 11)
                self.assertEqual(refused.exception.status, 19)
                self.assertEqual(second.get(1), 10)

    def test_a_closed_map_does_not_hide_an_exception(self):
        m = Map()
        with self.assertRaises(KeyError):
            with m.transaction() as t:
                t.put(1, 10)
                m.close()
                raise KeyError
        caller, = open_striped()
        with self.assertRaises(KeyError):
            with caller.transaction() as t:
                t.put(1, 10)
                caller.close()
                raise KeyError

    def test_busy_names_the_holder(self):
        with Map(callers=2, stripes=16) as m, m.transaction(1) as holds:
            holds.put(5, 1)
            with self.assertRaises(Busy) as busy:
                with m.transaction(0) as t:
                    t.get(5)
            self.assertEqual(busy.exception.holder, 1)

    def test_busy_that_is_caught_does_not_commit(self):
        with Map(callers=2, stripes=16) as m, m.transaction(1) as holds:
            holds.put(5, 1)
            with self.assertRaises(Refused) as refused:
                with m.transaction(0) as t:
                    t.put(6, 1)
                    with self.assertRaises(Busy):
                        t.get(5)
            self.assertEqual(refused.exception.status, 22)
            self.assertEqual(len(m), 1)

    def test_misuse_is_refused(self):
        m = Map()
        rows = [
            (38, lambda: Map(callers=65)), (18, lambda: m.transaction(9).__enter__()),
            (19, lambda: m.transaction().get(1)), (28, lambda: m.help(1, caller=1)),
        ]
        for status, misuse in rows:
            with self.assertRaises(Refused) as refused:
                misuse()
            self.assertEqual(refused.exception.status, status)
        with self.assertRaises(OverflowError):
            m.help(2**64)
        m.close()
        with self.assertRaises(Refused) as refused:
            len(m)
        self.assertEqual(refused.exception.status, 3)

    def test_threads_keep_the_sum(self):
        keys, rounds = 16, 1000
        m = Map(callers=4, stripes=16)
        with m.transaction() as t:
            for key in range(keys):
                t.put(key, 100)

        def transfers(me):
            for i in range(rounds):
                one, other = (i * 7 + me) % keys, (i * 11 + 3 * me + 1) % keys
                try:
                    with m.transaction(me) as t:
                        has = t.get(one)
                        t.put(one, max(has - 1, 0))
                        t.put(other, t.get(other) + min(has, 1))
                except Busy:
                    pass

        threads = [Thread(target=transfers, args=(me,)) for me in range(4)]
        for thread in threads:
            thread.start()
        for thread in threads:
            thread.join()
        with m.transaction() as t:
            self.assertEqual(sum(t.get(key) for key in range(keys)), 100 * keys)


class Callers(unittest.TestCase):
    def test_a_transaction_commits(self):
        one, other = open_striped(callers=2, stripes=16, keys=100, keep="commits")
        self.assertEqual((one.number, other.number), (1, 2))
        with one.transaction() as t:
            self.assertIsNone(t.put(1, 10))
            level = t.save()
            self.assertEqual(t.take(1), 10)
            t.back(level)
            self.assertEqual(t.put_if(1, None, 11), 10)
            self.assertEqual(t.put_if(1, 10, 2**64 - 1), 10)
        self.assertEqual(t.commit_number, 1)
        with self.assertRaises(KeyError):
            with one.transaction() as t:
                t.put(2, 20)
                raise KeyError
        self.assertEqual(other.transact(lambda t: (t.get(1), t.get(2))), (2**64 - 1, None))
        self.assertEqual(other.transact(lambda t: (t.copy(), len(t))), ({1: 2**64 - 1}, 1))
        plain, = open_striped()
        with plain.transaction() as t:
            t.put(1, 10)
        self.assertIsNone(t.commit_number)

    def test_a_map_tells_how_it_was_opened(self):
        for caller in open_striped(callers=3, stripes=16, keys=100, keep="commits", seed=7):
            self.assertEqual(caller.options(), (3, 16, 100, "commits", 7))
        caller, = open_striped()
        self.assertEqual(caller.options()[:4], (1, 64, 0, None))
        caller.close()
        with self.assertRaises(Refused):
            caller.options()

    def test_a_job_can_roll_back_and_return(self):
        one, other = open_striped(callers=2, stripes=16)

        def puts(t):
            t.put(1, 10)
            t.roll_back()
            return t.get(1)

        self.assertEqual(one.transact(puts), 10)
        self.assertIsNone(other.transact(lambda t: t.get(1)))
        with one.transaction() as t:
            t.put(1, 11)
            self.assertTrue(one.abort())
            self.assertFalse(one.abort())
            t.roll_back()
        self.assertIsNone(other.transact(lambda t: t.get(1)))

    def test_an_aborted_transaction_stays_over(self):
        for owner in (open_striped()[0], Map()):
            first = owner.transaction().__enter__()
            owner.abort()
            with owner.transaction() as second:
                second.put(1, 10)
                with self.assertRaises(Refused) as refused:
                    first.put(1, 11)
                self.assertEqual(refused.exception.status, 19)
                first.__exit__(GivesUp, GivesUp(), None)
                del first
            self.assertEqual(owner.copy(), {1: 10})

    def test_threads_may_share_and_close(self):
        """Each call succeeds or raises an Error."""
        for stripes in range(1, 13):
            callers = open_striped(callers=3, stripes=stripes)
            m, judge = Map(), Judge()

            def uses(seed):
                draw = random.Random(seed)
                for _ in range(200):
                    caller, key = draw.choice(callers), draw.randrange(20)
                    use = draw.choice((
                        lambda: caller.add(key, 1), lambda: caller.transact(lambda t: (t.put(key, 1), t.page(7), len(t)), tries=3),
                        lambda: caller.run([("put", key, 1), ("get", 1)]), caller.copy, caller.counts, caller.abort,
                        lambda: m.add(key, 1), m.copy, m.abort, lambda: judge.feed(Entry("began", 0, number=1)), judge.verdict))
                    with contextlib.suppress(Error):
                        use()
                draw.choice([*callers, m, judge]).close()

            threads = [Thread(target=uses, args=(seed,)) for seed in range(8)]
            for thread in threads:
                thread.start()
            for thread in threads:
                thread.join()

    def test_a_transaction_is_true_and_takes_no_stripe_by_that(self):
        one, other = open_striped(callers=2, stripes=16)
        with one.transaction() as t, other.transaction() as u:
            self.assertTrue(t)
            t.put(1, 10)
            u.put(2, 20)

    def test_only_its_own_busy_is_tried_again(self):
        one, other = open_striped(callers=2, stripes=16)
        apart, held = open_striped(callers=2, stripes=16)
        runs = []

        def looks_elsewhere(t):
            runs.append(t.put(1, 10))
            with apart.transaction() as u:
                u.get(5)

        with held.transaction() as holds:
            holds.put(5, 50)
            with self.assertRaises(Busy):
                one.transact(looks_elsewhere)
        self.assertEqual(len(runs), 1)
        self.assertIsNone(other.transact(lambda t: t.get(1)))

    def test_an_interrupt_leaves_no_stripe_held(self):
        one, other = open_striped(callers=2, stripes=16)

        def moves():
            with one.transaction() as t:
                t.put(1, t.get(2) or 0)
                t.put(3, 3)

        self.assertGreater(interrupted(moves, 1), 10)
        if not boostmap._boostmap:
            moves()  # which ends what an interrupt in a destructor has left
        other.transact(lambda t: (len(t), t.copy()), tries=0)
        moves()

    def test_a_signal_handler_may_use_the_map(self):
        """It does not hang: a call of the handler that comes within a transaction is refused."""
        one, other = open_striped(callers=2)
        m, judge, done = Map(), Judge(), []

        def handle(*_):
            for use in (lambda: m.get(1), lambda: m.put(2, 2), lambda: one.get(1), lambda: one.put(2, 2), one.copy):
                with contextlib.suppress(Refused):
                    use()
            done.append((len(m), m.copy(), one.counts(), other.counts(), one.options(), judge.verdict()))
            if len(done) < 50:
                signal.setitimer(signal.ITIMER_REAL, 1e-4)  # and not before: a slow handler would come in itself

        before = signal.signal(signal.SIGALRM, handle)
        try:
            signal.setitimer(signal.ITIMER_REAL, 1e-4)
            while len(done) < 50:
                one.add(1, 1)
                m.add(1, 1)
                one.transact(lambda t: (t.add(1, 1), t.copy()))
                self.assertTrue(len(m) and m.copy() and judge.verdict().is_legal)
                other.abort()
        finally:
            signal.setitimer(signal.ITIMER_REAL, 0)
            signal.signal(signal.SIGALRM, before)
        self.assertTrue(one[1] and m[1])

    def test_a_commit_has_a_place(self):
        one, other = open_striped(callers=2, stripes=16, keep="commits")
        self.assertIsNone(one.commit_number)
        one.put(1, 10)
        t = one.transact(lambda t: t)
        self.assertEqual((t.commit_number, one.commit_number, other.commit_number), (2, 2, None))
        other.run([("put", 1, 10)])
        with contextlib.suppress(GivesUp), one.transaction() as t:
            raise GivesUp
        with one.transaction() as t:
            t.roll_back()
        self.assertEqual((other.commit_number, one.commit_number, t.commit_number), (3, 2, None))
        self.assertEqual((other.add(1, 1), other.commit_number), (10, 4))

    def test_busy_ends_the_transaction(self):
        one, other = open_striped(callers=2, stripes=16)
        holds = one.transaction().__enter__()
        holds.put(5, 50)
        runs = []
        with self.assertRaises(Busy) as busy:
            other.transact(lambda t: runs.append(t.put(6, 60)) or t.get(5 + 16), tries=3)
        self.assertEqual((busy.exception.holder, len(runs), other.counts()), (1, 4, Counts(0, 0, 4)))
        with self.assertRaises(Refused) as refused:
            with other.transaction() as t:
                with self.assertRaises(Busy):
                    t.get(5)
        self.assertEqual(refused.exception.status, 19)
        one.close()
        self.assertEqual(other.transact(lambda t: (t.get(5), t.get(6))), (None, None))
        rows = [(38, lambda: open_striped(0)), (38, lambda: open_striped(1, 4097)), (3, one.transaction().__enter__)]
        for status, misuse in rows:
            with self.assertRaises(Refused) as refused:
                misuse()
            self.assertEqual(refused.exception.status, status)

    def test_threads_keep_the_sum(self):
        keys, rounds = 16, 1000
        callers = open_striped(callers=4, stripes=8)
        callers[0].transact(lambda t: [t.put(key, 100) for key in range(keys)])

        def transfers(caller):
            for i in range(rounds):
                one, other = (i * 7 + caller.number) % keys, (i * 11 + 3 * caller.number + 1) % keys

                def moves(t):
                    has = t.get(one)
                    t.put(one, max(has - 1, 0))
                    t.put(other, t.get(other) + min(has, 1))

                caller.transact(moves)

        threads = [Thread(target=transfers, args=(caller,)) for caller in callers]
        for thread in threads:
            thread.start()
        for thread in threads:
            thread.join()
        self.assertEqual(callers[0].transact(lambda t: sum(t.get(key) for key in range(keys))), 100 * keys)


def judged(entries, stripes):
    """The verdict on the history of a striped map."""
    with Judge(stripes, begun=True) as judge:
        judge.feed_all(entries)
        return judge.verdict()


def ended(callers, host):
    """Closes the callers, and returns their map's history."""
    for caller in callers:
        caller.close()
    return host.history()


def manner(t, model, draw):
    """Makes a random call on a caller or a transaction and on its model, a dictionary; tells whether they do the same."""
    key, value = draw.randrange(40), draw.choice((0, 1, 2**64 - 1))
    makes = draw.choice((
        lambda d: d[key], lambda d: d.__setitem__(key, value), lambda d: d.__delitem__(key), lambda d: key in d,
        lambda d: d.get(key), lambda d: d.get(key, value), lambda d: d.pop(key), lambda d: d.pop(key, None),
        lambda d: d.setdefault(key, value), lambda d: d.update({key: value, key + 1: 1}), lambda d: d.update([(key, 2)])))

    def outcome(d):
        try:
            return makes(d)
        except KeyError as absent:
            return absent.args

    return outcome(t) == outcome(model)


def call(t, model, draw):
    """Makes a random call of a caller or a transaction, and checks its reply by the model, a dictionary. The map has 7
    stripes."""
    key, value = draw.randrange(40), draw.choice((0, 1, 2, 3, 2**64 - 1))
    had, delta = model.get(key), draw.randrange(-4, 5)
    expected = had if draw.random() < 0.5 else draw.choice((None, 1, 2))
    kind, due, after = draw.randrange(12), had, had
    if kind > 8:
        return manner(t, model, draw)
    if kind == 0:
        reply, after = t.put(key, value), value
    elif kind == 1:
        reply, after = t.take(key), None
    elif kind == 2:
        reply, after = t.put_if(key, expected, value), value if had == expected else had
    elif kind == 3:
        reply, due = t.get_or_put(key, value), value if had is None else had
        after = due
    elif kind == 4:
        reply, after = t.update(key, lambda is_: None if is_ else value), None if had else value
    elif kind == 5 and not 0 <= (had or 0) + delta < 2**64:
        try:
            t.add(key, delta)
            reply = "no exception"
        except OverflowError:
            reply = had
    elif kind == 5:
        reply, after = t.add(key, delta), (had or 0) + delta
    elif kind == 6 and draw.random() < 0.05:
        reply, due = (t.copy(), t.count(), list(t), list(t.items())), (model, len(model), sorted(model), sorted(model.items()))
    elif kind == 7 and draw.random() < 0.01:
        reply, due = t.clear(), len(model)
        model.clear()
        after = None
    elif kind == 8 and draw.random() < 0.2:
        reply = t.page(key) if hasattr(t, "page") else list(t.pages())[key % 7]
        due = {k: v for k, v in model.items() if k % 7 == key % 7}
    else:
        reply = t.get(key)
    if after is None:
        model.pop(key, None)
    else:
        model[key] = after
    return reply == due


class GivesUp(Exception):
    """What a job of these tests raises."""


def drawn_run(model, draw):
    """Draws operations, half the time such that the archive runs them, and whether they are strict. Returns these, the
    replies that are due, whether a put_if misses, and the model afterwards."""
    operations, due, changed, strict, missed = [], [], dict(model), draw.random() < 0.5, False
    names = ["get", "put", "take", "put_if"] + ["add", "get_or_put"] * draw.randrange(2)
    for _ in range(draw.randrange(8)):
        name, key, value = draw.choice(names), draw.randrange(40), draw.randrange(4)
        had = after = reply = changed.get(key)
        expected = had if draw.random() < 0.75 else draw.choice((None, 1, 2))
        if name == "put_if":
            operations.append((name, key, expected, value))
            after = value if had == expected else had
        elif name in ("get", "take"):
            operations.append((name, key))
            after = had if name == "get" else None
        elif name == "get_or_put":
            operations.append((name, key, value))
            reply = after = value if had is None else had
        else:
            value = value if name == "put" or not had or had < 2**63 else -value
            operations.append((name, key, value))
            after = value if name == "put" else (had or 0) + value
        if not missed:
            due.append(reply)
        missed |= strict and name == "put_if" and had != expected
        changed.pop(key, None)
        if after is not None:
            changed[key] = after
    return operations, strict, due, missed, model if missed else changed


class Operations(unittest.TestCase):
    def run_drawn(self, caller, model, draw):
        """Makes a random run, and returns how many operations it had, and the model after it."""
        operations, strict, due, missed, model = drawn_run(model, draw)
        if missed:
            with self.assertRaises(Missed) as raised:
                caller.run(operations, strict=True)
            self.assertEqual(raised.exception.replies, due)
        else:
            self.assertEqual(caller.run(operations, strict), due)
        return len(operations), model

    def transaction(self, caller, model, draw):
        """Makes a random transaction, and returns how many calls it had, and the model after it."""
        calls, ending, changed = draw.randrange(1, 10), draw.randrange(7), dict(model)
        if ending == 6:
            return self.run_drawn(caller, model, draw)
        if ending == 0:
            self.assertTrue(call(caller, model, draw))
            return 1, model
        try:
            with caller.transaction() as t:
                self.assertTrue(call(t, changed, draw))
                level, before = t.save(), dict(changed)
                for i in range(calls):
                    self.assertTrue(call(t, changed, draw))
                if ending == 1:
                    raise GivesUp
                if ending == 2:
                    t.roll_back()
                if ending == 3:
                    t.back(level)
                    changed = before
                    self.assertTrue(call(t, changed, draw))
        except GivesUp:
            pass
        return calls, model if ending in (1, 2) else changed

    def test_calls_beside_a_model(self):
        for keep in (None, "entries"):
            draw, model, made = random.Random(1), {}, 0
            callers = open_striped(callers=2, stripes=7, keep=keep)
            host = Host(callers)
            while made < (50_000 if boostmap._boostmap else 5_000):
                calls, model = self.transaction(draw.choice(callers), model, draw)
                made += calls
            self.assertEqual(callers[0].copy(), model)
            self.assertEqual(list(callers[0].items()), sorted(model.items()))
            commits = sum(caller.counts().commits for caller in callers)
            self.assertGreater(min(caller.counts().aborts for caller in callers), 10)
            if keep:
                entries = ended(callers, host)
                self.assertEqual(judged(entries, 7), Verdict(True, commits, 0, None, None))
                gets = (i for i in range(len(entries) // 2, len(entries)) if entries[i].operation == "get")
                forged = next(gets) + 1
                entries[forged] = Entry("did", entries[forged].caller, value=12345)
                self.assertEqual(judged(entries, 7)[3:], (forged, "replies"))

    def test_a_whole_transaction_in_one_call(self):
        for keep in (None, "entries"):
            one, other = open_striped(callers=2, keep=keep)
            replies = one.run([("put", 1, 10), ("get", 1), ["add", 1, -4], ("put_if", 1, 6, 7), ("get_or_put", 2, 20),
                               ("take", 1), ("put_if", 3, None, 30), ("get", 3)])
            self.assertEqual(replies, [None, 10, 10, 6, 20, 7, None, 30])
            self.assertEqual((other.copy(), one.run([])), ({2: 20, 3: 30}, []))
            rows = [(OverflowError, [("put", 4, 1), ("add", 2, -21)]), (OverflowError, [("add", 2, -21), ("put", 4, 1)]),
                    (ValueError, [("put", 4, 1), ("clear",)]),
                    (ValueError, [()]), (TypeError, [("put", 4, 1), ("get", "x")]), (TypeError, [("get",)]), (TypeError, [5]),
                    (OverflowError, [("add", 2, 2**63)]), (OverflowError, [("put", 2, 2**64)])]
            for error, operations in rows:
                with self.assertRaises(error):
                    one.run(operations)
            self.assertEqual(other.copy(), {2: 20, 3: 30})
            with one.transaction(), self.assertRaises(Refused) as refused:
                one.get(1)
            self.assertEqual(refused.exception.status, 20)

    def test_a_strict_run(self):
        for others in ([], [("add", 4, 1)]):  # by one call of the archive, and one by one
            one, other = open_striped(callers=2)
            replies = one.run(others + [("put_if", 1, None, 10), ("put", 2, 20)], strict=True)
            self.assertEqual(replies, [None] * (len(others) + 2))
            before = other.copy()
            for at in range(3):
                operations = [("put", 1, 11), ("put", 2, 21), ("get", 2)]
                operations[at] = ("put_if", 1, None, 12) if at == 0 else ("put_if", 3, 30, 31)
                with self.assertRaises(Missed) as missed:
                    one.run(operations + others, strict=True)
                self.assertEqual(missed.exception.replies, [[10], [10, None], [10, 20, None]][at])
                self.assertEqual(other.copy(), before)
            self.assertEqual(one.counts(), Counts(1, 3, 0))
            self.assertEqual(one.run([("put_if", 1, None, 12)] + others, strict=False), [10] + [1] * len(others))
            with one.transaction(), self.assertRaises(Refused) as refused:
                one.run(others + [("get", 1)], strict=True)
            self.assertEqual(refused.exception.status, 20)
            one.close()
            with self.assertRaises(Refused) as refused:
                one.run(others)
            self.assertEqual(refused.exception.status, 3)

    def test_a_strict_run_waits(self):
        callers, rounds = open_striped(callers=4, stripes=4), 500
        callers[0].put_all({7: 0, 8: 0})

        def adds(caller):
            made = 0
            while made < rounds:
                found, same = caller.run([("get", 7), ("get", 8)])
                self.assertEqual(found, same)
                with contextlib.suppress(Missed):
                    caller.run([("put", 8, found + 1), ("put_if", 7, found, found + 1)], strict=True)
                    made += 1

        threads = [Thread(target=adds, args=(caller,)) for caller in callers]
        for thread in threads:
            thread.start()
        for thread in threads:
            thread.join()
        self.assertEqual(callers[0].copy(), {7: 4 * rounds, 8: 4 * rounds})

    def test_a_walk_by_pages(self):
        """Beside threads that move units within a stripe, so that each page has the sum of its stripe."""
        stripes, keys = 8, 160
        walker, *movers = open_striped(callers=4, stripes=stripes)
        walker.put_all({key: 100 for key in reversed(range(keys))})

        def moves(caller):
            draw = random.Random(caller.number)
            for _ in range(500):
                one = draw.randrange(keys)
                other = (one + stripes * draw.randrange(20)) % keys

                def moves_one(t):
                    if t.get(one):
                        t.add(one, -1)
                        t.add(other, 1)

                caller.transact(moves_one)

        threads = [Thread(target=moves, args=(caller,)) for caller in movers]
        for thread in threads:
            thread.start()
        for _ in range(20):
            pages = list(walker.pages())
            self.assertEqual([list(page) for page in pages], [list(range(key, keys, stripes)) for key in range(stripes)])
            self.assertEqual([sum(page.values()) for page in pages], [100 * keys // stripes] * stripes)
        for thread in threads:
            thread.join()
        with walker.transaction() as reads:
            self.assertEqual(list(reads.page(3 + stripes)), list(range(3, keys, stripes)))
            with movers[0].transaction() as t:
                t.put(4, 1)
            with self.assertRaises(Refused) as refused, movers[0].transaction() as t:
                with self.assertRaises(Busy) as busy:
                    t.page(3)
                t.page(4)
            self.assertEqual((busy.exception.holder, refused.exception.status), (walker.number, 19))
            with self.assertRaises(Refused) as refused:
                next(walker.pages())
            self.assertEqual(refused.exception.status, 20)
            for wrong, error in (("x", TypeError), (-1, OverflowError)):
                with self.assertRaises(error):
                    reads.page(wrong)

    def test_calls_at_once_wait(self):
        one, other = open_striped(callers=2)
        one.put(5, 50)
        calls = [(lambda: other.get(5), 50), (lambda: other.run([("get", 5)]), [50]), (lambda: other.run([("add", 5, 0)]), [50]),
                 (lambda: [page for page in other.pages() if page], [{5: 50}])]
        for call_at_once, reply in calls:
            holds, replies, busy = one.transaction().__enter__(), [], other.counts().busy
            holds.take(5)
            waits = Thread(target=lambda: replies.append(call_at_once()))
            waits.start()
            while waits.is_alive() and other.counts().busy == busy:
                time.sleep(1e-3)
            holds.put(5, 50)
            holds.__exit__(None, None, None)
            waits.join()
            self.assertEqual(replies, [reply])
            self.assertGreater(other.counts().busy, busy)
        self.assertEqual((one.counts(), other.counts().commits), (Counts(5, 0, 0), 3 + 64))

    def test_an_exception_ends_the_transaction_at_once(self):
        for keep in (None, "entries"):
            one, other = open_striped(callers=2, keep=keep)

            def fails(t):
                t.put(5, 50)
                raise GivesUp

            try:
                one.transact(fails)
            except GivesUp:  # whose traceback holds the transaction
                self.assertIsNone(other.transact(lambda t: t.get(5), tries=0))
            self.assertEqual(one.counts(), Counts(0, 1, 0))

    def test_an_interrupt_ends_a_wait(self):
        def handle(_, frame):
            while frame and frame.f_code.co_name != "__del__":
                frame = frame.f_back
            if not frame:
                raise Interrupt
            signal.setitimer(signal.ITIMER_REAL, 1e-4)  # since in a destructor it would be lost

        one, other = open_striped(callers=2)
        before = signal.signal(signal.SIGALRM, handle)
        try:
            with one.transaction() as holds:
                holds.put(5, 50)
                for waits in (lambda: other.get(5), lambda: other.run([("get", 5)]), lambda: other.run([("add", 5, 1)]),
                              lambda: list(other.pages()), lambda: other.transact(lambda t: t.get(5))):
                    with self.assertRaises(Interrupt):
                        signal.setitimer(signal.ITIMER_REAL, 0.02)
                        waits()
        finally:
            signal.setitimer(signal.ITIMER_REAL, 0)
            signal.signal(signal.SIGALRM, before)
        self.assertEqual(other.get(5), 50)

    def test_an_interrupt_leaves_all_or_nothing(self):
        def moves_by_a_strict_run(caller):
            one, two = caller.run([("get", 1), ("get", 2)])
            caller.run([("put_if", 1, one, one - 1), ("put_if", 2, two, two + 1)], strict=True)

        jobs = [
            lambda caller: caller.run([("add", 1, -1), ("add", 2, 1)]),
            moves_by_a_strict_run,
            lambda caller: caller.transact(lambda t: (t.add(1, -1), t.add(2, 1))),
            lambda caller: caller.transact(lambda t: (t.update(1, lambda v: v - 1), t.update(2, lambda v: v + 1))),
        ]
        for keep in (None, "entries"):
            for job in jobs:
                one, other = callers = open_striped(callers=2, keep=keep)
                host = Host(callers)
                one.put_all({1: 2**40, 2: 0})

                self.assertGreater(interrupted(lambda: job(one), 0.1 if keep else 0.25), 10)
                if not boostmap._boostmap:
                    one.abort()  # what an interrupt in a destructor has left
                items = other.transact(lambda t: t.copy(), tries=0)
                self.assertEqual(sum(items.values()), 2**40)
                self.assertGreater(items[2], 0)
                if keep and boostmap._boostmap:
                    commits = one.counts().commits + other.counts().commits
                    self.assertEqual(judged(ended(callers, host), 64), Verdict(True, commits, 0, None, None))

    def test_threads_that_come_and_go_are_judged(self):
        callers = open_striped(callers=40, stripes=5, keep="entries")
        host = Host(callers)
        callers[0].put_all({key: 100 for key in range(10)})
        audits, commits = [], []

        def visits(caller):
            draw = random.Random(caller.number)
            for _ in range(30):
                one, another = draw.randrange(10), draw.randrange(10)

                def moves(t):
                    has = t.get(one)
                    if has:
                        t.put(one, has - 1)
                        t.add(another, 1)

                caller.transact(moves)
            audits.append(sum(caller.values()))
            if draw.random() < 0.5:
                left = caller.transaction().__enter__()  # open until the caller is closed
                with contextlib.suppress(Busy):
                    left.put(1, 10**6)
            commits.append(caller.counts().commits)
            caller.close()

        threads = []
        for caller in callers[1:]:
            if len(threads) >= 4:
                threads.pop(0).join()
            threads.append(Thread(target=visits, args=(caller,)))
            threads[-1].start()
        for thread in threads:
            thread.join()
        self.assertEqual((audits, sum(callers[0].values())), ([1000] * 39, 1000))
        commits = sum(commits) + callers[0].counts().commits
        with self.assertRaises(Refused) as missing:
            host.history()
        self.assertEqual(missing.exception.status, 12)
        self.assertEqual(judged(ended(callers, host), 5), Verdict(True, commits, 0, None, None))

    def test_hosts(self):
        callers = open_striped(callers=2)
        host = Host(callers)
        host.close()
        for status, fails in [(10, lambda: Host(callers)), (10, lambda: Host([])), (3, host.history)]:
            with self.assertRaises(Refused) as refused:
                fails()
            self.assertEqual(refused.exception.status, status)
        with self.assertRaises(ValueError):
            open_striped(keep="everything")
        with self.assertRaises(Refused) as refused:
            Host(open_striped(keep="commits")).history()
        self.assertEqual(refused.exception.status, 11)


def resident():
    """The pages of memory that the process has."""
    with open("/proc/self/statm", encoding="ascii") as file:
        return int(file.read().split()[1])


class Manners(unittest.TestCase):
    """The manners of a dictionary."""

    def on_one_key(self, t):
        """Calls on an empty map, which leave three pairs."""
        t[1] = 10
        self.assertEqual((t[1], 1 in t, 2 in t, 2 not in t), (10, True, False, True))
        for fails in (lambda: t[2], lambda: t.pop(2), lambda: t.__delitem__(2)):
            with self.assertRaises(KeyError) as absent:
                fails()
            self.assertEqual(absent.exception.args, (2,))
        self.assertEqual((t.get(1), t.get(2), t.get(2, 7), t.get(1, 7), t.get(2, "no")), (10, None, 7, 10, "no"))
        self.assertEqual((t.setdefault(1, 11), t.setdefault(2, 20), t.pop(2), t.pop(2, 7)), (10, 20, 20, 7))
        self.assertIsNone(t.pop(2, None))
        del t[1]
        t.update({3: 30, 4: 40})
        t.update([(5, 50), (3, 31)])
        self.assertEqual(t.update(5, lambda value: value + 1), 50)
        t[4] += 2
        self.assertTrue(t)
        self.assertNotEqual(t, {3: 31, 4: 42, 5: 51})
        self.assertEqual(len({t, t}), 1)

    def on_all_keys(self, t):
        due = {3: 31, 4: 42, 5: 51}
        self.assertEqual((len(t), t.count(), t.copy(), dict(t), {**t}), (3, 3, due, due, due))
        self.assertEqual((set(t), set(t.keys()), sorted(t.values())), ({3, 4, 5}, {3, 4, 5}, [31, 42, 51]))
        self.assertEqual(t.items(), due.items())
        self.assertEqual(sum(value for _, value in t.items()), 124)
        self.assertEqual(t.clear(), 3)
        self.assertEqual((len(t), list(t), bool(t)), (0, [], True))

    def test_of_a_caller(self):
        caller, other = open_striped(callers=2)
        self.on_one_key(caller)
        self.assertEqual(list(other), [3, 4, 5])
        self.on_all_keys(caller)

    def test_of_a_transaction(self):
        caller, other = open_striped(callers=2)
        caller.transact(lambda t: (self.on_one_key(t), self.on_all_keys(t)))
        self.assertEqual((caller.counts(), other.copy()), (Counts(1, 0, 0), {}))

    def test_of_a_map(self):
        with Map() as m:
            self.on_one_key(m)
            self.on_all_keys(m)
            with m.transaction() as t:
                self.on_one_key(t)
                with self.assertRaises(TypeError):
                    iter(t)
            self.on_all_keys(m)

    def test_a_caller_in_a_transaction_is_refused(self):
        caller, = open_striped()
        m = Map()
        for owner in (caller, m):
            with owner.transaction():
                for fails in (lambda: owner[1], lambda: 1 in owner, lambda: owner.pop(1, None), lambda: owner.update({1: 1})):
                    with self.assertRaises(Refused) as refused:
                        fails()
                    self.assertEqual(refused.exception.status, 20)
            self.assertEqual(len(owner), 0)


WRONG = [(1.5, TypeError), ("1", TypeError), (None, TypeError), ([], TypeError), (-1, OverflowError), (2**64, OverflowError)]


class Misuse(unittest.TestCase):
    """What is no number of 64 bits raises TypeError or OverflowError, alike by the module in C and by ctypes."""

    def raises(self, error, fails, *args, **names):
        with self.assertRaises(error, msg=(fails, args, names)) as raised:
            fails(*args, **names)
        self.assertIs(type(raised.exception), error)

    def on_one_key(self, t):
        for wrong, error in WRONG:
            for name in ("get", "take", "pop", "__getitem__", "__delitem__", "__contains__"):
                self.raises(error, getattr(t, name), wrong)
            for name in ("put", "get_or_put", "setdefault", "__setitem__"):
                self.raises(error, getattr(t, name), wrong, 1)
                self.raises(error, getattr(t, name), 1, wrong)
            self.raises(error, t.put_if, wrong, 1, 1)
            self.raises(error, t.put_if, 1, 1, wrong)
            self.raises(error, t.add, wrong, 1)
            self.raises(error, t.update, wrong, lambda _: 1)
            self.raises(error, t.update, {1: wrong})
            if wrong is not None:
                self.raises(error, t.put_if, 1, wrong, 1)
                self.raises(error, t.update, 1, lambda _: wrong)
        for wrong, error in [(1.5, TypeError), (None, TypeError), (-2**63 - 1, OverflowError), (2**63, OverflowError)]:
            self.raises(error, t.add, 1, wrong)
        self.raises(OverflowError, t.add, 1, -1)
        rows = [("get", 0), ("get", 3), ("take", 0), ("take", 2), ("pop", 0), ("pop", 3), ("put", 1), ("put", 3), ("put_if", 2),
                ("put_if", 4), ("add", 1), ("add", 3), ("get_or_put", 1), ("setdefault", 1), ("update", 0), ("update", 3),
                ("put_all", 0), ("transact" if hasattr(t, "transact") else "back", 3)]
        for name, count in rows:
            self.raises(TypeError, getattr(t, name), *[1] * count)
        for names in ({"key": 1}, {"nothing": 1}):
            self.raises(TypeError, t.get, **names)

    def test_of_callers(self):
        caller, = open_striped()
        self.on_one_key(caller)
        self.assertEqual((caller.abort(), caller.copy(), caller.count()), (False, {}, 0))
        for wrong, error in WRONG:
            if wrong is not None:
                self.raises(error, caller.transact, len, wrong)
                self.raises(error, caller.transact, len, tries=wrong)
            for operation in [("get", wrong), ("put", 1, wrong), ("put", wrong, 1), ("put_if", 1, 1, wrong), ("add", wrong, 1)]:
                self.raises(error, caller.run, [("put", 1, 1), operation])
                self.raises(error, caller.run, [("add", 1, 1), operation], strict=True)
        counts = caller.counts()
        for operations in [5, [5], [("get",)], [("get", 1, 2)], [("put", 1)], [("add", 1, 1.5)]]:
            self.raises(TypeError, caller.run, operations)
        for operations in [[()], [("clear",)], [(5, 5)], ["get"], [("", 1)]]:
            self.raises(ValueError, caller.run, operations)
        self.raises(TypeError, caller.transact)
        self.raises(TypeError, caller.transact, 5)
        self.assertEqual(caller.counts(), counts._replace(aborts=counts.aborts + 1))
        self.raises(TypeError, Caller, 1)

    def test_of_transactions(self):
        caller, = open_striped()
        with caller.transaction() as t:
            self.on_one_key(t)
            for wrong, error in WRONG:
                self.raises(error, t.back, wrong)
                self.raises(error, t.page, wrong)
            self.raises(TypeError, t.save, 1)
            self.raises(TypeError, t.roll_back, 1)
            self.assertEqual(t.copy(), {})
        self.raises(TypeError, t.get, "1")  # also after its end
        self.raises(Refused, t.get, 1)
        for wrong in (None, 5, Map()):
            self.raises(TypeError, CallerTransaction, wrong)

    def test_of_maps(self):
        with Map() as m:
            self.on_one_key(m)
            with m.transaction() as t:
                self.on_one_key(t)
            for wrong, error in WRONG:
                for fails in (Map, m.trim_above, m.help, m.transaction, lambda n: Map(1, 2, n), m.abort):
                    self.raises(error, fails, wrong)
            self.assertEqual((m.copy(), m.abort()), ({}, False))
        for wrong in (None, 5, open_striped()[0]):
            self.raises(TypeError, Transaction, wrong)

    def test_of_openings(self):
        for wrong, error in WRONG:
            for name in ("callers", "stripes", "keys", "seed"):
                if (name, wrong) != ("seed", None):
                    self.raises(error, open_striped, **{name: wrong})
            self.raises(error, Judge, wrong)
        for keep in (1, "", "Commits"):
            self.raises(ValueError, open_striped, keep=keep)
        for wrong in (5, [5], [None], Map().items):
            self.raises(TypeError, Host, wrong)

    def test_of_judges(self):
        caller, = open_striped()
        with Judge() as judge:
            for wrong, error in WRONG:
                if wrong is None:
                    continue
                for entry in (Entry("began", wrong), Entry("asked", 0, "put", key=wrong, value=1), Entry("did", 0, value=wrong),
                              Entry("asked", 0, "put_if", key=1, value=1, expected=wrong), Entry("leave", 0, number=wrong)):
                    for feeds in (judge.feed, lambda e: judge.feed_all([e]), lambda e: judge_any_order([e])):
                        self.raises(error, feeds, entry)
            for wrong in (5, None, (1, 2), ("began", 0, None, None, None, None, 1), caller):
                for feeds in (judge.feed, lambda e: judge.feed_all([e]), lambda e: judge_any_order([e])):
                    self.raises(TypeError, feeds, wrong)
            self.raises(TypeError, judge.feed_all, 5)
            self.raises(TypeError, judge_any_order, 5)
            for entry in (Entry("begins", 0), Entry(None, 0), Entry("asked", 0), Entry("asked", 0, "putt"), Entry("did", 64)):
                self.raises(Refused, judge.feed, entry)
                self.raises(NotFed, judge.feed_all, [entry])
                self.raises(Refused, judge_any_order, [entry])
            self.assertEqual(judge.verdict(), Verdict(True, 0, 0, None, None))


MANNERS = {"__bool__", "__contains__", "__delitem__", "__enter__", "__exit__", "__getitem__", "__iter__", "__len__", "__setitem__"}


class Hints(unittest.TestCase):
    """The file of type hints names what the module has."""

    def setUp(self):
        with open(os.path.join(os.path.dirname(boostmap.__file__), "__init__.pyi"), encoding="ascii") as file:
            self.body = ast.parse(file.read()).body
        self.classes = {node.name: node for node in self.body if isinstance(node, ast.ClassDef)}

    def members(self, name):
        """The definitions of a class and of its bases, by name: a list of overloads, or none for a member."""
        found = {}
        for base in self.classes[name].bases:
            found.update(self.members(base.id) if base.id in self.classes else {})
        for node in self.classes[name].body:
            if isinstance(node, ast.AnnAssign):
                found[node.target.id] = []
            elif isinstance(node, ast.FunctionDef):
                is_property = any(getattr(mark, "id", "") == "property" for mark in node.decorator_list)
                is_overload = any(getattr(mark, "id", "") == "overload" for mark in node.decorator_list)
                found[node.name] = (found.get(node.name, []) if is_overload else []) + [node] * (not is_property)
        return found

    def parameters(self, overloads):
        """The names of the parameters, and those that some overload does without."""
        names = [[arg.arg for arg in node.args.posonlyargs + node.args.args if arg.arg != "self"] for node in overloads]
        needed = min(len(these) - len(node.args.defaults) for these, node in zip(names, overloads))
        longest = max(names, key=len)
        return longest, longest[needed:]

    def same_parameters(self, overloads, call, name):
        names, optional = self.parameters(overloads)
        has = [p for p in inspect.signature(call).parameters.values() if p.name != "self" and p.kind != p.VAR_POSITIONAL]
        self.assertEqual(names, [p.name for p in has], name)
        self.assertEqual(optional, [p.name for p in has if p.default is not p.empty], name)
        marked = overloads[-1].args.posonlyargs != []
        self.assertTrue(all((p.kind == p.POSITIONAL_ONLY) == marked for p in has), name)

    def test_the_names_are_those_of_the_module(self):
        names = {node.name for node in self.body if isinstance(node, (ast.ClassDef, ast.FunctionDef)) and node.name[0] != "_"}
        listed = next(node.value for node in self.body if isinstance(node, ast.Assign) and node.targets[0].id == "__all__")
        self.assertEqual(ast.literal_eval(listed), boostmap.__all__)
        self.assertEqual(names, set(boostmap.__all__))
        for node in self.body:
            if isinstance(node, ast.FunctionDef):
                self.same_parameters([node], getattr(boostmap, node.name), node.name)

    def test_the_members_are_those_of_the_classes(self):
        for name in boostmap.__all__:
            kind = getattr(boostmap, name)
            if not isinstance(kind, type):
                continue
            members = self.members(name)
            if issubclass(kind, tuple):
                fields = tuple(member for member, calls in members.items() if not calls and member != "is_serializable")
                self.assertEqual(fields, kind._fields, name)
                continue
            if issubclass(kind, Exception):
                self.assertEqual([b.id for b in self.classes[name].bases], [kind.__bases__[0].__name__])
                continue
            own = {member for member in dir(kind) if member[0] != "_" or member in MANNERS}
            own -= {"__iter__"} if kind is Transaction else set()  # it refuses to be walked over
            self.assertEqual(own, {member for member in members if member != "__init__"}, name)
            for member, overloads in members.items():
                if overloads and member[0] != "_":
                    self.same_parameters(overloads, getattr(kind, member), (name, member))
                    self.assertTrue(getattr(kind, member).__doc__, (name, member))

    def test_the_module_says_that_it_has_hints(self):
        self.assertTrue(os.path.exists(os.path.join(os.path.dirname(boostmap.__file__), "py.typed")))


class Others(unittest.TestCase):
    """Callers that other callers make."""

    def test_a_transaction_continues_and_the_map_lives(self):
        one, two = open_striped(callers=2, stripes=16, keep="commits")
        with one.transaction() as t:
            t.put(5, 50)
            three = one.another()
            four = three.another()
            with self.assertRaises(Busy) as busy:
                four.transact(lambda u: u.get(5 + 16), tries=0)
            self.assertEqual((busy.exception.holder, four.counts(), t.get(5)), (1, Counts(0, 0, 1), 50))
        self.assertEqual((t.commit_number, one.counts()), (1, Counts(1, 0, 0)))
        self.assertEqual(four.options(), one.options())
        with three.transaction() as t:
            t.put(6, 60)
            with self.assertRaises(Busy) as busy, four.transaction() as u:
                u.get(6)
            self.assertEqual(busy.exception.holder, three.number)
            t.roll_back()
        self.assertEqual(len({one.number, two.number, three.number, four.number}), 4)
        for caller in (one, two, three):
            caller.close()
        self.assertEqual(four.another().copy(), {5: 50})

    def test_what_is_refused(self):
        closed, = open_striped()
        closed.close()
        kept, = open_striped(keep="entries")
        for number in range(2, 65_536):
            self.assertEqual(kept.another().number, number)
        for status, caller in [(3, closed), (38, kept)]:
            with self.assertRaises(Refused) as refused:
                caller.another()
            self.assertEqual(refused.exception.status, status)
        with self.assertRaises(TypeError):
            kept.another(1)

    def test_numbers_differ_and_no_memory_stays(self):
        callers, numbers, before = open_striped(callers=2, stripes=16), [[], []], resident()

        def makes(i):
            caller = callers[i]
            for _ in range(50_000):
                other = caller.another()
                numbers[i].append(other.number)
                other.put(i, 1)
                caller = other  # the one before it is freed

        threads = [Thread(target=makes, args=(i,)) for i in range(2)]
        for thread in threads:
            thread.start()
        for thread in threads:
            thread.join()
        self.assertEqual(len({1, 2, *numbers[0], *numbers[1]}), 100_002)
        # The numbers take 8 MB, and that many callers, if they stayed, more than 40 MB.
        self.assertLess(resident() - before, 6144)

    def test_threads_that_come_and_go(self):
        first, = open_striped(stripes=5)
        first.put_all({key: 100 for key in range(10)})
        audits, gone = [], []

        def visits(caller):
            draw = random.Random(caller.number)
            for _ in range(30):
                one, another = draw.randrange(10), draw.randrange(10)

                def moves(t):
                    has = t.get(one)
                    if has:
                        t.put(one, has - 1)
                        t.add(another, 1)

                caller.transact(moves)
            audits.append(sum(caller.values()))
            if draw.random() < 0.5:
                left = caller.transaction().__enter__()  # open until the caller is closed
                with contextlib.suppress(Busy):
                    left.put(1, 10**6)
            gone.append(caller.number)
            caller.close()

        threads = []
        for _ in range(40):
            if len(threads) >= 4:
                threads.pop(0).join()
            threads.append(Thread(target=visits, args=(first.another(),)))
            threads[-1].start()
        for thread in threads:
            thread.join()
        self.assertEqual((audits, sum(first.values()), len(set(gone))), ([1000] * 40, 1000, 40))


class Judges(unittest.TestCase):
    def test_verdicts(self):
        entries = [
            Entry("began", 0, number=1), Entry("asked", 0, "put_if", key=3, value=30), Entry("did", 0),
            Entry("began", 1, number=2), Entry("busy", 1, "get", key=11, number=0), Entry("aborted", 1),
            Entry("saved", 0), Entry("asked", 0, "take", key=3), Entry("did", 0, value=30),
            Entry("leave", 0, number=1), Entry("undone", 0), Entry("returned", 0, number=1),
            Entry("asked", 0, "put_if", key=3, value=31, expected=30), Entry("did", 0, value=30),
            Entry("leave", 0), Entry("undone", 0), Entry("undone", 0), Entry("aborted", 0),
            Entry("began", 1, number=3), Entry("committed", 1, number=1),
        ]
        with Judge(stripes=8) as judge:
            for entry in entries:
                judge.feed(entry)
            self.assertEqual(judge.verdict(), Verdict(True, 1, 0, None, None))
            with self.assertRaises(Refused) as refused:
                judge.feed(Entry("saved", 64))
            self.assertEqual(refused.exception.status, 8)
            judge.feed(Entry("began", 0, number=4))
            judge.feed(Entry("asked", 0, "put", key=3, value=1))
            judge.feed(Entry("did", 0, value=7))
            self.assertEqual(judge.verdict(), Verdict(False, None, None, 22, "replies"))
        with self.assertRaises(Refused):
            judge.verdict()
        with self.assertRaises(Refused):
            Judge(stripes=0)

    def test_readers_of_one_key_are_serializable(self):
        entries = [
            Entry("began", 0, number=1), Entry("began", 1, number=2), Entry("asked", 0, "get", key=3), Entry("did", 0),
            Entry("asked", 1, "get", key=3), Entry("did", 1), Entry("committed", 0, number=1),
            Entry("committed", 1, number=2),
        ]
        with Judge(stripes=8) as by_locks, Judge(by_commits=True) as by_commits:
            by_locks.feed_all(entries)
            by_commits.feed_all(entries)
            by_commits.feed_all([])
            with self.assertRaises(NotFed) as not_fed:
                by_commits.feed_all([Entry("began", 0, number=3), Entry("saved", 64)])
            self.assertEqual((not_fed.exception.status, not_fed.exception.fed), (8, 1))
            self.assertEqual(by_locks.verdict(), Verdict(False, None, None, 4, "locks"))
            self.assertEqual(by_commits.verdict(), Verdict(True, 2, 1, None, None))

    def test_any_order(self):
        """The small histories of docs/VERDICTS.md, with their lines there. A cycle may be told from any of its links on."""
        both, ends = [Entry("began", 0, number=1), Entry("began", 1, number=2)], [
            Entry("committed", 0, number=1), Entry("committed", 1, number=2)]

        def got(caller, key, reply=None):
            return [Entry("asked", caller, "get", key=key), Entry("did", caller, value=reply)]

        def put(caller, key, value, reply=None):
            return [Entry("asked", caller, "put", key=key, value=value), Entry("did", caller, value=reply)]

        def took(caller, key, reply):
            return [Entry("asked", caller, "take", key=key), Entry("did", caller, value=reply)]

        def alone(number, *parts):
            return sum(parts, [Entry("began", 0, number=number)]) + [Entry("committed", 0, number=number)]

        left = [Entry("leave", 0), Entry("aborted", 0)]
        rows = [
            ([], "serializable 0 commits", []),
            (both + got(0, 1) + got(1, 1) + ends, "serializable 2 commits", [1, 2]),
            (both[:1] + got(0, 1, 7) + left, "serializable 0 commits", []),
            (alone(1, got(0, 1, 7)), "not serializable: transaction 1 read 7 at key 1, which no committed transaction left",
             ("unwritten", 1, 1, 7)),
            (both + got(0, 1) + put(1, 1, 5) + [Entry("committed", 1, number=1), Entry("committed", 0, number=2)],
             "serializable 2 commits", [1, 2]),
            (both + put(0, 1, 5) + got(1, 1, 5) + ends, "serializable 2 commits", [1, 2]),
            ([Entry("began", 0, number=2)], "not serializable: entry 0 has the wrong shape", ("misshapen", 0, None, None)),
            ([Entry("began", 0, number=1), Entry("asked", 0, "put", key=1, value=5)], "serializable 0 commits", []),
            (both + got(0, 1) + got(1, 2) + put(0, 2, 5) + put(1, 1, 6) + ends,
             "not serializable: G2-item, cycle of 2; transaction 1 read none at key 1, which transaction 2 replaced; "
             "transaction 2 read none at key 2, which transaction 1 replaced",
             [Link(1, "replaced", 1, None), Link(2, "replaced", 2, None)]),
            (both + put(0, 1, 5) + put(1, 1, 6) + ends,
             "not serializable: lost update, cycle of 2; transaction 1 read none at key 1, which transaction 2 replaced; "
             "transaction 2 read none at key 1, which transaction 1 replaced",
             [Link(1, "replaced", 1, None), Link(2, "replaced", 1, None)]),
            (both + got(0, 1) + put(1, 1, 5) + put(1, 2, 6) + [Entry("committed", 1, number=1)] + got(0, 2, 6) + [
                Entry("committed", 0, number=2)],
             "not serializable: G-single, cycle of 2; transaction 1 read none at key 1, which transaction 2 replaced; "
             "transaction 2 left 6 at key 2, which transaction 1 read",
             [Link(1, "replaced", 1, None), Link(2, "read", 2, 6)]),
            (both + put(0, 1, 5) + put(1, 2, 6) + got(0, 2, 6) + got(1, 1, 5) + ends,
             "not serializable: G1c, cycle of 2; transaction 1 left 5 at key 1, which transaction 2 read; "
             "transaction 2 left 6 at key 2, which transaction 1 read",
             [Link(1, "read", 1, 5), Link(2, "read", 2, 6)]),
            (alone(1, got(0, 1), got(0, 1, 5)), "not serializable: the replies of transaction 1 contradict one another",
             ("torn", 1, None, None)),
            (alone(1, put(0, 1, 5), put(0, 2, 6)) + alone(2, took(0, 1, 5), put(0, 2, 7, 6)) + alone(3, got(0, 1), got(0, 2, 6)),
             "not serializable: transaction 3 read none at key 1, which no serial order gives", ("impossible", 3, 1, None)),
            (sum((alone(i, put(0, 1, 5)) for i in (1, 2, 3)), []) + alone(4, took(0, 1, 5)), "undecided key 1 value none: transactions 4",
             ("undecided", None, 1, None)),
        ]
        for entries, line, due in rows:
            found = judge_any_order(entries)
            if found.cycle:
                at = found.cycle.index(min(found.cycle))
                found = found._replace(cycle=found.cycle[at:] + found.cycle[:at])
            self.assertEqual(str(found), line)
            is_due = {"s": True, "n": False, "u": None}[line[0]]
            self.assertIs(found.is_serializable, is_due)
            if isinstance(due, tuple):
                self.assertEqual(found, (*due, None, None, [4] if is_due is None else None))
            else:
                self.assertEqual(found, ("serializable" if is_due else "cycle", None, None, None, *(
                    (due, None) if is_due else (None, due)), None))
        with self.assertRaises(Refused) as refused:
            judge_any_order([Entry("began", 0, number=1), Entry("began", 64, number=2)])
        self.assertEqual(refused.exception.status, 8)

    def test_real_time(self):
        """2 began after 1 had committed, and read the state before it."""
        entries = [
            Entry("began", 0, number=1), Entry("asked", 0, "put", key=1, value=5), Entry("did", 0),
            Entry("committed", 0, number=1), Entry("began", 7, number=2), Entry("asked", 7, "get", key=1), Entry("did", 7),
            Entry("committed", 7, number=2)]
        self.assertEqual(judge_any_order(entries).order, [2, 1])
        found = judge_any_order(entries, real_time=True)
        self.assertIs(found.is_serializable, False)
        self.assertEqual(sorted(found.cycle), [Link(1, "began", 0, None), Link(2, "replaced", 1, None)])
        self.assertTrue(str(found).startswith("not serializable: G-single-realtime, cycle of 2; transaction "))
        self.assertIn("; transaction 1 committed before transaction 2 began", str(found))

    def test_the_history_of_a_map_is_serializable(self):
        callers = open_striped(callers=2, stripes=16, keep="entries")
        host = Host(callers)
        for i in range(19):
            callers[i % 2].add(1, i)
            with contextlib.suppress(GivesUp), callers[0].transaction() as t:
                t.put(2, i)
                if i % 3:
                    raise GivesUp
        entries = ended(callers, host)
        order = [entry.number for entry in entries if entry.kind == "began"]
        aborts = {i for i, entry in enumerate(e for e in entries if e.kind in ("aborted", "committed")) if entry.kind == "aborted"}
        self.assertEqual(judge_any_order(entries).order, [number for i, number in enumerate(order) if i not in aborts])
        self.assertEqual((len(order), len(aborts)), (38, 12))
        last = max(i for i, entry in enumerate(entries) if entry.kind == "did")
        entries[last] = entries[last]._replace(value=10**6)
        found = judge_any_order(entries)
        self.assertEqual(found[:4], ("unwritten", 38, 2, 10**6))

    def test_other_threads_run_during_a_call(self):
        """With such a switch interval another thread runs only while a call has released the interpreter's lock. On a loaded
        machine the call must be long, or it is over before the other thread has its turn."""
        ticks, is_over = [0], threading.Event()

        def tick():
            while not is_over.is_set():
                ticks[0] += 1
                time.sleep(0)

        def feeds():
            with Judge() as judge:
                judge.feed_all(entries)

        def passes(call):
            ends = time.monotonic() + 240
            while time.monotonic() < ends:
                before = ticks[0]
                call()
                if ticks[0] > before:
                    return True
            return False

        entries = [Entry("began", 0, number=1)] + [Entry("saved", 0)] * 500_000
        interval, other = sys.getswitchinterval(), threading.Thread(target=tick)
        sys.setswitchinterval(1000)
        try:
            other.start()
            self.assertTrue(passes(feeds))
            self.assertTrue(passes(lambda: judge_any_order(entries)))
        finally:
            is_over.set()
            sys.setswitchinterval(interval)
            other.join()


if __name__ == "__main__":
    unittest.main()
