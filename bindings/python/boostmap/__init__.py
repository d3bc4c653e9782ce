"""boostmap: transactional maps from 64-bit keys to 64-bit values, over a proved library.

A striped map is for threads: each thread has its own caller, and callers run in parallel.

    from boostmap import open_striped

    callers = open_striped(callers=4, stripes=64)
    callers[0].put(1, 100)                           # a transaction of one call
    callers[0].transact(lambda t: (t.add(1, -30), t.add(2, 30)))     # one of several
    with callers[0].transaction() as t:              # Busy if another caller holds the key's stripe
        t[1] = 100                                   # commits at the end, aborts at an exception

A map with one owner, `Map`, is for one thread that acts for many callers.

Maps, callers and transactions have the manners of a dictionary: `in`, `[]`, `del`, `len`, `pop` and so on, with
KeyError for an absent key. Those on all keys see the map of one moment. None of them is false, and each equals only
itself. A number of a wrong type raises TypeError, and one out of range OverflowError.

The library is libboostmap.so, next to this file or at the path in BOOSTMAP_SO; `bindings/install.sh` of
the repository builds it. It is proved; this module is only tested. Threads may share a map, a caller
or a judge: each call holds that object's lock. Calls of callers are made by the module _boostmap, in C,
if install.sh has built it, and otherwise, ten times as slow or slower, by ctypes.
"""
import collections
import contextlib
import ctypes
import operator
import os
import random
import threading
import time
import weakref

try:
    from . import _boostmap
except ImportError:
    _boostmap = None

__all__ = [
    "open_striped", "Caller", "CallerTransaction", "Counts", "Options", "Host", "Map", "Transaction", "Judge", "Entry", "Verdict",
    "judge_any_order", "Finding", "Link",
    "Error", "Busy", "Refused", "Missed", "NotFed",
]

__version__ = "1.0.0"

_U64 = ctypes.c_uint64


class _Handle(ctypes.Structure):
    _fields_ = [("tag", _U64), ("held", ctypes.c_void_p)]


class _Pair(ctypes.Structure):
    _fields_ = [("key", _U64), ("value", _U64)]


class _Entry(ctypes.Structure):
    _fields_ = [("kind", ctypes.c_uint32), ("operation", ctypes.c_uint32)] + [
        (name, _U64) for name in ("caller", "key", "value", "expected", "number", "has")]


class _Reply(ctypes.Structure):
    _fields_ = [("value", _U64), ("has", _U64)]


class _Verdict(ctypes.Structure):
    _fields_ = [(name, _U64) for name in ("is_legal", "commits", "running", "entry", "rule")]


class _Link(ctypes.Structure):
    _fields_ = [(name, _U64) for name in ("transaction", "kind", "key", "value", "has")]


class _Finding(ctypes.Structure):
    _fields_ = [(name, _U64) for name in ("kind", "number", "key", "value", "has", "count")]


_HANDLE = ctypes.POINTER(_Handle)
_WORD = ctypes.POINTER(_U64)

# Statuses of boostmap.h that this module treats in a special way.
_DONE, _ABSENT, _BUSY, _EMPTY, _SHORT, _NO_HOST, _MISSED, _NOT_OPEN, _ALREADY_OPEN = 0, 1, 2, 3, 7, 10, 13, 19, 20

# The calls of boostmap.h: the number of arguments between the handle and the word, and whether there
# is a word.
_CALLS = {
    "new": (3, False), "free": (0, False), "count": (0, True), "help": (2, False),
    "entries": (0, True), "trim": (0, False), "trim_above": (1, False),
    "begin": (1, True), "commit": (1, True), "abort": (1, True), "save": (1, True), "back": (2, True),
    "get": (2, True), "take": (2, True), "put": (3, True), "put_if_absent": (3, True), "put_if_equal": (4, True),
    "striped_open": (5, True), "striped_free": (0, False), "striped_begin": (0, False),
    "striped_commit": (0, True), "striped_abort": (0, False), "striped_save": (0, True), "striped_back": (1, False),
    "striped_get": (1, True), "striped_take": (1, True), "striped_put": (2, True),
    "striped_put_if_absent": (2, True), "striped_put_if_equal": (3, True),
    "striped_count": (0, True), "striped_option": (1, True),
    "host_free": (0, False),
    "judge_free": (0, False),
}

_REASONS = {
    3: "the handle is closed",
    8: "these numbers are no entry",
    _NO_HOST: "no caller has the map's host",
    11: "the map does not keep its entries",
    12: "a caller of the map is not closed",
    18: "there is no such caller",
    _NOT_OPEN: "the caller has no transaction",
    _ALREADY_OPEN: "the caller has a transaction already",
    22: "the transaction can only abort",
    25: "there is no such level",
    28: "there is no such caller",
    30: "memory was refused",
    32: "no stamp is left",
    38: "a limit is out of range",
}


def _load():
    default = os.path.join(os.path.dirname(os.path.abspath(__file__)), "libboostmap.so")
    library = ctypes.CDLL(os.environ.get("BOOSTMAP_SO", default))
    for name, (numbers, has_word) in _CALLS.items():
        call = getattr(library, "boostmap_" + name)
        call.argtypes = [_HANDLE] + [_U64] * numbers + ([_WORD] if has_word else [])
        call.restype = ctypes.c_uint32
    library.boostmap_read.argtypes = [_HANDLE, ctypes.POINTER(_Pair), ctypes.c_size_t, _WORD]
    library.boostmap_striped_read.argtypes = library.boostmap_read.argtypes
    library.boostmap_striped_read_stripe.argtypes = [_HANDLE, _U64, ctypes.POINTER(_Pair), ctypes.c_size_t, _WORD]
    library.boostmap_striped_run.argtypes = [_HANDLE, ctypes.POINTER(_Entry), ctypes.c_size_t, ctypes.c_uint32,
                                             ctypes.POINTER(_Reply), ctypes.c_size_t, _WORD, _WORD]
    library.boostmap_striped_join.argtypes = [_HANDLE, _HANDLE, _WORD]
    library.boostmap_striped_another.argtypes = [_HANDLE, _HANDLE, _WORD]
    library.boostmap_striped_host.argtypes = [_HANDLE, ctypes.c_void_p]
    library.boostmap_striped_counts.argtypes = [_HANDLE, _WORD]
    library.boostmap_host_history.argtypes = [_HANDLE, ctypes.POINTER(_Entry), ctypes.c_size_t, _WORD]
    library.boostmap_history.argtypes = [_HANDLE, _U64, ctypes.POINTER(_Entry), ctypes.c_size_t, _WORD]
    library.boostmap_judge_new.argtypes = [_HANDLE, _U64, ctypes.c_uint32]
    library.boostmap_judge_feed.argtypes = [_HANDLE, ctypes.POINTER(_Entry)]
    library.boostmap_judge_feed_all.argtypes = [_HANDLE, ctypes.POINTER(_Entry), ctypes.c_size_t, _WORD]
    library.boostmap_judge_verdict.argtypes = [_HANDLE, ctypes.POINTER(_Verdict)]
    library.boostmap_judge_any_order.argtypes = [
        ctypes.POINTER(_Entry), ctypes.c_size_t, ctypes.c_uint32, ctypes.POINTER(_Link), ctypes.c_size_t,
        ctypes.POINTER(_Finding)]
    for name in ("read", "history", "striped_read", "striped_read_stripe", "striped_run", "striped_join", "striped_another",
                 "striped_host", "striped_counts", "host_history", "judge_new", "judge_feed", "judge_feed_all", "judge_verdict",
                 "judge_any_order"):
        getattr(library, "boostmap_" + name).restype = ctypes.c_uint32
    return library


_library = _load()

# The calls of _CALLS, and whether there is a word.
_MADE = {name: (getattr(_library, "boostmap_" + name), has_word) for name, (_, has_word) in _CALLS.items()}


class Error(Exception):
    """A call failed."""


class Busy(Error):
    """Another caller, `holder`, holds a stripe that the call needs. The transaction can then only abort; on a striped
    map it has been aborted."""

    def __init__(self, holder):
        super().__init__(f"caller {holder} holds the key's stripe")
        self.holder = holder


class Refused(Error):
    """The call was refused with `status`. Nothing has changed, except that `help` may have grown the table, and a call
    of a `CallerTransaction` may have taken stripes."""

    def __init__(self, status):
        super().__init__(_REASONS.get(status, f"status {status}"))
        self.status = status


class Missed(Error):
    """A put_if of a strict run found another value than it expects: its reply is the last of `replies`. Everything has been
    taken back."""

    def __init__(self, replies):
        super().__init__("a put_if found another value than it expects")
        self.replies = replies


class NotFed(Refused):
    """Not all entries could be fed: those before the index `fed` are fed, and feeding may go on there."""

    def __init__(self, status, fed):
        super().__init__(status)
        self.fed = fed


def _value(status, word):
    """The value that a call answered, or None; raises if the call failed."""
    if status == _DONE:
        return word.value
    if status == _ABSENT:
        return None
    if status == _BUSY:
        raise Busy(word.value)
    raise Refused(status)


def _check(status):
    """Raises if a call that answers no value failed."""
    _value(status, _U64(0))


def _number(value):
    value = operator.index(value)
    if not 0 <= value < 1 << 64:
        raise OverflowError(f"{value} is not an unsigned 64-bit number")
    return value


def _delta(value):
    value = operator.index(value)
    if not -1 << 63 <= value < 1 << 63:
        raise OverflowError(f"{value} is not a signed 64-bit number")
    return value


_NO_DEFAULT = object()


class _Calls:
    """The calls on one key, and the manners of a dictionary on it, over `_perform`, which makes a call of the library."""

    __slots__ = ()

    def get(self, key, default=None, /):
        """The value at the key, or the default."""
        had = self._perform("get", key)
        return default if had is None else had

    def take(self, key, /):
        """Takes the key out, and returns the value that it had."""
        return self._perform("take", key)

    def put(self, key, value, /):
        """Puts the value at the key, and returns the value before."""
        return self._perform("put", key, value)

    def put_if(self, key, expected, value, /):
        """Puts the value if the key has the expected one (None: if it is absent), and returns the value before."""
        if expected is None:
            return self._perform("put_if_absent", key, value)
        return self._perform("put_if_equal", key, expected, value)

    def get_or_put(self, key, value, /):
        """Puts only if the key has no value; returns the value that it has now."""
        had = self._perform("put_if_absent", key, value)
        return operator.index(value) if had is None else had

    setdefault = get_or_put

    def pop(self, key, default=_NO_DEFAULT, /):
        """Takes the key out, and returns its value, or the default."""
        had = self._perform("take", key)
        if had is None and default is _NO_DEFAULT:
            raise KeyError(key)
        return default if had is None else had

    def __contains__(self, key):
        return self._perform("get", key) is not None

    def __getitem__(self, key):
        had = self._perform("get", key)
        if had is None:
            raise KeyError(key)
        return had

    def __setitem__(self, key, value):
        self._perform("put", key, value)

    def __delitem__(self, key):
        if self._perform("take", key) is None:
            raise KeyError(key)


class _Whole:
    """The manners of a dictionary on all keys, over `copy`."""

    __slots__ = ()

    def __bool__(self):
        return True

    def __iter__(self):
        return iter(self.copy())

    def keys(self):
        """The keys, of one moment."""
        return self.copy().keys()

    def values(self):
        """The values, of one moment."""
        return self.copy().values()

    def items(self):
        """The pairs of keys and values, of one moment."""
        return self.copy().items()


class _Changes:
    """The calls of a transaction that are made of others, in both forms of this module."""

    __slots__ = ()

    def update(self, key, change=None, /):
        """update(key, change): puts what `change` makes of the key's value (None: if it is absent), or, if that is None,
        takes the key out; returns the value before. update(pairs): as `put_all`."""
        if change is None:
            return self.put_all(key)
        had = self.get(key)
        value = change(had)
        if value is not None:
            self.put(key, value)
        elif had is not None:
            self.take(key)
        return had

    def put_all(self, pairs):
        """Puts the pairs of a dictionary, or pairs in their order."""
        for key, value in dict(pairs).items():
            self.put(key, value)


class _ChangesAtOnce:
    """The same calls of a caller or a map, each in a transaction of its own, over `transact`."""

    __slots__ = ()

    def update(self, key, change=None, /):
        """update(key, change): puts what `change` makes of the key's value (None: if it is absent), or, if that is None,
        takes the key out; returns the value before. `change` may run again after it was busy. update(pairs): as
        `put_all`."""
        if change is None:
            return self.put_all(key)
        return self.transact(lambda t: t.update(key, change))

    def put_all(self, pairs):
        """Puts the pairs of a dictionary, or pairs in their order, in one transaction."""
        pairs = dict(pairs)
        self.transact(lambda t: t.put_all(pairs))


class _Owned:
    """A handle with its lock, which each call holds."""

    _free = None

    def __init__(self):
        self._handle = _Handle()
        self._lock = threading.RLock()  # a signal handler may call in between
        self._begun = []  # weak references to the transactions that may be open
        self._last = {}  # by caller, the number of the one that began last

    def _call(self, name, *numbers):
        return self._make(name, [_number(n) for n in numbers])

    def _make(self, name, numbers):
        """Makes a call with numbers that have been checked."""
        call, has_word = _MADE[name]
        word = _U64(0)
        with self._lock:
            status = call(self._handle, *numbers, word) if has_word else call(self._handle, *numbers)
        return _value(status, word)

    def close(self):
        """Frees what the handle owns. No change of an open transaction stays."""
        with self._lock:
            getattr(_library, "boostmap_" + self._free)(self._handle)

    def __enter__(self):
        return self

    def __exit__(self, *raised):
        self.close()

    def __del__(self):
        if hasattr(self, "_lock"):
            self.close()


class _CtypesTransaction(_Calls, _Changes):
    """A transaction whose calls are made by ctypes, on its `_owner`. An interrupt between a call and its bookkeeping may
    leave it open, until its caller aborts or begins another one."""

    _is_open = _rolls_back = False
    _caller = _nth = commit_number = None

    def __enter__(self):
        with self._owner._lock:
            self._owner._begun = [weakref.ref(t) for t in (*self._others(), self)]
            # Before it begins, since a signal handler may begin another one.
            self._is_open, self._rolls_back, self._nth = True, False, None
            try:
                self._begin_alone()
                self._nth = self._owner._last[self._caller] = self._owner._last.get(self._caller, 0) + 1
                return self
            except Error:
                self._is_open = False
                raise
            except BaseException:  # an interrupt, perhaps after the begin
                self._end()
                raise

    def _begin_alone(self):
        """Begins, and before that aborts what an interrupt has left: a transaction that no object will end."""
        try:
            self._begin()
        except Refused as refused:
            if refused.status != _ALREADY_OPEN or any(t._caller == self._caller for t in self._others()):
                raise
            self._abort()
            self._begin()

    def _others(self):
        """The owner's other transactions that may be open."""
        begun = [last() for last in self._owner._begun]
        return [t for t in begun if t is not None and t is not self and t._is_open]

    def __exit__(self, kind, raised, trace):
        try:
            if kind is None and not (self._rolls_back and self._is_open):
                self.commit_number = self._perform("commit") or None
                self._is_open = False
        finally:
            self._end()

    def _end(self):
        """Aborts the transaction, if it is open. The abort is refused on a closed map, which hides no exception."""
        if self._is_open and self._nth in (None, self._owner._last.get(self._caller)):
            self._abort()
        self._is_open = False

    def _perform(self, name, *numbers):
        return self._performed(name, [_number(n) for n in numbers])

    def _performed(self, name, numbers):
        """Makes a call with numbers that have been checked."""
        with self._owner._lock:
            self._check_open()
            return self._make(name, numbers)

    def _check_open(self):
        """Raises if it is over. If its caller was told to abort, and has begun another one since, it is."""
        if not self._is_open or self._nth != self._owner._last.get(self._caller):
            raise Refused(_NOT_OPEN)

    def add(self, key, delta, /):
        """Adds to the value of the key, 0 if it has none, and returns the value before. A sum beyond 64 bits raises
        OverflowError, and changes nothing."""
        key, delta = _number(key), _delta(delta)
        had = self._performed("get", [key])
        total = (had or 0) + delta
        if not 0 <= total < 1 << 64:
            raise OverflowError("the sum does not fit in 64 bits")
        return self._performed("put", [key, total])

    def roll_back(self):
        """Lets the end of the `with` take everything back, instead of committing."""
        self._rolls_back = True

    def save(self):
        """Sets a savepoint, and returns its level."""
        return self._perform("save")

    def back(self, level=0, /):
        """Takes back every change since the level was set; 0 is the beginning of the transaction."""
        self._perform("back", level)


class _CtypesCalls(_Calls):
    """The calls of a map or a caller that are made by ctypes, each in a transaction of its own, over `transact`."""

    __slots__ = ()

    def _perform(self, name, *numbers):
        numbers = [_number(n) for n in numbers]
        return self.transact(lambda t: t._performed(name, numbers))

    def add(self, key, delta, /):
        """Adds to the value of the key, 0 if it has none, and returns the value before. A sum beyond 64 bits raises
        OverflowError, and changes nothing."""
        key, delta = _number(key), _delta(delta)
        return self.transact(lambda t: t.add(key, delta))


class Map(_CtypesCalls, _ChangesAtOnce, _Whole, _Owned):
    """A map for 1 to 64 callers, with 1 to 4096 stripes and at most `buckets` buckets (a power of two, 2 to 65536). Its
    memory grows with its history, unless it is trimmed. It does not hash: keys whose low bits are all alike, as multiples
    of 65536, form one long list. Each operation of the map itself is a transaction of caller 0, and Busy if another
    caller's transaction holds the key's stripe; all keys are seen with the changes of open transactions. A transaction
    that an interrupt cuts off right before its end stays open while the traceback is kept: `abort` ends it, or its
    caller's next begin."""

    _free = "free"

    def __init__(self, callers=1, stripes=64, buckets=1024):
        super().__init__()
        self._call("new", callers, stripes, buckets)

    def __len__(self):
        return self._call("count")

    def count(self):
        """The number of keys of the map as it is now, with the changes of open transactions."""
        return len(self)

    def abort(self, caller=0):
        """Aborts the caller's transaction, and returns whether there was one."""
        return _aborts(self, "abort", caller)

    def copy(self):
        """A dictionary of the map as it is now, with the changes of open transactions."""
        places, word = 0, _U64(0)
        while True:
            pairs = (_Pair * places)()
            with self._lock:
                status = _library.boostmap_read(self._handle, pairs, places, word)
            if status == _DONE:
                return {pair.key: pair.value for pair in pairs[:word.value]}
            if status != _SHORT:
                raise Refused(status)
            places = word.value

    def clear(self):
        """Takes every key out, in one transaction, and returns how many there were."""
        keys = self.copy()
        self.transact(lambda t: [t.take(key) for key in keys])
        return len(keys)

    def help(self, key, caller=0):
        """Doubles the table if it has more than two keys a bucket, and initialises the key's bucket. The table grows
        by itself, so no program needs this call."""
        self._call("help", caller, key)

    def entries(self):
        """The number of entries of the map's history, each of which takes 32 bytes."""
        return self._call("entries")

    def history(self):
        """The map's history, as a list of Entry, for a Judge of the map's number of stripes."""
        places, word = self.entries(), _U64(0)
        array = (_Entry * places)()
        with self._lock:
            status = _library.boostmap_history(self._handle, 0, array, places, word)
        _check(status)
        return [Entry._from_c(entry) for entry in array[:word.value]]

    def trim(self):
        """Cuts the history off: one transaction, which puts the pairs of the map, stands instead. No caller may be in a
        transaction."""
        self._call("trim")

    def trim_above(self, entries):
        """From now on the end of a transaction trims a history of more than so many entries, if no caller is in a
        transaction, so that the memory stays bounded; 0: never."""
        self._call("trim_above", entries)

    def transaction(self, caller=0):
        """A transaction of a caller, which begins at `with`, commits at its end, and aborts at an exception."""
        return Transaction(self, caller)

    def transact(self, job, caller=0):
        """Runs a job, which is given the caller's transaction, and commits, or aborts at an exception. Returns the job's
        result. It does not try again after Busy: the owner makes the calls of the holder, too."""
        with self.transaction(caller) as t:
            return job(t)


def _aborts(owner, name, *numbers):
    try:
        owner._call(name, *numbers)
    except Refused:
        return False
    return True


class Transaction(_CtypesTransaction):
    """One caller's transaction of a Map. A key without a value has None. After its `with` each further call is
    refused."""

    __iter__ = None  # or `[]` would be tried with 0, 1 and so on
    number = None

    def __init__(self, owner, caller=0):
        if not isinstance(owner, Map):
            raise TypeError("a transaction is one of a Map")
        self._owner, self._caller = owner, _number(caller)

    def _begin(self):
        self.number = self._make("begin", [])

    def _abort(self):
        self._owner.abort(self._caller)

    def _make(self, name, numbers):
        return self._owner._make(name, [self._caller, *numbers])


Counts = collections.namedtuple("Counts", "commits aborts busy")
Counts.__doc__ = """How a caller's transactions ended: by a commit, by an abort, and by a busy call, which aborts too."""


Options = collections.namedtuple("Options", "callers stripes keys keep seed")
Options.__doc__ = """With what a striped map was opened."""

_KEEPS = (None, "commits", "entries")


def open_striped(callers=1, stripes=64, keys=0, keep=None, seed=None):
    """Opens a striped map with no keys, for 1 to 4096 callers and with 1 to 4096 stripes, and returns its callers, in
    the order of their numbers from 1. A key belongs to the stripe key % stripes, which a transaction takes and holds to its
    end: take several times as many stripes as keys are in open transactions at a time. If all your keys are multiples of a
    number, take a number of stripes that shares no factor with it. The map has room for so many `keys` from the start;
    memory that it has for keys is kept until it is freed, with the last of its callers. If it keeps "commits", each
    transaction has a commit_number. If it keeps "entries", a Host hands out its history. With either, all callers write a
    common word. The seed of the hash of keys within a stripe is drawn from the system, below 2**32, unless it is given.
    Whoever knows it can choose keys that make every call slow."""
    if keep not in _KEEPS:
        raise ValueError(f"{keep!r} is not kept")
    first = Caller()
    seed = int.from_bytes(os.urandom(4), "little") if seed is None else seed
    first._open(callers, stripes, keys, _KEEPS.index(keep), seed)
    others = [Caller() for _ in range(1, callers)]
    for other in others:
        first._join(other)
    return others[::-1] + [first]  # numbers are counted down


def _wait(done):
    """Waits before a busy transaction is tried again, after so many tries."""
    longest = min(2 ** min(done - 5, 9) * 1e-6, 5e-4)
    time.sleep(longest * random.uniform(0.5, 1) if done > 4 else 0)


# The operations of a run, with how many numbers each has.
_NAMES = ("get", "put", "take", "put_if", "add", "get_or_put")
_COUNTS = {"get": 1, "take": 1, "put_if": 3}


def _operation(given):
    """An operation that is given by its name and its numbers, checked: the name, the key and the rest."""
    name, *numbers = tuple(given) or (None,)
    if name not in _NAMES:
        raise ValueError(f"{given!r} is no operation")
    wanted = _COUNTS.get(name, 2)
    if len(numbers) != wanted:
        raise TypeError(f"the operation takes {wanted} arguments, and not {len(numbers)}")
    key, *rest = numbers
    if name == "add":
        return name, _number(key), _delta(*rest)
    return (name, _number(key)) + tuple(
        None if name == "put_if" and i == 0 and n is None else _number(n) for i, n in enumerate(rest))


def _asked(name, key, value=0, *last):
    """An operation as an entry of a run."""
    expected, value = (value, *last) if last else (None, value)
    has = expected is not None
    return _Entry(0, _OPERATIONS[name], 0, key, value, expected if has else 0, 0, has)


class _CtypesCaller(_CtypesCalls, _Owned):
    """What _boostmap.Caller has, by ctypes."""

    _free = "striped_free"
    number = commit_number = None

    def _open(self, *how):
        self.number = self._call("striped_open", *how)

    def _join(self, other):
        self._give("join", other)

    def _another(self, other):
        self._give("another", other)

    def _give(self, name, other):
        """Makes an empty caller one of this caller's map, by a call on both."""
        word = _U64(0)
        with self._lock:
            status = getattr(_library, "boostmap_striped_" + name)(self._handle, other._handle, word)
        other.number = _value(status, word)

    def _host(self, address):
        with self._lock:
            return _library.boostmap_striped_host(self._handle, address)

    def _counts(self):
        counts = (_U64 * 3)()
        with self._lock:
            status = _library.boostmap_striped_counts(self._handle, counts)
        _check(status)
        return list(counts)

    def _options(self):
        return [self._call("striped_option", i) for i in range(5)]

    def abort(self):
        """Aborts the caller's transaction, and returns whether there was one."""
        return _aborts(self, "striped_abort")

    def transaction(self):
        """A transaction, which begins at `with`, commits at its end, and aborts at an exception."""
        return CallerTransaction(self)

    def transact(self, job, tries=None):
        """Runs a job, which is given the transaction, and commits. If a call of the transaction was busy, waits and tries
        again, at most `tries` times if that is given: it yields at first, and then sleeps, each time about twice as
        long, up to half a millisecond. Returns the job's result."""
        tries, done = None if tries is None else _number(tries), 0
        while True:
            t = self.transaction()
            try:
                with t:
                    return job(t)
            except Busy:
                if not t.was_busy or done == tries:
                    raise
            done += 1
            _wait(done)

    def run(self, operations, strict=False):
        """Runs operations in one transaction, such as [("get", 1), ("put", 2, 20)], and returns their replies. If it is
        strict, a put_if that finds another value than it expects takes everything back, and raises Missed."""
        operations = [_operation(given) for given in operations]
        if all(operation[0] in _OPERATIONS for operation in operations):
            return self._run([_asked(*operation) for operation in operations], strict)

        def performs(t):
            replies = []
            for name, *numbers in operations:
                replies.append(getattr(t, name)(*numbers))
                if strict and name == "put_if" and replies[-1] != numbers[1]:
                    raise Missed(replies)
            return replies

        return self.transact(performs)

    def _run(self, asked, strict):
        """Runs operations by one call of the archive, again and again until it is not busy."""
        count, done, word, tries = len(asked), _U64(0), _U64(0), 0
        entries, replies = (_Entry * count)(*asked), (_Reply * count)()
        while True:
            with self._lock:
                status = _library.boostmap_striped_run(
                    self._handle, entries, count, bool(strict), replies, count, done, word)
            if status != _BUSY:
                break
            tries += 1
            _wait(tries)
        found = [reply.value if reply.has else None for reply in replies[:done.value]]
        if status == _MISSED:
            raise Missed(found)
        self.commit_number = _value(status, word) or None
        return found


class _CtypesCallerTransaction(_CtypesTransaction):
    """What _boostmap.Transaction has, by ctypes."""

    was_busy = False

    def __init__(self, caller):
        if not isinstance(caller, Caller):
            raise TypeError("a transaction is one of a Caller")
        self._owner = caller

    def _begin(self):
        self._owner._make("striped_begin", [])
        self.was_busy = False

    def _abort(self):
        self._owner.abort()

    def __del__(self):
        self._end()

    def __exit__(self, kind, raised, trace):
        super().__exit__(kind, raised, trace)
        if kind is None and not self._rolls_back:
            self._owner.commit_number = self.commit_number

    def _make(self, name, numbers):
        try:
            return self._owner._make("striped_" + name, numbers)
        except Busy:
            self._is_open, self.was_busy = False, True
            raise

    def _reads(self, places, call):
        """A dictionary of the pairs that a call writes, which is given an array and the word."""
        status = _SHORT
        while status == _SHORT:
            with self._owner._lock:
                self._check_open()
                pairs, word = (_Pair * places)(), _U64(0)
                status = call(pairs, word)
                if status == _BUSY:
                    self._is_open, self.was_busy = False, True
            places = word.value
        return {pair.key: pair.value for pair in pairs[:_value(status, word)]}

    def page(self, key, /):
        """A dictionary of the pairs of the key's stripe, by rising keys, with the transaction's own changes. Takes only this
        stripe. The keys below the number of stripes are in different ones."""
        key = _number(key)
        return self._reads(16, lambda pairs, word: _library.boostmap_striped_read_stripe(
            self._owner._handle, key, pairs, len(pairs), word))

    def copy(self):
        """A dictionary of the whole map, with the transaction's own changes. Takes every stripe."""
        return self._reads(len(self), lambda pairs, word: _library.boostmap_striped_read(
            self._owner._handle, pairs, len(pairs), word))

    def __len__(self):
        return self._perform("count")


class Caller(_boostmap.Caller if _boostmap else _CtypesCaller, _ChangesAtOnce, _Whole):
    """A caller of a striped map, made by `open_striped`: one for each thread. Each of its operations (get, put, take,
    put_if, add, get_or_put, update, `[]`, items and so on) is a transaction of its own, which waits while it is busy; so
    `caller[key] += 1` is two, and `add` one. While the caller has a transaction open they are refused. Closing it aborts an
    open transaction."""

    __slots__ = ()

    def __enter__(self):
        return self

    def __exit__(self, *raised):
        self.close()

    def count(self):
        """The number of keys of the map. Takes every stripe."""
        return self.transact(len)

    def __len__(self):
        return self.transact(len)

    def copy(self):
        """A dictionary of the whole map, by rising keys. Takes every stripe; the calls of others on those that it has taken
        are busy meanwhile."""
        return self.transact(lambda t: t.copy())

    def pages(self):
        """Walks over the map: yields a dictionary of the pairs of each stripe, by rising keys. Each stripe is read in a
        transaction of its own, which waits while it is busy. So the pairs are no snapshot."""
        for key in range(self.options().stripes):
            yield self.transact(lambda t: t.page(key))

    def clear(self):
        """Takes every key out, and returns how many there were. Takes every stripe."""
        return self.transact(lambda t: t.clear())

    def another(self):
        """Makes another caller of the map, with a number that no caller of the map has or had, also in a transaction,
        which continues. A map that keeps its entries has at most 65,535 callers in all: then refused (38)."""
        other = Caller()
        self._another(other)
        return other

    def counts(self):
        """How the caller's transactions ended, as Counts."""
        return Counts(*self._counts())

    def options(self):
        """With what the map was opened, as Options."""
        callers, stripes, keys, keep, seed = self._options()
        return Options(callers, stripes, keys, _KEEPS[keep], seed)


class CallerTransaction(_boostmap.Transaction if _boostmap else _CtypesCallerTransaction, _Changes, _Whole):
    """A caller's transaction. A key without a value has None. After Busy it is over: each further call is refused. Its
    `len` is the number of keys of the map, with the transaction's own changes, and takes every stripe."""

    __slots__ = ()

    def count(self):
        """The number of keys of the map, with the transaction's own changes. Takes every stripe."""
        return len(self)

    def clear(self):
        """Takes every key out, and returns how many there were. Takes every stripe."""
        keys = self.copy()
        for key in keys:
            self.take(key)
        return len(keys)


class Host(_Owned):
    """The host of a striped map that keeps its entries, made while its callers stand. When each of them is closed, it
    hands out the map's history."""

    _free = "host_free"

    def __init__(self, callers):
        super().__init__()
        status, address = _NO_HOST, ctypes.addressof(self._handle)
        for caller in callers:
            if not isinstance(caller, Caller):
                raise TypeError("a host is made of callers")
            if status in (_NO_HOST, _EMPTY):
                status = caller._host(address)
        _check(status)

    def history(self):
        """The whole history of the map, as a list of Entry, for a Judge of the map's number of stripes with begun=True.
        It is proved that it is legal, and has exactly the entries of the map's callers."""
        places, word = 0, _U64(0)
        while True:
            array = (_Entry * places)()
            with self._lock:
                status = _library.boostmap_host_history(self._handle, array, places, word)
            if status == _DONE:
                return [Entry._from_c(entry) for entry in array[:word.value]]
            if status != _SHORT:
                raise Refused(status)
            places = word.value


_KINDS = {
    "began": 1, "asked": 2, "did": 3, "saved": 4, "leave": 5, "undone": 6, "returned": 7, "committed": 8, "busy": 9,
    "aborted": 10,
}
_OPERATIONS = {"put": 1, "put_if": 2, "take": 3, "get": 4}
_KIND_NAMES = {number: name for name, number in _KINDS.items()}
_OPERATION_NAMES = {number: name for name, number in _OPERATIONS.items()}
_NUMBERED = {"began", "returned", "committed", "busy"}


class Entry(collections.namedtuple("Entry", "kind caller operation key value expected number")):
    """An entry of a history: its kind (began, asked, did, saved, leave, undone, returned, committed, busy or aborted);
    its caller, below 64; and, if its kind has them, an operation (put, put_if, take or get), a key, a value or reply,
    an expected value, and a number (of the transaction, level, place or holder). The others are None. No entry is for a
    read of the whole map: a program that records one itself writes an asked get and a did for each key."""

    def __new__(cls, kind, caller, operation=None, key=None, value=None, expected=None, number=None):
        return super().__new__(cls, kind, caller, operation, key, value, expected, number)

    def _to_c(self):
        # The member that may be absent: the reply, the level, or the expected value.
        optional = {"did": self.value, "leave": self.number}.get(self.kind, self.expected)
        numbers = [0 if n is None else _number(n) for n in (self.caller, self.key, self.value, self.expected, self.number)]
        return _Entry(_KINDS.get(self.kind, 0), _OPERATIONS.get(self.operation, 0), *numbers, optional is not None)

    @classmethod
    def _from_c(cls, entry):
        kind, operation = _KIND_NAMES[entry.kind], _OPERATION_NAMES.get(entry.operation)
        has_operation = kind in ("asked", "busy")
        return cls(
            kind, entry.caller, operation if has_operation else None,
            key=entry.key if has_operation else None,
            value=entry.value if entry.has and kind == "did" or operation in ("put", "put_if") else None,
            expected=entry.expected if has_operation and entry.has else None,
            number=entry.number if kind in _NUMBERED or kind == "leave" and entry.has else None)


def _array(entries):
    """Entries as an array for the library."""
    if _boostmap:
        packed = _boostmap.pack(entries)
        return (_Entry * (len(packed) // ctypes.sizeof(_Entry))).from_buffer_copy(packed)
    entries = list(entries)
    for entry in entries:
        if not isinstance(entry, Entry):
            raise TypeError(f"{entry!r} is no Entry")
    return (_Entry * len(entries))(*[entry._to_c() for entry in entries])


Verdict = collections.namedtuple("Verdict", "is_legal commits running entry rule")
Verdict.__doc__ = """The judge's verdict. If legal, the number of committed transactions, and of callers that are in
one; if not, the index of the first bad entry, from 0, and the rule that it breaks: "replies", "locks" or "shape"."""


class Judge(_Owned):
    """The judge of the history of a map with `stripes` stripes, each of which takes 9 bytes. A busy entry may name a caller
    that holds the stripe at that moment, or, with `begun=True`, one that has begun a transaction before. With
    `by_commits=True` it judges by the order of commits, for stores whose readers share locks or read snapshots, and ignores
    the stripes."""

    _free = "judge_free"

    def __init__(self, stripes=64, begun=False, by_commits=False):
        super().__init__()
        rule = 2 if by_commits else int(begun)
        _check(_library.boostmap_judge_new(self._handle, _number(stripes), rule))

    def feed(self, entry):
        """Feeds the next entry. If it raises, nothing was fed."""
        entry = _array([entry])
        with self._lock:
            status = _library.boostmap_judge_feed(self._handle, entry)
        _check(status)

    def feed_all(self, entries):
        """Feeds entries in their order, or raises NotFed."""
        array, fed = _array(entries), _U64(0)
        with self._lock:
            status = _library.boostmap_judge_feed_all(self._handle, array, len(array), fed)
        if status != _DONE:
            raise NotFed(status, fed.value)

    def verdict(self):
        """The verdict on the entries so far."""
        verdict = _Verdict()
        with self._lock:
            status = _library.boostmap_judge_verdict(self._handle, verdict)
        _check(status)
        if verdict.is_legal:
            return Verdict(True, verdict.commits, verdict.running, None, None)
        return Verdict(False, None, None, verdict.entry, ("replies", "locks", "shape")[verdict.rule - 1])


_FINDINGS = ("serializable", "misshapen", "torn", "unwritten", "impossible", "cycle", "undecided")


# The kinds of links, of which an order has the first.
_LINKS = (None, "read", "replaced", "began")


def _words(value):
    return "none" if value is None else str(value)


class Link(collections.namedtuple("Link", "transaction kind key value")):
    """A transaction of a cycle. It must come before the next one, and the last before the first: the next one "read" the
    value that this one left at the key, or "replaced" the value that this one read there, or "began" when this one had
    committed."""

    __slots__ = ()

    def _words(self, to):
        if self.kind == "began":
            return f"transaction {self.transaction} committed before transaction {to.transaction} began"
        did = "left" if self.kind == "read" else "read"
        return (f"transaction {self.transaction} {did} {_words(self.value)} at key {self.key}, which transaction "
                f"{to.transaction} {self.kind}")


class Finding(collections.namedtuple("Finding", "kind number key value order cycle writers")):
    """What `judge_any_order` found. By its kind it has some members, and the others are None: "serializable" the order, a
    list of transactions; "misshapen" the number of an entry, from 0; "torn" that of a transaction; "unwritten" and
    "impossible" that of a transaction, a key and a value or None; "cycle" the cycle, a list of Link; "undecided" a key, a
    value or None, and the writers, a list of the transactions that leave it. As a text it is the line of `judge check
    --serializable`, without the number of open transactions and without the words `in real time`."""

    __slots__ = ()

    @property
    def is_serializable(self):
        """True or False, or None if that is undecided."""
        return None if self.kind == "undecided" else self.kind == "serializable"

    def _cycle_words(self):
        links, replaced = self.cycle, [link[2:] for link in self.cycle if link.kind == "replaced"]
        is_lost_update = len(links) == len(replaced) == 2 and replaced[0] == replaced[1]
        name = "lost update" if is_lost_update else ("G1c", "G-single", "G2-item")[min(len(replaced), 2)]
        in_time = "-realtime" if any(link.kind == "began" for link in links) else ""
        return "; ".join([f"{name}{in_time}, cycle of {len(links)}", *map(Link._words, links, links[1:] + links[:1])])

    def __str__(self):
        read = f"transaction {self.number} read {_words(self.value)} at key {self.key}"
        if self.kind == "serializable":
            return f"serializable {len(self.order)} commits"
        if self.kind == "undecided":
            writers = "".join(f" {number}" for number in self.writers)
            return f"undecided key {self.key} value {_words(self.value)}: transactions{writers}"
        return "not serializable: " + (self._cycle_words() if self.kind == "cycle" else {
            "misshapen": f"entry {self.number} has the wrong shape",
            "torn": f"the replies of transaction {self.number} contradict one another",
            "unwritten": f"{read}, which no committed transaction left",
            "impossible": f"{read}, which no serial order gives",
        }[self.kind])


def _ctypes_judge_any_order(entries, real_time):
    """What _boostmap.judge_any_order does, by ctypes: the members of the finding, and its links as tuples."""
    array, found, status = _array(entries), _Finding(), _SHORT
    places = sum(entry.kind == _KINDS["committed"] for entry in array)
    while status == _SHORT:
        links = (_Link * places)()
        status = _library.boostmap_judge_any_order(array, len(array), real_time, links, places, found)
        places = found.count
    _check(status)
    links = [(link.transaction, link.kind, link.key, link.value if link.has else None) for link in links[:found.count]]
    return found.kind, found.number, found.key, found.value if found.has else None, links


def judge_any_order(entries, real_time=False):
    """Judges a list of Entry by any order of their transactions, as `judge check --serializable` does, and returns the
    Finding: is there an order in which each committed transaction has its replies when it runs alone after those before
    it? With `real_time=True` it must also come after those that had committed when it began."""
    judges = _boostmap.judge_any_order if _boostmap else _ctypes_judge_any_order
    kind, number, key, value, links = judges(entries, bool(real_time))
    kind = _FINDINGS[kind]
    has_key = kind in ("unwritten", "impossible", "undecided")
    return Finding(
        kind, number if kind in ("misshapen", "torn", "unwritten", "impossible") else None,
        key=key if has_key else None, value=value if has_key else None,
        order=[link[0] for link in links] if kind == "serializable" else None,
        cycle=[Link(number, _LINKS[kind], *rest) for number, kind, *rest in links] if kind == "cycle" else None,
        writers=[link[0] for link in links] if kind == "undecided" else None)


if _boostmap:
    _boostmap.set_types(Busy, Refused, Missed, CallerTransaction, Entry)
