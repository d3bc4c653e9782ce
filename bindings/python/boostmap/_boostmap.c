/* The striped map's callers and transactions for Python, in C, and the judge by any order: a call costs a tenth of
 * what it costs by ctypes, or less, and no signal handler runs between a call and its bookkeeping. __init__.py has the
 * same classes by ctypes, for machines without Python's headers, and their documentation. Short calls hold the
 * interpreter's lock; `copy`, `page`, `len`, the judge and waits release it. */
#define PY_SSIZE_T_CLEAN
#include <Python.h>
#include <boostmap.h>
#include <stdlib.h>
#include <string.h>

#if PY_VERSION_HEX < 0x030A0000
static PyObject *Py_NewRef(PyObject *object) {
    Py_INCREF(object);
    return object;
}
#endif

/* boostmap.Busy, boostmap.Refused, boostmap.Missed, boostmap.CallerTransaction and boostmap.Entry. */
static PyObject *busy_type, *refused_type, *missed_type, *transaction_type, *entry_type;

typedef struct {
    PyObject_HEAD
    boostmap_caller *handle; /* aligned, which Python's own memory is not */
    PyThread_type_lock lock; /* held while a thread looks at the map without the interpreter's lock */
    int is_looked_at;
    uint64_t number, commit_number, begun; /* the number of transactions begun */
} Caller;

typedef struct {
    PyObject_HEAD
    Caller *caller;
    PyObject *commit_number;
    int is_open, was_busy, rolls_back;
    uint64_t begun; /* what the caller's number was when it began */
} Transaction;

/* Waits until no other thread is in a call of this caller. All calls but `look` hold the interpreter's
 * lock, which keeps the others out. */
static void enter(Caller *caller) {
    while (caller->is_looked_at) {
        Py_BEGIN_ALLOW_THREADS
        PyThread_acquire_lock(caller->lock, WAIT_LOCK);
        PyThread_release_lock(caller->lock);
        Py_END_ALLOW_THREADS
    }
}

/* Raises what a status other than done and absent says. */
static PyObject *raise_status(boostmap_status status, uint64_t word) {
    int is_busy = status == BOOSTMAP_BUSY;
    unsigned long long number = is_busy ? word : status;
    PyObject *type = is_busy ? busy_type : refused_type, *raised;
    if (status == BOOSTMAP_OVERFLOW) return PyErr_Format(PyExc_OverflowError, "%s", boostmap_text(status));
    raised = PyObject_CallFunction(type, "K", number);
    if (raised) PyErr_SetObject(type, raised);
    Py_XDECREF(raised);
    return NULL;
}

/* The value that a call answered, or None, or NULL with an exception. */
static PyObject *answer(boostmap_status status, uint64_t word) {
    if (status == BOOSTMAP_DONE) return PyLong_FromUnsignedLongLong(word);
    if (status == BOOSTMAP_ABSENT) Py_RETURN_NONE;
    return raise_status(status, word);
}

/* Reads an unsigned number of 64 bits: 0, or -1 with an exception. */
static int read_number(PyObject *from, uint64_t *number) {
    PyObject *index = PyNumber_Index(from);
    if (!index) return -1;
    *number = PyLong_AsUnsignedLongLong(index);
    if (PyErr_Occurred() && PyErr_ExceptionMatches(PyExc_OverflowError))
        PyErr_Format(PyExc_OverflowError, "%S is not an unsigned 64-bit number", index);
    Py_DECREF(index);
    return PyErr_Occurred() ? -1 : 0;
}

/* ---- operations ---- */

enum { GET, TAKE, PUT, PUT_IF, PUT_IF_EQUAL, ADD, GET_OR_PUT };

/* The names by which `run` knows the operations; `word` is the name as the interpreter keeps it. */
static struct {
    const char *name;
    int kind;
    PyObject *word;
} operations[] = {{"get", GET, NULL},       {"put", PUT, NULL}, {"take", TAKE, NULL},
                  {"put_if", PUT_IF, NULL}, {"add", ADD, NULL}, {"get_or_put", GET_OR_PUT, NULL}};

/* An operation with its numbers. */
typedef struct {
    int kind;
    uint64_t key, value, expected;
    int64_t delta;
} Operation;

/* Reads a signed number of 64 bits: 0, or -1 with an exception. */
static int read_delta(PyObject *from, int64_t *delta) {
    PyObject *index = PyNumber_Index(from);
    if (!index) return -1;
    *delta = PyLong_AsLongLong(index);
    if (PyErr_Occurred() && PyErr_ExceptionMatches(PyExc_OverflowError))
        PyErr_Format(PyExc_OverflowError, "%S is not a signed 64-bit number", index);
    Py_DECREF(index);
    return PyErr_Occurred() ? -1 : 0;
}

/* Reads the arguments of an operation: 0, or -1 with an exception. */
static int read_operation(Operation *op, int kind, PyObject *const *given, Py_ssize_t count) {
    Py_ssize_t wanted = kind == PUT_IF ? 3 : kind == GET || kind == TAKE ? 1 : 2;
    memset(op, 0, sizeof *op);
    op->kind = kind;
    if (count != wanted) {
        PyErr_Format(PyExc_TypeError, "the operation takes %zd arguments, and not %zd", wanted, count);
        return -1;
    }
    if (read_number(given[0], &op->key)) return -1;
    if (kind == ADD) return read_delta(given[1], &op->delta);
    if (wanted > 1 && read_number(given[wanted - 1], &op->value)) return -1;
    if (kind != PUT_IF || given[1] == Py_None) return 0;
    op->kind = PUT_IF_EQUAL;
    return read_number(given[1], &op->expected);
}

enum { OPERATIONS = sizeof operations / sizeof *operations };

/* The place of a name among the operations, or OPERATIONS. */
static int operation_of(PyObject *name) {
    int i = 0;
    while (i < OPERATIONS && operations[i].word != name) i++;
    if (i < OPERATIONS || !PyUnicode_Check(name)) return i;
    for (i = 0; i < OPERATIONS && PyUnicode_CompareWithASCIIString(name, operations[i].name); i++) {}
    return i;
}

/* Reads an operation that is given by its name and its arguments: 0, or -1 with an exception. */
static int read_named(Operation *op, PyObject *given) {
    PyObject *words = PySequence_Tuple(given);
    Py_ssize_t count = words ? PyTuple_GET_SIZE(words) : 0;
    int found = count ? operation_of(PyTuple_GET_ITEM(words, 0)) : OPERATIONS, failed = -1;
    if (!words) return -1;
    if (found == OPERATIONS) PyErr_Format(PyExc_ValueError, "%R is no operation", given);
    else failed = read_operation(op, operations[found].kind, &PyTuple_GET_ITEM(words, 0) + 1, count - 1);
    Py_DECREF(words);
    return failed;
}

static boostmap_status perform(boostmap_caller *handle, const Operation *op, uint64_t *word) {
    boostmap_status status;
    switch (op->kind) {
    case GET: return boostmap_striped_get(handle, op->key, word);
    case TAKE: return boostmap_striped_take(handle, op->key, word);
    case PUT: return boostmap_striped_put(handle, op->key, op->value, word);
    case PUT_IF: return boostmap_striped_put_if_absent(handle, op->key, op->value, word);
    case PUT_IF_EQUAL: return boostmap_striped_put_if_equal(handle, op->key, op->expected, op->value, word);
    case ADD: return boostmap_striped_add(handle, op->key, op->delta, word);
    default:
        status = boostmap_striped_get_or_put(handle, op->key, op->value, word);
        return status == BOOSTMAP_ABSENT ? BOOSTMAP_DONE : status; /* it always answers a value */
    }
}

/* A transaction of operations, and the replies of those that were done. */
typedef struct {
    size_t count;
    int is_strict;
    Operation *ops;
    boostmap_entry *entries; /* the operations for one call of the archive; NULL: they are made one by one */
    boostmap_reply *replies;
    uint64_t done;
} Run;

/* Whether a put_if found another value than it expects. */
static int misses(const Operation *op, boostmap_reply reply) {
    if (op->kind == PUT_IF) return reply.has != 0;
    return op->kind == PUT_IF_EQUAL && (!reply.has || reply.value != op->expected);
}

/* Makes the transaction. Returns 0 if it was busy. */
static int make(Caller *caller, Run *run, boostmap_status *status, uint64_t *word) {
    uint64_t place = 0;
    int is_over;
    enter(caller);
    run->done = 0;
    if (run->entries) {
        *status = boostmap_striped_run(caller->handle, run->entries, run->count, (uint32_t)run->is_strict, run->replies,
                                       run->count, &run->done, word);
        if (*status == BOOSTMAP_DONE) caller->commit_number = *word;
        return *status != BOOSTMAP_BUSY;
    }
    *status = boostmap_striped_begin(caller->handle);
    if (*status != BOOSTMAP_DONE) return 1;
    caller->begun++;
    while (run->done < run->count && *status <= BOOSTMAP_ABSENT) {
        const Operation *op = &run->ops[run->done];
        *status = perform(caller->handle, op, word);
        if (*status <= BOOSTMAP_ABSENT) {
            boostmap_reply reply = {*word, *status == BOOSTMAP_DONE};
            run->replies[run->done++] = reply;
            if (run->is_strict && misses(op, reply)) *status = BOOSTMAP_MISSED;
        }
    }
    is_over = boostmap_caller_ends(caller->handle, status, &place);
    if (*status <= BOOSTMAP_ABSENT) caller->commit_number = place;
    return is_over;
}

static PyObject *reply_of(boostmap_reply reply) {
    if (reply.has) return PyLong_FromUnsignedLongLong(reply.value);
    Py_RETURN_NONE;
}

/* A list of the replies. */
static PyObject *replies_of(const Run *run) {
    PyObject *all = PyList_New((Py_ssize_t)run->done), *reply;
    for (uint64_t i = 0; all && i < run->done; i++) {
        reply = reply_of(run->replies[i]);
        if (reply) PyList_SET_ITEM(all, (Py_ssize_t)i, reply);
        else Py_CLEAR(all);
    }
    return all;
}

/* Raises that a put_if has ended the run. */
static void raise_missed(const Run *run) {
    PyObject *replies = replies_of(run), *raised = replies ? PyObject_CallFunctionObjArgs(missed_type, replies, NULL) : NULL;
    if (raised) PyErr_SetObject(missed_type, raised);
    Py_XDECREF(raised);
    Py_XDECREF(replies);
}

/* Makes the transaction again and again until it is not busy: 0, or -1 with an exception. */
static int perform_all(Caller *caller, Run *run) {
    uint64_t waits = 0, word = 0;
    boostmap_status status;
    while (!make(caller, run, &status, &word)) {
        Py_BEGIN_ALLOW_THREADS
        boostmap_wait(&waits);
        Py_END_ALLOW_THREADS
        if (PyErr_CheckSignals()) return -1;
    }
    if (status <= BOOSTMAP_ABSENT) return 0;
    if (status == BOOSTMAP_MISSED) raise_missed(run);
    else raise_status(status, word);
    return -1;
}

/* ---- callers ---- */

static PyObject *caller_new(PyTypeObject *type, PyObject *args, PyObject *names) {
    Caller *caller;
    if (PyTuple_GET_SIZE(args) || names) return PyErr_Format(PyExc_TypeError, "a caller is made without arguments");
    caller = (Caller *)type->tp_alloc(type, 0);
    if (!caller) return NULL;
    caller->lock = PyThread_allocate_lock();
    caller->handle = aligned_alloc(64, sizeof *caller->handle);
    if (!caller->lock || !caller->handle) {
        Py_DECREF(caller);
        return PyErr_NoMemory();
    }
    *caller->handle = (boostmap_caller)BOOSTMAP_INIT;
    return (PyObject *)caller;
}

static void caller_dealloc(PyObject *self) {
    Caller *caller = (Caller *)self;
    PyTypeObject *type = Py_TYPE(self);
    if (caller->handle) boostmap_striped_free(caller->handle);
    free(caller->handle);
    if (caller->lock) PyThread_free_lock(caller->lock);
    type->tp_free(self);
    Py_DECREF(type);
}

static PyObject *caller_open(PyObject *self, PyObject *args) {
    Caller *caller = (Caller *)self;
    PyObject *given[5];
    uint64_t how[5];
    boostmap_status status;
    if (!PyArg_ParseTuple(args, "OOOOO", &given[0], &given[1], &given[2], &given[3], &given[4])) return NULL;
    for (int i = 0; i < 5; i++)
        if (read_number(given[i], &how[i])) return NULL;
    enter(caller);
    status = boostmap_striped_open(caller->handle, how[0], how[1], how[2], (uint32_t)how[3], how[4], &caller->number);
    return answer(status, caller->number);
}

static PyTypeObject *caller_type;

/* Makes an empty caller, `next`, one of this caller's map, by a call on both. */
static PyObject *give_caller(PyObject *self, PyObject *next,
                             boostmap_status call(boostmap_caller *, boostmap_caller *, uint64_t *)) {
    Caller *caller = (Caller *)self, *other = (Caller *)next;
    boostmap_status status;
    if (!PyObject_TypeCheck(next, caller_type)) {
        PyErr_SetString(PyExc_TypeError, "a caller is given to a caller");
        return NULL;
    }
    enter(caller);
    status = call(caller->handle, other->handle, &other->number);
    return answer(status, other->number);
}

static PyObject *caller_join(PyObject *self, PyObject *next) { return give_caller(self, next, boostmap_striped_join); }

static PyObject *caller_another(PyObject *self, PyObject *next) { return give_caller(self, next, boostmap_striped_another); }

/* Gives the map's host the handle at this address, and returns the status. */
static PyObject *caller_host(PyObject *self, PyObject *address) {
    boostmap_host *host = PyLong_AsVoidPtr(address);
    if (PyErr_Occurred()) return NULL;
    enter((Caller *)self);
    return PyLong_FromUnsignedLong(boostmap_striped_host(((Caller *)self)->handle, host));
}

static PyObject *caller_abort(PyObject *self, PyObject *none) {
    boostmap_status status;
    (void)none;
    enter((Caller *)self);
    status = boostmap_striped_abort(((Caller *)self)->handle);
    return PyBool_FromLong(status == BOOSTMAP_DONE);
}

static PyObject *caller_close(PyObject *self, PyObject *none) {
    (void)none;
    enter((Caller *)self);
    boostmap_striped_free(((Caller *)self)->handle);
    Py_RETURN_NONE;
}

static PyObject *caller_number(PyObject *self, void *none) {
    (void)none;
    return PyLong_FromUnsignedLongLong(((Caller *)self)->number);
}

/* The place of a commit, or None if the map does not keep its commits. */
static PyObject *place_of(uint64_t place) {
    if (place) return PyLong_FromUnsignedLongLong(place);
    Py_RETURN_NONE;
}

static PyObject *caller_commit_number(PyObject *self, void *none) {
    (void)none;
    return place_of(((Caller *)self)->commit_number);
}

static PyObject *caller_counts(PyObject *self, PyObject *none) {
    boostmap_counts counts;
    boostmap_status status;
    (void)none;
    enter((Caller *)self);
    status = boostmap_striped_counts(((Caller *)self)->handle, &counts);
    if (status != BOOSTMAP_DONE) return raise_status(status, 0);
    return Py_BuildValue("KKK", (unsigned long long)counts.commits, (unsigned long long)counts.aborts,
                         (unsigned long long)counts.busy);
}

/* A tuple of the options with which the map was opened. */
static PyObject *caller_options(PyObject *self, PyObject *none) {
    enum { MEMBERS = BOOSTMAP_OPTION_SEED + 1 };
    unsigned long long all[MEMBERS];
    (void)none;
    enter((Caller *)self);
    for (uint64_t i = 0; i < MEMBERS; i++) {
        uint64_t word = 0;
        boostmap_status status = boostmap_striped_option(((Caller *)self)->handle, i, &word);
        if (status != BOOSTMAP_DONE) return raise_status(status, 0);
        all[i] = word;
    }
    return Py_BuildValue("KKKKK", all[0], all[1], all[2], all[3], all[4]);
}

/* Makes one operation in a transaction of its own: 0, or -1 with an exception. */
static int at_once(PyObject *self, int kind, PyObject *const *given, Py_ssize_t count, boostmap_reply *reply) {
    Operation op;
    Run run = {1, 0, &op, NULL, reply, 0};
    return read_operation(&op, kind, given, count) ? -1 : perform_all((Caller *)self, &run);
}

/* An operation as an entry of a run; its `operation` is 0 if the archive has no such operation. */
static boostmap_entry entry_of(const Operation *op) {
    static const uint32_t known[] = {BOOSTMAP_GET, BOOSTMAP_TAKE, BOOSTMAP_PUT, BOOSTMAP_PUT_IF, BOOSTMAP_PUT_IF, 0, 0};
    boostmap_entry entry = {0};
    entry.operation = known[op->kind];
    entry.key = op->key;
    entry.value = op->value;
    entry.expected = op->expected;
    entry.has = op->kind == PUT_IF_EQUAL;
    return entry;
}

/* Performs the operations of a sequence, and returns a list of their replies. */
static PyObject *run_all(Caller *caller, PyObject *sequence, Run run) {
    boostmap_entry *entries = run.entries;
    for (size_t i = 0; i < run.count; i++) {
        if (read_named(&run.ops[i], PyTuple_GET_ITEM(sequence, (Py_ssize_t)i))) return NULL;
        entries[i] = entry_of(&run.ops[i]);
        if (!entries[i].operation) run.entries = NULL;
    }
    return perform_all(caller, &run) ? NULL : replies_of(&run);
}

static PyObject *caller_run(PyObject *self, PyObject *args, PyObject *names) {
    static char *known[] = {"operations", "strict", NULL};
    PyObject *given, *sequence, *all;
    Run run = {0};
    if (!PyArg_ParseTupleAndKeywords(args, names, "O|p:run", known, &given, &run.is_strict)) return NULL;
    sequence = PySequence_Tuple(given);
    if (!sequence) return NULL;
    run.count = (size_t)PyTuple_GET_SIZE(sequence);
    run.ops = PyMem_New(Operation, run.count + 1);
    run.entries = PyMem_New(boostmap_entry, run.count + 1);
    run.replies = PyMem_New(boostmap_reply, run.count + 1);
    all = run.ops && run.entries && run.replies ? run_all((Caller *)self, sequence, run) : PyErr_NoMemory();
    PyMem_Free(run.ops);
    PyMem_Free(run.entries);
    PyMem_Free(run.replies);
    Py_DECREF(sequence);
    return all;
}

static int in_transaction(PyObject *self, int kind, PyObject *const *given, Py_ssize_t count, boostmap_reply *reply);

/* An operation of a caller, `at_once`, or of a transaction, `in_transaction`. */
typedef int performs(PyObject *self, int kind, PyObject *const *given, Py_ssize_t count, boostmap_reply *reply);

static PyObject *replies(performs *made, PyObject *self, int kind, PyObject *const *given, Py_ssize_t count) {
    boostmap_reply reply;
    return made(self, kind, given, count, &reply) ? NULL : reply_of(reply);
}

/* The reply to a get or take, or its second argument if there was no value and that is given. */
static PyObject *replies_or(performs *made, PyObject *self, int kind, PyObject *const *given, Py_ssize_t count,
                            int needs_default) {
    boostmap_reply reply;
    if (made(self, kind, given, count == 2 ? 1 : count, &reply)) return NULL;
    if (!reply.has && count == 2) return Py_NewRef(given[1]);
    if (!reply.has && needs_default) PyErr_SetObject(PyExc_KeyError, given[0]);
    return !reply.has && needs_default ? NULL : reply_of(reply);
}

static int contains(performs *made, PyObject *self, PyObject *key) {
    boostmap_reply reply;
    return made(self, GET, &key, 1, &reply) ? -1 : reply.has != 0;
}

/* Puts the value, or takes the key out if there is none. */
static int assigns(performs *made, PyObject *self, PyObject *key, PyObject *value) {
    PyObject *given[] = {key, value};
    boostmap_reply reply;
    if (made(self, value ? PUT : TAKE, given, value ? 2 : 1, &reply)) return -1;
    if (value || reply.has) return 0;
    PyErr_SetObject(PyExc_KeyError, key);
    return -1;
}

/* The methods of a type on one key. */
#define METHOD(TYPE, NAME, CALLED)                                                                 \
    static PyObject *TYPE##_##NAME(PyObject *self, PyObject *const *given, Py_ssize_t count) {     \
        return CALLED;                                                                             \
    }
#define METHODS(TYPE, MADE)                                                                        \
    METHOD(TYPE, get, replies_or(MADE, self, GET, given, count, 0))                                \
    METHOD(TYPE, pop, replies_or(MADE, self, TAKE, given, count, 1))                               \
    METHOD(TYPE, take, replies(MADE, self, TAKE, given, count))                                    \
    METHOD(TYPE, put, replies(MADE, self, PUT, given, count))                                      \
    METHOD(TYPE, put_if, replies(MADE, self, PUT_IF, given, count))                                \
    METHOD(TYPE, add, replies(MADE, self, ADD, given, count))                                      \
    METHOD(TYPE, get_or_put, replies(MADE, self, GET_OR_PUT, given, count))                        \
    static int TYPE##_contains(PyObject *self, PyObject *key) { return contains(MADE, self, key); } \
    static int TYPE##_assigns(PyObject *self, PyObject *key, PyObject *value) {                    \
        return assigns(MADE, self, key, value);                                                    \
    }                                                                                              \
    static PyObject *TYPE##_item(PyObject *self, PyObject *key) {                                  \
        return replies_or(MADE, self, GET, &key, 1, 1);                                            \
    }
METHODS(caller, at_once)
METHODS(transaction, in_transaction)

/* A method that takes its arguments as an array: its name, its signature and what it does. */
#define FAST(TYPE, NAME, CALLED, SIGNATURE, TEXT)                                                  \
    {#NAME, (PyCFunction)(void (*)(void))TYPE##_##CALLED, METH_FASTCALL,                           \
     #NAME "($self, " SIGNATURE "/)\n--\n\n" TEXT}

#define METHOD_ROWS(TYPE)                                                                          \
    FAST(TYPE, get, get, "key, default=None, ", "The value at the key, or the default."),          \
    FAST(TYPE, take, take, "key, ", "Takes the key out, and returns the value that it had."),      \
    FAST(TYPE, put, put, "key, value, ", "Puts the value at the key, and returns the value before."), \
    FAST(TYPE, put_if, put_if, "key, expected, value, ",                                           \
         "Puts the value if the key has the expected one (None: if it is absent), and returns the value before."), \
    FAST(TYPE, add, add, "key, delta, ",                                                           \
         "Adds to the value of the key, 0 if it has none, and returns the value before. A sum beyond 64 bits raises " \
         "OverflowError, and changes nothing."),                                                   \
    FAST(TYPE, get_or_put, get_or_put, "key, value, ",                                             \
         "Puts only if the key has no value; returns the value that it has now."),                 \
    FAST(TYPE, setdefault, get_or_put, "key, value, ",                                             \
         "Puts only if the key has no value; returns the value that it has now."),                 \
    FAST(TYPE, pop, pop, "key, default=..., ", "Takes the key out, and returns its value, or the default.")

#define SLOTS(TYPE)                                                                                \
    {Py_tp_new, TYPE##_new}, {Py_tp_dealloc, TYPE##_dealloc}, {Py_tp_methods, TYPE##_methods},     \
    {Py_tp_getset, TYPE##_members}, {Py_mp_subscript, TYPE##_item},                                \
    {Py_mp_ass_subscript, TYPE##_assigns}, {Py_sq_contains, TYPE##_contains}

static PyObject *caller_transaction(PyObject *self, PyObject *none);
static PyObject *caller_transact(PyObject *self, PyObject *args, PyObject *names);

static PyMethodDef caller_methods[] = {
    {"_open", caller_open, METH_VARARGS, NULL},
    {"_join", caller_join, METH_O, NULL},
    {"_another", caller_another, METH_O, NULL},
    {"_host", caller_host, METH_O, NULL},
    {"_counts", caller_counts, METH_NOARGS, NULL},
    {"_options", caller_options, METH_NOARGS, NULL},
    METHOD_ROWS(caller),
    {"transaction", caller_transaction, METH_NOARGS,
     "transaction($self, /)\n--\n\n"
     "A transaction, which begins at `with`, commits at its end, and aborts at an exception."},
    {"transact", (PyCFunction)(void (*)(void))caller_transact, METH_VARARGS | METH_KEYWORDS,
     "transact($self, job, tries=None)\n--\n\n"
     "Runs a job, which is given the transaction, and commits. If a call of the transaction was busy, waits and tries "
     "again, at most `tries` times if that is given: it yields at first, and then sleeps, each time about twice as "
     "long, up to half a millisecond. Returns the job's result."},
    {"run", (PyCFunction)(void (*)(void))caller_run, METH_VARARGS | METH_KEYWORDS,
     "run($self, operations, strict=False)\n--\n\n"
     "Runs operations in one transaction, such as [(\"get\", 1), (\"put\", 2, 20)], and returns their replies. If it is "
     "strict, a put_if that finds another value than it expects takes everything back, and raises Missed."},
    {"abort", caller_abort, METH_NOARGS,
     "abort($self, /)\n--\n\nAborts the caller's transaction, and returns whether there was one."},
    {"close", caller_close, METH_NOARGS, "close($self, /)\n--\n\nFrees the caller. An open transaction is aborted."},
    {0},
};

static PyGetSetDef caller_members[] = {
    {"number", caller_number, NULL, "The caller's number, by which Busy names it.", NULL},
    {"commit_number", caller_commit_number, NULL,
     "The place of its last commit in the order of commits, if the map keeps its commits.", NULL},
    {0},
};

static PyType_Slot caller_slots[] = {SLOTS(caller), {0}};

static PyType_Spec caller_spec = {"boostmap._boostmap.Caller", sizeof(Caller), 0, Py_TPFLAGS_DEFAULT | Py_TPFLAGS_BASETYPE,
                                  caller_slots};

/* ---- transactions ---- */

static PyObject *transaction_of(PyTypeObject *type, PyObject *caller) {
    Transaction *t = (Transaction *)type->tp_alloc(type, 0);
    if (!t) return NULL;
    t->caller = (Caller *)Py_NewRef(caller);
    t->commit_number = Py_NewRef(Py_None);
    return (PyObject *)t;
}

static PyObject *caller_transaction(PyObject *self, PyObject *none) {
    (void)none;
    return transaction_of((PyTypeObject *)transaction_type, self);
}

static PyObject *transaction_new(PyTypeObject *type, PyObject *args, PyObject *names) {
    PyObject *caller;
    (void)names;
    return PyArg_ParseTuple(args, "O!", caller_type, &caller) ? transaction_of(type, caller) : NULL;
}

/* Whether it is open. If its caller was told to abort, and has begun another one since, it is not. */
static int stands(const Transaction *t) { return t->is_open && t->begun == t->caller->begun; }

/* Aborts the transaction, if it is open. */
static void end(Transaction *t) {
    if (!t->is_open) return;
    enter(t->caller);
    if (stands(t)) boostmap_striped_abort(t->caller->handle);
    t->is_open = 0;
}

static void transaction_dealloc(PyObject *self) {
    PyTypeObject *type = Py_TYPE(self);
    end((Transaction *)self);
    Py_XDECREF(((Transaction *)self)->caller);
    Py_XDECREF(((Transaction *)self)->commit_number);
    type->tp_free(self);
    Py_DECREF(type);
}

static void note_busy(Transaction *t) {
    t->is_open = 0;
    t->was_busy = 1;
}

/* Makes a call on the handle of an open transaction; after a busy one the transaction is over. */
#define CALL(T, STATUS, CALLED)                                                                     \
    do {                                                                                           \
        enter((T)->caller);                                                                        \
        STATUS = stands(T) ? (CALLED) : BOOSTMAP_NOT_OPEN;                                       \
        if (STATUS == BOOSTMAP_BUSY) note_busy(T);                                                  \
    } while (0)

/* Begins: 0, or -1 with an exception. */
static int begin(Transaction *t) {
    boostmap_status status;
    enter(t->caller);
    status = boostmap_striped_begin(t->caller->handle);
    if (status != BOOSTMAP_DONE) {
        raise_status(status, 0);
        return -1;
    }
    t->begun = ++t->caller->begun;
    t->is_open = 1;
    t->was_busy = t->rolls_back = 0;
    return 0;
}

static PyObject *transaction_enter(PyObject *self, PyObject *none) {
    (void)none;
    return begin((Transaction *)self) ? NULL : Py_NewRef(self);
}

/* Commits, or aborts after `roll_back`. */
static PyObject *finish(Transaction *t) {
    boostmap_status status;
    uint64_t place = 0;
    PyObject *number;
    if (t->rolls_back && t->is_open) {
        end(t);
        Py_RETURN_NONE;
    }
    CALL(t, status, boostmap_striped_commit(t->caller->handle, &place));
    if (status != BOOSTMAP_DONE) return raise_status(status, 0);
    t->is_open = 0;
    t->caller->commit_number = place;
    number = place_of(place);
    if (!number) return NULL;
    Py_SETREF(t->commit_number, number);
    Py_RETURN_NONE;
}

static PyObject *transaction_exit(PyObject *self, PyObject *const *raised, Py_ssize_t count) {
    if (count > 0 && raised[0] == Py_None) return finish((Transaction *)self);
    end((Transaction *)self);
    Py_RETURN_NONE;
}

/* Runs a job in a transaction that has begun, and ends it. *again: whether it was busy. */
static PyObject *run_job(Transaction *t, PyObject *job, int *again) {
    PyObject *result = PyObject_CallFunctionObjArgs(job, (PyObject *)t, NULL), *finished;
    *again = 0;
    if (!result) {
        *again = t->was_busy && PyErr_ExceptionMatches(busy_type);
        end(t);
        return NULL;
    }
    finished = finish(t);
    if (!finished) Py_CLEAR(result);
    Py_XDECREF(finished);
    return result;
}

static PyObject *caller_transact(PyObject *self, PyObject *args, PyObject *names) {
    static char *known[] = {"job", "tries", NULL};
    PyObject *job, *tries_given = Py_None;
    uint64_t tries = UINT64_MAX, waits = 0;
    if (!PyArg_ParseTupleAndKeywords(args, names, "O|O:transact", known, &job, &tries_given)) return NULL;
    if (tries_given != Py_None && read_number(tries_given, &tries)) return NULL;
    for (;;) {
        PyObject *t = transaction_of((PyTypeObject *)transaction_type, self), *result;
        int again = 0;
        if (!t) return NULL;
        result = begin((Transaction *)t) ? NULL : run_job((Transaction *)t, job, &again);
        Py_DECREF(t);
        if (result || !again || waits == tries) return result;
        PyErr_Clear();
        Py_BEGIN_ALLOW_THREADS
        boostmap_wait(&waits);
        Py_END_ALLOW_THREADS
        if (PyErr_CheckSignals()) return NULL;
    }
}

/* Makes an operation of the open transaction: 0, or -1 with an exception. */
static int in_transaction(PyObject *self, int kind, PyObject *const *given, Py_ssize_t count, boostmap_reply *reply) {
    Transaction *t = (Transaction *)self;
    boostmap_status status;
    Operation op;
    reply->value = 0;
    if (read_operation(&op, kind, given, count)) return -1;
    CALL(t, status, perform(t->caller->handle, &op, &reply->value));
    reply->has = status == BOOSTMAP_DONE;
    if (status > BOOSTMAP_ABSENT) raise_status(status, reply->value);
    return status > BOOSTMAP_ABSENT ? -1 : 0;
}

static PyObject *transaction_save(PyObject *self, PyObject *none) {
    Transaction *t = (Transaction *)self;
    boostmap_status status;
    uint64_t word = 0;
    (void)none;
    CALL(t, status, boostmap_striped_save(t->caller->handle, &word));
    return answer(status, word);
}

static PyObject *transaction_back(PyObject *self, PyObject *const *given, Py_ssize_t count) {
    Transaction *t = (Transaction *)self;
    boostmap_status status;
    uint64_t level = 0;
    if (count > 1) return PyErr_Format(PyExc_TypeError, "back takes a level");
    if (count == 1 && read_number(given[0], &level)) return NULL;
    CALL(t, status, boostmap_striped_back(t->caller->handle, level));
    if (status != BOOSTMAP_DONE) return raise_status(status, 0);
    Py_RETURN_NONE;
}

static PyObject *transaction_roll_back(PyObject *self, PyObject *none) {
    (void)none;
    ((Transaction *)self)->rolls_back = 1;
    Py_RETURN_NONE;
}

/* Counts the keys, or with an array reads the pairs, those of a key's stripe or all, while other threads run. */
static boostmap_status look(Transaction *t, const uint64_t *key, boostmap_pair *pairs, size_t places, uint64_t *word) {
    Caller *caller = t->caller;
    boostmap_status status;
    enter(caller);
    if (!stands(t)) return BOOSTMAP_NOT_OPEN;
    caller->is_looked_at = 1;
    PyThread_acquire_lock(caller->lock, WAIT_LOCK);
    Py_BEGIN_ALLOW_THREADS
    if (key) status = boostmap_striped_read_stripe(caller->handle, *key, pairs, places, word);
    else if (pairs) status = boostmap_striped_read(caller->handle, pairs, places, word);
    else status = boostmap_striped_count(caller->handle, word);
    Py_END_ALLOW_THREADS
    caller->is_looked_at = 0;
    PyThread_release_lock(caller->lock);
    if (status == BOOSTMAP_BUSY) note_busy(t);
    return status;
}

static Py_ssize_t transaction_length(PyObject *self) {
    uint64_t word = 0;
    boostmap_status status = look((Transaction *)self, NULL, NULL, 0, &word);
    if (status == BOOSTMAP_DONE) return (Py_ssize_t)word;
    raise_status(status, word);
    return -1;
}

static int transaction_bool(PyObject *self) {
    (void)self;
    return 1;
}

/* A dictionary of these pairs. */
static PyObject *dictionary_of(const boostmap_pair *pairs, uint64_t count) {
    PyObject *all = PyDict_New();
    for (uint64_t i = 0; all && i < count; i++) {
        PyObject *key = PyLong_FromUnsignedLongLong(pairs[i].key);
        PyObject *value = PyLong_FromUnsignedLongLong(pairs[i].value);
        if (!key || !value || PyDict_SetItem(all, key, value)) Py_CLEAR(all);
        Py_XDECREF(key);
        Py_XDECREF(value);
    }
    return all;
}

/* A dictionary of the pairs of the whole map, or of the key's stripe, for `count` of which there is room at first. */
static PyObject *read_pairs(Transaction *t, const uint64_t *key, uint64_t count) {
    boostmap_pair *pairs = NULL;
    boostmap_status status;
    PyObject *all;
    do {
        free(pairs);
        pairs = calloc((size_t)count + 1, sizeof *pairs);
        if (!pairs) return PyErr_NoMemory();
        status = look(t, key, pairs, (size_t)count, &count);
    } while (status == BOOSTMAP_SHORT);
    all = status == BOOSTMAP_DONE ? dictionary_of(pairs, count) : raise_status(status, count);
    free(pairs);
    return all;
}

static PyObject *transaction_page(PyObject *self, PyObject *given) {
    uint64_t key;
    return read_number(given, &key) ? NULL : read_pairs((Transaction *)self, &key, 16);
}

static PyObject *transaction_copy(PyObject *self, PyObject *none) {
    Py_ssize_t places = transaction_length(self);
    (void)none;
    return places < 0 ? NULL : read_pairs((Transaction *)self, NULL, (uint64_t)places);
}

static PyObject *transaction_was_busy(PyObject *self, void *none) {
    (void)none;
    return PyBool_FromLong(((Transaction *)self)->was_busy);
}

static PyObject *transaction_commit_number(PyObject *self, void *none) {
    (void)none;
    return Py_NewRef(((Transaction *)self)->commit_number);
}

static PyMethodDef transaction_methods[] = {
    {"__enter__", transaction_enter, METH_NOARGS, NULL},
    {"__exit__", (PyCFunction)(void (*)(void))transaction_exit, METH_FASTCALL, NULL},
    METHOD_ROWS(transaction),
    {"save", transaction_save, METH_NOARGS, "save($self, /)\n--\n\nSets a savepoint, and returns its level."},
    FAST(transaction, back, back, "level=0, ",
         "Takes back every change since the level was set; 0 is the beginning of the transaction."),
    {"roll_back", transaction_roll_back, METH_NOARGS,
     "roll_back($self, /)\n--\n\nLets the end of the `with` take everything back, instead of committing."},
    {"page", transaction_page, METH_O,
     "page($self, key, /)\n--\n\n"
     "A dictionary of the pairs of the key's stripe, by rising keys, with the transaction's own changes. Takes only this "
     "stripe. The keys below the number of stripes are in different ones."},
    {"copy", transaction_copy, METH_NOARGS,
     "copy($self, /)\n--\n\n"
     "A dictionary of the whole map, with the transaction's own changes. Takes every stripe."},
    {0},
};

static PyGetSetDef transaction_members[] = {
    {"commit_number", transaction_commit_number, NULL,
     "After the commit, its place in the order of commits, if the map keeps its commits.", NULL},
    {"was_busy", transaction_was_busy, NULL, "Whether a call was busy, which has ended the transaction.", NULL},
    {0},
};

static PyType_Slot transaction_slots[] = {
    SLOTS(transaction), {Py_mp_length, transaction_length}, {Py_nb_bool, transaction_bool}, {0}};

static PyType_Spec transaction_spec = {"boostmap._boostmap.Transaction", sizeof(Transaction), 0,
                                       Py_TPFLAGS_DEFAULT | Py_TPFLAGS_BASETYPE, transaction_slots};

/* ---- the judge by any order ---- */

/* The names of the kinds of entries and of their operations, each numbered from 1, as the interpreter keeps them. */
enum { KINDS = BOOSTMAP_ABORTED, ASKED = BOOSTMAP_GET };
static const char *const kind_names[KINDS] = {"began", "asked", "did", "saved", "leave", "undone", "returned", "committed",
                                              "busy", "aborted"};
static const char *const asked_names[ASKED] = {"put", "put_if", "take", "get"};
static PyObject *kind_words[KINDS], *asked_words[ASKED];

/* The number of a name, from 1; 0 if it is none of the names. */
static uint32_t number_of(PyObject *name, PyObject *const *words, uint32_t count) {
    uint32_t i = 0;
    while (i < count && words[i] != name) i++;
    if (i < count) return i + 1;
    for (i = 0; i < count; i++)
        if (PyUnicode_Check(name) && PyUnicode_Compare(name, words[i]) == 0) return i + 1;
    return 0;
}

/* Reads a number that may be None, which is 0: 0, or -1 with an exception. */
static int read_optional(PyObject *from, uint64_t *number) {
    *number = 0;
    return from == Py_None ? 0 : read_number(from, number);
}

/* Reads an Entry, whose members are kind, caller, operation, key, value, expected and number: 0, or -1 with an exception.
 * One of the wrong kind or operation is read as 0, which the library refuses. */
static int read_entry(PyObject *given, boostmap_entry *entry) {
    PyObject *const *members;
    PyObject *optional; /* the member that may be absent: the reply, the level, or the expected value */
    if (!PyObject_TypeCheck(given, (PyTypeObject *)entry_type) || PyTuple_GET_SIZE(given) != 7) {
        PyErr_Format(PyExc_TypeError, "%R is no Entry", given);
        return -1;
    }
    members = &PyTuple_GET_ITEM(given, 0);
    entry->kind = number_of(members[0], kind_words, KINDS);
    entry->operation = number_of(members[2], asked_words, ASKED);
    optional = entry->kind == BOOSTMAP_DID ? members[4] : entry->kind == BOOSTMAP_LEAVE ? members[6] : members[5];
    entry->has = optional != Py_None;
    return read_optional(members[1], &entry->caller) || read_optional(members[3], &entry->key) ||
                   read_optional(members[4], &entry->value) || read_optional(members[5], &entry->expected) ||
                   read_optional(members[6], &entry->number)
               ? -1
               : 0;
}

/* The entries of a sequence as bytes, an array of boostmap_entry. */
static PyObject *pack(PyObject *self, PyObject *given) {
    PyObject *entries = PySequence_Tuple(given), *packed;
    Py_ssize_t count = entries ? PyTuple_GET_SIZE(entries) : 0;
    (void)self;
    if (!entries) return NULL;
    packed = PyBytes_FromStringAndSize(NULL, count * (Py_ssize_t)sizeof(boostmap_entry));
    for (Py_ssize_t i = 0; packed && i < count; i++) {
        boostmap_entry entry;
        if (read_entry(PyTuple_GET_ITEM(entries, i), &entry)) Py_CLEAR(packed);
        else memcpy(PyBytes_AS_STRING(packed) + i * (Py_ssize_t)sizeof entry, &entry, sizeof entry);
    }
    Py_DECREF(entries);
    return packed;
}

static PyObject *value_of(uint64_t has, uint64_t value) { return reply_of((boostmap_reply){value, has}); }

/* What was found, as a tuple of the kind, number, key, value and list of links. */
static PyObject *found_of(const boostmap_finding *found, const boostmap_link *links) {
    PyObject *all = PyList_New((Py_ssize_t)found->count);
    for (uint64_t i = 0; all && i < found->count; i++) {
        const boostmap_link *link = &links[i];
        PyObject *one = Py_BuildValue("KKKN", (unsigned long long)link->transaction, (unsigned long long)link->kind,
                                      (unsigned long long)link->key, value_of(link->has, link->value));
        if (one) PyList_SET_ITEM(all, (Py_ssize_t)i, one);
        else Py_CLEAR(all);
    }
    if (!all) return NULL;
    return Py_BuildValue("KKKNN", (unsigned long long)found->kind, (unsigned long long)found->number,
                         (unsigned long long)found->key, value_of(found->has, found->value), all);
}

/* Judges the entries of a sequence, with or without real time, while other threads run. */
static PyObject *judge_any_order(PyObject *self, PyObject *args) {
    PyObject *given, *packed, *answer = NULL;
    int real_time;
    const boostmap_entry *entries;
    boostmap_link *links = NULL;
    boostmap_finding found = {0};
    boostmap_status status;
    size_t count;
    if (!PyArg_ParseTuple(args, "Op", &given, &real_time)) return NULL;
    packed = pack(self, given);
    if (!packed) return NULL;
    entries = (const boostmap_entry *)(void *)PyBytes_AS_STRING(packed);
    count = (size_t)PyBytes_GET_SIZE(packed) / sizeof *entries;
    for (size_t i = 0; i < count; i++) found.count += entries[i].kind == BOOSTMAP_COMMITTED;
    do {
        size_t places = (size_t)found.count;
        free(links);
        links = calloc(places + 1, sizeof *links);
        if (!links) break;
        Py_BEGIN_ALLOW_THREADS
        status = boostmap_judge_any_order(entries, count, (uint32_t)real_time, links, places, &found);
        Py_END_ALLOW_THREADS
    } while (status == BOOSTMAP_SHORT);
    if (!links) PyErr_NoMemory();
    else answer = status == BOOSTMAP_DONE ? found_of(&found, links) : raise_status(status, 0);
    free(links);
    Py_DECREF(packed);
    return answer;
}

/* ---- the module ---- */

static PyObject *set_types(PyObject *self, PyObject *args) {
    (void)self;
    if (!PyArg_ParseTuple(args, "OOOOO", &busy_type, &refused_type, &missed_type, &transaction_type, &entry_type))
        return NULL;
    Py_INCREF(busy_type);
    Py_INCREF(refused_type);
    Py_INCREF(missed_type);
    Py_INCREF(transaction_type);
    Py_INCREF(entry_type);
    Py_RETURN_NONE;
}

static PyMethodDef module_methods[] = {
    {"set_types", set_types, METH_VARARGS,
     "Sets the exceptions of busy and refused calls and of missed runs, the type of transactions that `transact` makes, "
     "and that of entries."},
    {"pack", pack, METH_O, "The entries of a sequence as bytes, an array for the library."},
    {"judge_any_order", judge_any_order, METH_VARARGS,
     "Judges a sequence of entries, with or without real time, and returns the kind, number, key and value of the finding, and its links."},
    {0},
};

static struct PyModuleDef module = {
    PyModuleDef_HEAD_INIT, "_boostmap", "Callers and transactions of striped maps, and the judge by any order.", -1,
    module_methods, NULL, NULL, NULL, NULL};

PyMODINIT_FUNC PyInit__boostmap(void) {
    PyObject *made = PyModule_Create(&module), *transactions;
    if (!made) return NULL;
    for (int i = 0; i < OPERATIONS; i++) operations[i].word = PyUnicode_InternFromString(operations[i].name);
    for (int i = 0; i < KINDS; i++) kind_words[i] = PyUnicode_InternFromString(kind_names[i]);
    for (int i = 0; i < ASKED; i++) asked_words[i] = PyUnicode_InternFromString(asked_names[i]);
    caller_type = (PyTypeObject *)PyType_FromSpec(&caller_spec);
    transactions = PyType_FromSpec(&transaction_spec);
    if (!caller_type || !transactions || PyModule_AddObject(made, "Caller", Py_NewRef((PyObject *)caller_type)) ||
        PyModule_AddObject(made, "Transaction", transactions)) {
        Py_DECREF(made);
        return NULL;
    }
    return made;
}
