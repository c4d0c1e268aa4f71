/* The desk for Python: a type over dl_desk.h that keeps, for each cell, who waits for it and then its outcome, and that watches
 * the tasks that send and fetch. It works under the interpreter's lock, and a desk belongs to the thread and the event loop of
 * its first load. A loader of threads has rounds in an event loop's place: an object of its thread that makes futures, and that is
 * told of each list of batches (`collect`), which it then has fetched by `_fetch_here`.
 *
 * Any call of Python's may come back with another call of the same desk, by a finalizer if nothing else. So what the desk answers
 * is noted before the next such call, and a cell is looked up by its number after each. An interrupt comes only while Python's
 * own code runs: so what has to be done as one is done here. */
#define Py_LIMITED_API 0x030a0000
#define PY_SSIZE_T_CLEAN
#include <Python.h>

#include "_keys.h"
#include "dl_desk.h"

/* What the extension has in each interpreter: references, and nothing else. */
typedef struct {
    PyObject *options[9]; /* their names */
    PyObject *desk_type, *known_type, *loader_full, *no_args;
    PyObject *get_running_loop, *future_type, *base_create_future, *cancelled_error, *invalid_state, *shield, *partial;
    PyObject *add_done_callback, *batch_schedule_fn, *cancel, *cancelled, *check_options, *clear, *close, *collect, *create_future,
        *create_task, *dispatch, *end_as, *exception, *fetch, *get, *pop, *result, *set_exception, *set_result, *setdefault,
        *task_ended, *thread_id, *loop, *ready, *plain_loop;
} Module;

/* What a cell is. */
typedef enum {
    COLLECTED, /* its batch isn't sent: it has a key and may have waiters */
    SENT,      /* its batch is sent: it may have waiters */
    ENDED,     /* a future that is done */
    VALUE,     /* a value, of which nobody has a future */
    ERROR,     /* an exception, of which nobody has a future */
    GONE       /* it has nothing: its load has raised, or nobody can read its outcome any more */
} CellState;

/* What a loader knows of a key: its number, by which the desk knows it; the cell that the desk holds for it, or NO_CELL; and that
 * cell's future, if it is done, else NULL. The reference is the cell's. */
typedef struct {
    PyObject_HEAD
    uint64_t number;
    PyObject *done;
    uint32_t place;
} Known;

#define NO_CELL UINT32_MAX

typedef struct {
    PyObject *key;  /* the key as the caller gave it; of a cell that was primed with a future, that future; or NULL */
    PyObject *what; /* of waiters: NULL, a future, or a list of them */
    Known *known;   /* if the desk holds it for its key: that key, else NULL */
    CellState state;
} Cell;

/* How a cell ends. Of what is silent a loop makes no report if nobody asks for it. */
typedef enum { WITH_VALUE, WITH_ERROR, WITH_SILENT_ERROR } Ending;

/* What a loader has done. */
typedef struct {
    unsigned long long loads, hits, batches, keys, failures;
} Counts;

typedef struct {
    PyObject_HEAD
    Module *module;
    dl_desk desk;
    uint32_t max_batch, max_cells;
    Cell *cells; /* by their numbers */
    uint32_t cell_count, cell_room;
    uint32_t held;           /* how many of them the desk holds */
    uint32_t unended;        /* how many have no outcome, and how many calls look at cells meanwhile */
    uint64_t first_batch;    /* how many batches desks before this one have sent */
    uint32_t batch_count;    /* how many this one has sent */
    bool is_memo;            /* whether a load may find what an earlier one has loaded */
    bool is_collecting;      /* whether what is collected will be sent */
    PyObject *get_cache_key; /* a callable, or NULL */
    PyObject *cache_map;     /* a mapping that is the memo in the desk's place, or NULL */
    PyObject *keys;          /* a dict: what is known of each key, or NULL */
    PyObject *cleared;       /* a dict: the same of keys that were cleared while they were collected, or NULL */
    uint64_t next_number;    /* none from this one on was given to a key */
    PyObject *task;          /* a task, or NULL */
    PyObject *task_batches;  /* the list of its batches that haven't ended, or NULL */
    PyObject *tasks;         /* a dict: the same of each other task, or NULL. Most loaders need none */
    PyObject *sending;       /* the list of the task that will send what is collected, or NULL */
    PyObject *rounds;        /* a function that gives the rounds of the thread, or NULL if loads need an event loop */
    PyObject *loop;          /* the event loop or the rounds of the first load, or NULL */
    unsigned long thread;    /* its thread */
    PyObject *of_loop;       /* {"loop": loop}, or NULL */
    PyObject *create_future; /* the loop's own method, or NULL if it makes asyncio's futures */
    PyObject *loop_dict;     /* the loop's `__dict__`, or NULL */
    PyObject *run;           /* the loop's `_thread_id` as of a load, or NULL: while it is this very object, the loop runs on */
    Counts counts;
} Desk;

/* What isn't in the limited API of each Python. */

static PyObject *call_one(PyObject *callable, PyObject *argument)
{
    return PyObject_CallFunctionObjArgs(callable, argument, NULL);
}

static PyObject *call_method(PyObject *of, PyObject *name, PyObject *argument)
{
    return PyObject_CallMethodObjArgs(of, name, argument, NULL);
}

/* Calls a method of a future, which may be written in Python. An interrupt that meets it comes again, once it has been called. */
static PyObject *call_future(PyObject *future, PyObject *name, PyObject *argument)
{
    PyObject *given = call_method(future, name, argument);

    if (given == NULL && PyErr_ExceptionMatches(PyExc_KeyboardInterrupt)) {
        PyErr_Clear();
        given = call_method(future, name, argument);
        PyErr_SetInterrupt();
    }
    return given;
}

/* Puts a reference in the place of another one. */
static void replace(PyObject **place, PyObject *given)
{
    PyObject *old = *place;

    *place = given;
    Py_XDECREF(old);
}

/* The name of an object's type. A new reference. */
static PyObject *type_name(PyObject *of)
{
    return PyObject_GetAttrString((PyObject *)Py_TYPE(of), "__name__");
}

/* A reference to an object, or to None if there is none. */
static PyObject *or_none(PyObject *given)
{
    given = given == NULL ? Py_None : given;
    Py_INCREF(given);
    return given;
}

/* Errors. */

static PyObject *raise_code(const Desk *self, uint32_t code)
{
    switch (code) {
    case DL_OUT_OF_MEMORY:
        return PyErr_NoMemory();
    case DL_CELLS_FULL:
        PyErr_SetString(self->module->loader_full,
                        "the loader holds as many cells as its max_cells: make a loader for each request, "
                        "or clear one that lives longer (clear_all)");
        return NULL;
    case DL_BAD_LIMIT:
        PyErr_Format(PyExc_ValueError, "a limit is 1 to %d", DL_LARGEST_LIMIT);
        return NULL;
    case DL_CLOSED:
        PyErr_SetString(PyExc_RuntimeError, "the loader is not open: a subclass calls DataLoader.__init__");
        return NULL;
    case DL_OPEN:
        PyErr_SetString(PyExc_RuntimeError, "the loader is open already");
        return NULL;
    case DL_NO_BATCH:
        PyErr_SetString(PyExc_ValueError, "there is no such batch");
        return NULL;
    case DL_NOT_SENT:
        PyErr_SetString(PyExc_ValueError, "the batch has not been sent");
        return NULL;
    case DL_ENDED_BEFORE:
        PyErr_SetString(PyExc_ValueError, "the batch has ended before");
        return NULL;
    default:
        PyErr_Format(PyExc_SystemError, "the desk answered %s", dl_code_name(code));
        return NULL;
    }
}

/* Takes the exception that was raised. */
static PyObject *take_error(void)
{
    PyObject *type, *error, *traceback;

    PyErr_Fetch(&type, &error, &traceback);
    PyErr_NormalizeException(&type, &error, &traceback);
    if (traceback != NULL) {
        PyException_SetTraceback(error, traceback);
    }
    Py_XDECREF(type);
    Py_XDECREF(traceback);
    return error;
}

/* Raises an exception that was taken. */
static void raise_again(PyObject *error)
{
    PyErr_SetObject((PyObject *)Py_TYPE(error), error);
    Py_DECREF(error);
}

/* Keys. */

static bool is_key(PyObject *key)
{
    if (key == Py_None) {
        PyErr_SetString(PyExc_TypeError, "a key is a value, and not None");
    }
    return key != Py_None;
}

/* The key by which a key is remembered: itself, or what get_cache_key makes of it. A new reference. */
static PyObject *cache_key_of(Desk *self, PyObject *key)
{
    if (!is_key(key)) {
        return NULL;
    }
    if (self->get_cache_key != NULL) {
        return call_one(self->get_cache_key, key);
    }
    Py_INCREF(key);
    return key;
}

/* Says of a TypeError that a key can't be hashed, if that is why. */
static void explain_unhashable(PyObject *cache_key)
{
    PyObject *error, *name;

    if (!PyErr_ExceptionMatches(PyExc_TypeError)) {
        return;
    }
    error = take_error();
    if (PyObject_Hash(cache_key) == -1 && PyErr_ExceptionMatches(PyExc_TypeError) && (name = type_name(cache_key)) != NULL) {
        PyErr_Format(PyExc_TypeError, "a key is hashable, and %S isn't: give get_cache_key", name);
        Py_DECREF(name);
        Py_DECREF(error);
    } else {
        raise_again(error);
    }
}

/* The dict of the keys, made if `is_new`. A new reference, since a key's `__hash__` or `__eq__` may have the loader drop it. */
static PyObject *keys_of(Desk *self, bool is_new)
{
    if (self->keys == NULL && is_new) {
        self->keys = PyDict_New();
    }
    Py_XINCREF(self->keys);
    return self->keys;
}

/* The dict of the keys that were cleared while they were collected, made if there is none. Until these are sent, the desk has to
 * know them by the same numbers, so that no batch gets a key twice. A new reference. */
static PyObject *cleared_of(Desk *self)
{
    if (self->cleared == NULL) {
        self->cleared = PyDict_New();
    }
    Py_XINCREF(self->cleared);
    return self->cleared;
}

/* What was known of such a key: a new reference, or NULL, also with an exception. */
static Known *cleared_known(Desk *self, PyObject *cache_key)
{
    PyObject *cleared = self->cleared;
    Known *known;

    if (cleared == NULL) {
        return NULL;
    }
    Py_INCREF(cleared);
    known = (Known *)PyDict_GetItemWithError(cleared, cache_key);
    Py_XINCREF(known);
    Py_DECREF(cleared);
    return known;
}

/* Begins to know a key, unless another call does so meanwhile: a key's `__hash__` and `__eq__` may load keys, and let other
 * threads run. A new reference. */
static Known *new_known(Desk *self, PyObject *keys, PyObject *cache_key)
{
    Known *known = cleared_known(self, cache_key), *kept;

    if (known == NULL && PyErr_Occurred()) {
        return NULL;
    }
    if (known == NULL) {
        known = PyObject_New(Known, (PyTypeObject *)self->module->known_type);
        if (known == NULL) {
            return NULL;
        }
        known->number = self->next_number++;
        known->place = NO_CELL;
        known->done = NULL;
    }
    kept = (Known *)PyObject_CallMethodObjArgs(keys, self->module->setdefault, cache_key, known, NULL);
    Py_DECREF(known);
    return kept;
}

static void known_dealloc(PyObject *known)
{
    PyTypeObject *type = Py_TYPE(known);

    PyObject_Free(known);
    Py_DECREF(type);
}

/* What is known of a cache key, and of a new one if `is_new`: 1 with a new reference; 0 if nothing is; -1 with an exception. */
static int find_known(Desk *self, PyObject *cache_key, bool is_new, Known **known)
{
    PyObject *keys = keys_of(self, is_new);

    *known = keys == NULL ? NULL : (Known *)PyDict_GetItemWithError(keys, cache_key);
    Py_XINCREF(*known);
    if (*known == NULL && keys != NULL && is_new && !PyErr_Occurred()) {
        *known = new_known(self, keys, cache_key);
    }
    Py_XDECREF(keys);
    if (*known != NULL) {
        return 1;
    }
    /* Nothing is asked of a dict that isn't there, but a key is hashable. */
    if (PyErr_Occurred() || (keys == NULL && PyObject_Hash(cache_key) == -1)) {
        explain_unhashable(cache_key);
        return -1;
    }
    return 0;
}

/* The same of a key. */
static int known_of(Desk *self, PyObject *key, bool is_new, Known **known)
{
    PyObject *cache_key = cache_key_of(self, key);
    int found = cache_key == NULL ? -1 : find_known(self, cache_key, is_new, known);

    Py_XDECREF(cache_key);
    return found;
}

/* What is known of a key that is loaded. If the desk is no memo, that is nothing, and the key has the number of no other load. */
static bool loaded_key(Desk *self, PyObject *key, Known **known, uint64_t *number)
{
    if (self->is_memo) {
        if (known_of(self, key, true, known) != 1) {
            return false;
        }
        *number = (*known)->number;
        return true;
    }
    *known = NULL;
    *number = self->next_number++;
    return is_key(key);
}

/* The loop and its futures. */

/* Whether the call comes from the thread of the first load, if there was one. */
static bool is_in_thread(const Desk *self)
{
    if (self->loop != NULL && self->thread != PyThread_get_thread_ident()) {
        PyErr_SetString(PyExc_RuntimeError,
                        "the loader belongs to another thread: make a loader for each request, in its thread");
        return false;
    }
    return true;
}

/* Whether loops of this type make asyncio's futures: 1, 0, or -1 with an exception. The last type that does is kept. */
static int makes_plain_futures(Module *module, PyObject *type)
{
    PyObject *method;

    if (type == module->plain_loop) {
        return 1;
    }
    method = PyObject_GetAttr(type, module->create_future);
    if (method == NULL) {
        return -1;
    }
    Py_DECREF(method);
    if (method != module->base_create_future) {
        return 0;
    }
    Py_INCREF(type);
    replace(&module->plain_loop, type);
    return 1;
}

/* Takes on the loop of the first load. */
static bool bind(Desk *self, PyObject *loop)
{
    int is_plain = makes_plain_futures(self->module, (PyObject *)Py_TYPE(loop));
    PyObject *of_loop, *own = NULL;

    if (is_plain < 0 || (!is_plain && (own = PyObject_GetAttr(loop, self->module->create_future)) == NULL)) {
        return false;
    }
    of_loop = PyDict_New();
    if (of_loop == NULL || PyDict_SetItem(of_loop, self->module->loop, loop) < 0) {
        Py_XDECREF(of_loop);
        Py_XDECREF(own);
        return false;
    }
    replace(&self->create_future, own);
    replace(&self->of_loop, of_loop);
    replace(&self->loop_dict, PyObject_GenericGetDict(loop, NULL));
    PyErr_Clear();
    Py_INCREF(loop);
    replace(&self->loop, loop);
    self->thread = PyThread_get_thread_ident();
    return true;
}

/* What the loop's `_thread_id` is: asyncio's own loops have an object of their own there for each run, and None between. It is
 * borrowed. */
static PyObject *current_run(const Desk *self)
{
    PyObject *run = self->loop_dict == NULL ? NULL : PyDict_GetItemWithError(self->loop_dict, self->module->thread_id);

    if (run == NULL) {
        PyErr_Clear();
    }
    return run;
}

/* Whether the running loop is that of the first load, which this may be. Asking asyncio may take a system call. */
static bool find_loop(Desk *self)
{
    PyObject *loop, *run;
    bool is_own = false;

    if (!self->desk.is_open) {
        raise_code(self, DL_CLOSED);
        return false;
    }
    if (!is_in_thread(self) ||
        (loop = PyObject_CallNoArgs(self->rounds != NULL ? self->rounds : self->module->get_running_loop)) == NULL) {
        return false;
    }
    if (loop == Py_None) {
        PyErr_SetString(PyExc_RuntimeError, "no event loop is running: call the loader from a coroutine");
    } else if (self->loop == NULL) {
        is_own = bind(self, loop);
    } else if (self->loop == loop) {
        is_own = true;
    } else {
        PyErr_Format(PyExc_RuntimeError, "the loader belongs to another %s: make a loader for each request, in its %s",
                     self->rounds != NULL ? "thread" : "event loop", self->rounds != NULL ? "thread" : "loop");
    }
    Py_DECREF(loop);
    if (is_own) {
        run = current_run(self);
        run = run == Py_None ? NULL : run;
        Py_XINCREF(run);
        replace(&self->run, run);
    }
    return is_own;
}

/* The same, found faster if the loop has run on since an earlier load. */
static bool is_on_loop(Desk *self)
{
    return (self->run != NULL && self->thread == PyThread_get_thread_ident() && current_run(self) == self->run) ||
           find_loop(self);
}

static PyObject *new_future(Desk *self)
{
    return self->create_future != NULL ? PyObject_CallNoArgs(self->create_future)
                                       : PyObject_Call(self->module->future_type, self->module->no_args, self->of_loop);
}

/* What a RuntimeError tells in the place of an exception that a future can't hold. */
#define GIVEN "a batch function gave %S"
#define PRIMED "a key was primed with %S"
#define TASK_ENDED "the loader's task ended with %S"
#define NOT_CALLED "the loader's task was cancelled before it called the batch function"

static bool is_cancelled(const Desk *self, PyObject *error)
{
    return PyErr_GivenExceptionMatches(error, self->module->cancelled_error) != 0;
}

/* Whether a waiter that is given this exception would be ended or cancelled by it, or its loop, or can't be given it. */
static bool is_wrapped(const Desk *self, PyObject *error)
{
    PyObject *const kinds[] = {PyExc_StopIteration, PyExc_GeneratorExit, PyExc_KeyboardInterrupt, PyExc_SystemExit};

    for (size_t i = 0; i < sizeof kinds / sizeof *kinds; i++) {
        if (PyErr_GivenExceptionMatches(error, kinds[i])) {
            return true;
        }
    }
    return is_cancelled(self, error);
}

/* An exception as a future can hold it and a waiter can see it. A new reference, or NULL. */
static PyObject *held_error(Desk *self, PyObject *error, const char *told)
{
    PyObject *name, *wrapped;

    if (!is_wrapped(self, error)) {
        Py_INCREF(error);
        return error;
    }
    name = type_name(error);
    wrapped = name == NULL ? NULL : PyObject_CallFunction(PyExc_RuntimeError, "N", PyUnicode_FromFormat(told, name));
    Py_XDECREF(name);
    if (wrapped != NULL) {
        Py_INCREF(error);
        PyException_SetCause(wrapped, error);
    }
    return wrapped;
}

/* Gives a future its outcome: whether it took it. It doesn't if its waiter has cancelled it. */
static bool end_future(Desk *self, PyObject *future, PyObject *outcome, Ending ending)
{
    Module *module = self->module;
    PyObject *none = call_future(future, ending == WITH_VALUE ? module->set_result : module->set_exception, outcome);

    if (none != NULL && ending == WITH_SILENT_ERROR) {
        /* The loop reports no exception that was looked at. */
        replace(&none, call_method(future, module->exception, NULL));
    }
    if (none != NULL) {
        Py_DECREF(none);
        return true;
    }
    if (PyErr_ExceptionMatches(module->invalid_state)) {
        PyErr_Clear();
    } else {
        /* The others are given theirs all the same. */
        PyErr_WriteUnraisable(future);
    }
    return false;
}

/* Cells. */

static bool is_unended(const Cell *cell)
{
    return cell->state == COLLECTED || cell->state == SENT;
}

/* Opens a new desk behind the loader, if so many cells more make the old one more than half full and nothing of it can be read or
 * written any more: each of its cells is GONE then. If there is no memory for that, the old one stays. */
static void renew(Desk *self, size_t count)
{
    dl_desk desk = {0};

    if (self->cell_count + count <= self->max_cells / 2 || self->unended > 0 || self->held > 0 || self->cell_count == 0 ||
        dl_desk_open(&desk, self->max_batch, self->max_cells, 0, 0) != DL_DONE) {
        return;
    }
    dl_desk_close(&self->desk);
    self->desk = desk;
    self->cell_count = 0;
    self->first_batch += self->batch_count;
    self->batch_count = 0;
    Py_CLEAR(self->keys);
    Py_CLEAR(self->cleared);
}

/* Makes room for so many cells more. */
static bool reserve_cells(Desk *self, size_t count)
{
    size_t wanted = self->cell_count + count, room = self->cell_room;
    Cell *cells;

    if (wanted <= room) {
        return true;
    }
    /* The desk refuses more than this. */
    if (wanted > (size_t)DL_LARGEST_LIMIT + count) {
        PyErr_NoMemory();
        return false;
    }
    room = room + room / 2 + 8;
    room = room < wanted ? wanted : room;
    cells = PyMem_Realloc(self->cells, room * sizeof *cells);
    if (cells == NULL) {
        PyErr_NoMemory();
        return false;
    }
    self->cells = cells;
    self->cell_room = (uint32_t)room;
    return true;
}

/* Notes a cell that the desk has begun, for which there is room. */
static void note_cell(Desk *self, PyObject *key, Known *known, uint32_t place, CellState state)
{
    Py_XINCREF(key);
    Py_XINCREF(known);
    self->cells[place] = (Cell){key, NULL, known, state};
    self->cell_count = place + 1;
    self->unended++;
    if (known != NULL) {
        known->place = place;
        self->held++;
    }
}

/* Lets go of whatever a cell has. */
static void lose_cell(Desk *self, uint32_t place)
{
    Cell cell = self->cells[place];

    self->cells[place] = (Cell){.state = GONE};
    self->unended -= is_unended(&cell);
    if (cell.known != NULL) {
        cell.known->place = NO_CELL;
        cell.known->done = NULL;
        self->held--;
    }
    Py_XDECREF(cell.key);
    Py_XDECREF(cell.what);
    Py_XDECREF(cell.known);
}

/* Notes that the desk doesn't hold a cell any more: nobody can read its outcome then, if it has one. */
static void unhold_cell(Desk *self, uint32_t place)
{
    Known *known = self->cells[place].known;

    if (!is_unended(&self->cells[place])) {
        lose_cell(self, place);
    } else if (known != NULL) {
        known->place = NO_CELL;
        self->cells[place].known = NULL;
        self->held--;
        Py_DECREF(known);
    }
}

/* The same of all cells, and of all keys. */
static void unhold_all(Desk *self)
{
    PyObject *keys = self->keys;

    self->keys = NULL;
    self->unended++;
    for (uint32_t place = 0; self->held > 0 && place < self->cell_count; place++) {
        unhold_cell(self, place);
    }
    self->unended--;
    Py_XDECREF(keys);
}

/* Has the desk forget a cell that it holds. If it has no memory for that, it forgets all: that takes none. */
static void forget_cell(Desk *self, uint32_t place)
{
    KeyText text;

    if (self->cells[place].known == NULL) {
        return;
    }
    text = key_text(self->cells[place].known->number);
    if (dl_desk_clear(&self->desk, KEY(text)) == DL_OUT_OF_MEMORY) {
        dl_desk_clear_all(&self->desk);
        unhold_all(self);
    } else {
        unhold_cell(self, place);
    }
}

static PyObject *future_of(Desk *self, uint32_t place);

/* A new future among those that wait for the cell. */
static PyObject *new_waiter(Desk *self, uint32_t place)
{
    PyObject *future = new_future(self), *list = NULL;

    if (future != NULL && is_unended(&self->cells[place]) && self->cells[place].what != NULL &&
        !PyList_CheckExact(self->cells[place].what) && (list = PyList_New(1)) == NULL) {
        Py_CLEAR(future);
    }
    if (future != NULL && !is_unended(&self->cells[place])) {
        replace(&future, future_of(self, place));
    } else if (future != NULL && self->cells[place].what == NULL) {
        Py_INCREF(future);
        self->cells[place].what = future;
    } else if (future != NULL) {
        if (!PyList_CheckExact(self->cells[place].what)) {
            PyList_SetItem(list, 0, self->cells[place].what);
            self->cells[place].what = list;
            list = NULL;
        }
        if (PyList_Append(self->cells[place].what, future) < 0) {
            Py_CLEAR(future);
        }
    }
    Py_XDECREF(list);
    return future;
}

/* Puts a future that is done in the place of a cell's outcome. */
static void note_done(Desk *self, uint32_t place, PyObject *future)
{
    Cell *cell = &self->cells[place];

    Py_INCREF(future);
    cell->state = ENDED;
    if (cell->known != NULL) {
        cell->known->done = future;
    }
    replace(&cell->what, future);
}

/* The future of a cell that ended while nobody waited for it. */
static PyObject *ended_future(Desk *self, uint32_t place)
{
    PyObject *outcome = self->cells[place].what, *future;
    Ending ending = self->cells[place].state == ERROR ? WITH_ERROR : WITH_VALUE;

    Py_INCREF(outcome);
    future = new_future(self);
    if (future != NULL && end_future(self, future, outcome, ending) && self->cells[place].what == outcome) {
        note_done(self, place, future);
    }
    Py_DECREF(outcome);
    return future;
}

/* A future of the cell's outcome: one of its own for who has to wait. */
static PyObject *future_of(Desk *self, uint32_t place)
{
    switch (self->cells[place].state) {
    case COLLECTED:
    case SENT:
        return new_waiter(self, place);
    case VALUE:
    case ERROR:
        return ended_future(self, place);
    case ENDED:
        Py_INCREF(self->cells[place].what);
        return self->cells[place].what;
    default:
        PyErr_SetString(PyExc_RuntimeError, "the key was forgotten while it was loaded");
        return NULL;
    }
}

/* Ends a cell, and gives its waiters the outcome. One that the desk doesn't hold keeps nothing of it. */
static void end_cell(Desk *self, uint32_t place, PyObject *outcome, Ending ending)
{
    PyObject *waiters = self->cells[place].what, *ended = NULL;
    Py_ssize_t count = waiters == NULL ? 0 : PyList_CheckExact(waiters) ? PyList_Size(waiters) : 1;

    Py_INCREF(outcome);
    self->cells[place].what = outcome;
    self->cells[place].state = ending == WITH_VALUE ? VALUE : ERROR;
    for (Py_ssize_t i = 0; i < count; i++) {
        PyObject *future = PyList_CheckExact(waiters) ? PyList_GetItem(waiters, i) : waiters;
        if (end_future(self, future, outcome, ending)) {
            Py_INCREF(future);
            replace(&ended, future);
        }
    }
    if (self->cells[place].known == NULL) {
        lose_cell(self, place);
    } else if (ended != NULL && self->cells[place].what == outcome) {
        note_done(self, place, ended);
    }
    self->unended--;
    Py_XDECREF(ended);
    Py_XDECREF(waiters);
}

/* Ends a cell with an exception, in a form that its waiters see. */
static void end_with_error(Desk *self, uint32_t place, PyObject *error, Ending ending, const char *told)
{
    PyObject *held = held_error(self, error, told);

    if (held == NULL) {
        PyErr_Clear();
    }
    end_cell(self, place, held == NULL ? PyExc_MemoryError : held, ending);
    Py_XDECREF(held);
}

static void end_with(Desk *self, uint32_t place, PyObject *outcome, const char *told)
{
    if (PyExceptionInstance_Check(outcome)) {
        end_with_error(self, place, outcome, WITH_ERROR, told);
    } else {
        end_cell(self, place, outcome, WITH_VALUE);
    }
}

/* The cache map. */

/* What the cache map answers to a call with the key and None: None if there is no map. */
static PyObject *of_cache_map(Desk *self, PyObject *method, PyObject *cache_key)
{
    if (self->cache_map == NULL) {
        Py_RETURN_NONE;
    }
    return PyObject_CallMethodObjArgs(self->cache_map, method, cache_key, Py_None, NULL);
}

/* The same of a key that isn't a cache key yet. */
static PyObject *of_cache_map_by_key(Desk *self, PyObject *method, PyObject *key)
{
    PyObject *cache_key = self->desk.is_open ? cache_key_of(self, key) : raise_code(self, DL_CLOSED);
    PyObject *answer = cache_key == NULL ? NULL : of_cache_map(self, method, cache_key);

    Py_XDECREF(cache_key);
    return answer;
}

/* Has the cache map forget a cell that fails, if it holds it still. */
static void forget_mapped(Desk *self, uint32_t place)
{
    PyObject *key = self->cells[place].key, *what = self->cells[place].what;
    PyObject *cache_key = key == NULL ? NULL : cache_key_of(self, key);
    PyObject *held = cache_key == NULL ? NULL : of_cache_map(self, self->module->get, cache_key);

    if (held != NULL && held == what) {
        replace(&held, of_cache_map(self, self->module->pop, cache_key));
    }
    if (PyErr_Occurred()) {
        PyErr_WriteUnraisable((PyObject *)self);
    }
    Py_XDECREF(held);
    Py_XDECREF(cache_key);
}

/* Faults. */

/* Ends a cell with a fault, and forgets it, by the cache map too if that has it. Nobody is told of what was cancelled who doesn't
 * ask, as asyncio has it. */
static void fail_cell(Desk *self, uint32_t place, PyObject *fault, Ending ending, const char *told)
{
    forget_cell(self, place);
    if (is_unended(&self->cells[place])) {
        if (self->cache_map != NULL) {
            forget_mapped(self, place);
        }
        end_with_error(self, place, fault, is_cancelled(self, fault) ? WITH_SILENT_ERROR : ending, told);
    }
}

/* Ends what is collected and isn't sent: whether anything was. */
static bool abandon(Desk *self, PyObject *fault, Ending ending)
{
    bool is_any = false;

    self->is_collecting = false;
    Py_CLEAR(self->sending);
    self->unended++;
    for (uint32_t place = 0; place < self->cell_count; place++) {
        if (self->cells[place].state == COLLECTED) {
            fail_cell(self, place, fault, ending, is_cancelled(self, fault) ? NOT_CALLED : TASK_ENDED);
            is_any = true;
        }
    }
    self->unended--;
    return is_any;
}

/* Ends a batch with a fault of the whole, unless it has ended. */
static void fail_batch(Desk *self, uint64_t batch, PyObject *fault, const char *told)
{
    uint32_t own = (uint32_t)(batch - self->first_batch);
    dl_loaded member;

    if (batch < self->first_batch || dl_desk_fail(&self->desk, own) != DL_DONE) {
        return;
    }
    self->counts.failures++;
    self->unended++;
    for (uint32_t index = 0; (member = dl_desk_member(&self->desk, own, index)).code == DL_HIT; index++) {
        unhold_cell(self, member.cell);
        fail_cell(self, member.cell, fault, WITH_ERROR, told);
    }
    self->unended--;
}

/* The number of a batch in a list of pairs of a batch and its keys. */
static uint64_t batch_at(PyObject *batches, Py_ssize_t place)
{
    return PyLong_AsUnsignedLongLong(PyTuple_GetItem(PyList_GetItem(batches, place), 0));
}

/* Ends each batch of a list that is still there, and takes it off. */
static void fail_batches(Desk *self, PyObject *batches, PyObject *fault, const char *told)
{
    while (PyList_Size(batches) > 0) {
        uint64_t batch = batch_at(batches, 0);
        if (PyList_SetSlice(batches, 0, 1, NULL) < 0) {
            PyErr_Clear();
            return;
        }
        fail_batch(self, batch, fault, told);
    }
}

/* Tasks. */

/* Notes the list of a task. */
static bool note_task(Desk *self, PyObject *task, PyObject *batches)
{
    if (self->task == NULL) {
        Py_INCREF(task);
        Py_INCREF(batches);
        self->task = task;
        self->task_batches = batches;
        return true;
    }
    if (self->tasks == NULL) {
        self->tasks = PyDict_New();
    }
    return self->tasks != NULL && PyDict_SetItem(self->tasks, task, batches) == 0;
}

/* The list of a task, which is forgotten: a new reference, or NULL if there is none, or with an exception. */
static PyObject *take_task(Desk *self, PyObject *task)
{
    PyObject *batches;

    if (task == self->task) {
        batches = self->task_batches;
        self->task_batches = NULL;
        Py_CLEAR(self->task);
        return batches;
    }
    batches = self->tasks == NULL ? NULL : PyDict_GetItemWithError(self->tasks, task);
    Py_XINCREF(batches);
    if (batches != NULL && PyDict_DelItem(self->tasks, task) < 0) {
        PyErr_Clear();
    }
    return batches;
}

/* Has the end of a task end the batches of its list that are still there. */
static bool watch(Desk *self, PyObject *task, PyObject *batches)
{
    PyObject *ended = PyObject_GetAttr((PyObject *)self, self->module->task_ended), *none = NULL;

    if (ended != NULL && note_task(self, task, batches) &&
        (none = call_method(task, self->module->add_done_callback, ended)) == NULL) {
        PyObject *error = take_error(), *taken = take_task(self, task);
        Py_XDECREF(taken);
        PyErr_Clear();
        raise_again(error);
    }
    Py_XDECREF(ended);
    Py_XDECREF(none);
    return none != NULL;
}

/* Tells the thread's rounds of a list whose batches they are to fetch: if it is empty, they have it filled. */
static bool collect(Desk *self, PyObject *batches)
{
    PyObject *none = PyObject_CallMethodObjArgs(self->loop, self->module->collect, self, batches, NULL);

    Py_XDECREF(none);
    return none != NULL;
}

/* Begins a task that fetches the only batch of its list, or sends first if the list is empty. */
static bool begin_task(Desk *self, PyObject *batches)
{
    PyObject *coroutine, *task = NULL;
    bool is_begun;

    if (self->rounds != NULL) {
        return collect(self, batches);
    }
    coroutine = call_method((PyObject *)self, self->module->fetch, batches);
    if (coroutine != NULL && (task = call_method(self->loop, self->module->create_task, coroutine)) == NULL) {
        PyObject *error = take_error(), *none = call_method(coroutine, self->module->close, NULL);
        Py_XDECREF(none);
        raise_again(error);
    }
    is_begun = task != NULL && watch(self, task, batches);
    Py_XDECREF(coroutine);
    Py_XDECREF(task);
    return is_begun;
}

/* Why a task has ended: an exception. */
static PyObject *fault_of(Desk *self, PyObject *task)
{
    PyObject *is_ended = call_method(task, self->module->cancelled, NULL), *fault = NULL;

    if (is_ended == Py_True) {
        fault = PyObject_CallNoArgs(self->module->cancelled_error);
    } else if (is_ended != NULL && (fault = call_method(task, self->module->exception, NULL)) == Py_None) {
        Py_DECREF(fault);
        fault = PyObject_CallFunction(PyExc_RuntimeError, "s", "the loader's task ended before it had fetched its batch");
    }
    Py_XDECREF(is_ended);
    return fault != NULL ? fault : take_error();
}

/* Ends what is collected, if the task that has ended would have sent it, and what it should have fetched. */
static PyObject *desk_task_ended(Desk *self, PyObject *task)
{
    PyObject *batches = take_task(self, task), *fault;

    if (batches == NULL) {
        if (PyErr_Occurred()) {
            return NULL;
        }
        Py_RETURN_NONE;
    }
    if (batches == self->sending || PyList_Size(batches) > 0) {
        const char *told;
        fault = fault_of(self, task);
        told = is_cancelled(self, fault) ? NOT_CALLED : TASK_ENDED;
        if (batches == self->sending) {
            self->counts.failures += abandon(self, fault, WITH_ERROR);
        }
        fail_batches(self, batches, fault, told);
        Py_DECREF(fault);
    }
    Py_DECREF(batches);
    Py_RETURN_NONE;
}

/* Has a task begun for each batch of the list, and takes it off. */
static bool fetch_each(Desk *self, PyObject *batches)
{
    while (PyList_Size(batches) > 0) {
        PyObject *own = PyList_GetSlice(batches, 0, 1);
        bool is_begun = own != NULL && begin_task(self, own) && PyList_SetSlice(batches, 0, 1, NULL) == 0;
        Py_XDECREF(own);
        if (!is_begun) {
            return false;
        }
    }
    return true;
}

static PyObject *desk_fetch_each(Desk *self, PyObject *batches)
{
    if (!fetch_each(self, batches)) {
        return NULL;
    }
    Py_RETURN_NONE;
}

/* Calls `_fetch` for each batch of the list, which is taken off before: what that leaves of it ends with what it raises. An interrupt is
 * raised again, and leaves those behind it in the list. */
static PyObject *desk_fetch_here(Desk *self, PyObject *batches)
{
    PyObject *fault = NULL;

    while (fault == NULL && PyList_Size(batches) > 0) {
        PyObject *own = PyList_GetSlice(batches, 0, 1), *none = NULL;
        if (own != NULL && PyList_SetSlice(batches, 0, 1, NULL) == 0) {
            none = call_method((PyObject *)self, self->module->fetch, own);
        }
        if (none == NULL) {
            fault = take_error();
            fail_batches(self, own == NULL ? batches : own, fault, GIVEN);
        }
        if (fault != NULL && PyErr_GivenExceptionMatches(fault, PyExc_Exception)) {
            Py_CLEAR(fault);
        }
        Py_XDECREF(none);
        Py_XDECREF(own);
    }
    if (fault != NULL) {
        raise_again(fault);
        return NULL;
    }
    Py_RETURN_NONE;
}

/* Has what is collected sent, from the first fresh load on. If that raises, what was collected meanwhile ends with that. */
static bool schedule(Desk *self)
{
    PyObject *by = NULL, *batches = NULL, *done = NULL;
    bool is_scheduled = false;

    if (self->is_collecting) {
        return true;
    }
    self->is_collecting = true;
    by = PyObject_GetAttr((PyObject *)self, self->module->batch_schedule_fn);
    if (by == Py_None) {
        batches = PyList_New(0);
        is_scheduled = batches != NULL && begin_task(self, batches);
        if (is_scheduled) {
            Py_INCREF(batches);
            replace(&self->sending, batches);
        }
    } else if (by != NULL && (batches = PyObject_GetAttr((PyObject *)self, self->module->dispatch)) != NULL) {
        done = call_one(by, batches);
        is_scheduled = done != NULL;
    }
    Py_XDECREF(by);
    Py_XDECREF(batches);
    Py_XDECREF(done);
    if (!is_scheduled) {
        PyObject *error = take_error();
        abandon(self, error, WITH_SILENT_ERROR);
        raise_again(error);
    }
    return is_scheduled;
}

/* Loads. */

/* Ends a fresh load whose call raises: for the others that wait for it, with what it raises. */
static void undo_load(Desk *self, uint32_t place)
{
    PyObject *error = take_error();

    if (self->cells[place].state == COLLECTED) {
        fail_cell(self, place, error, WITH_SILENT_ERROR, GIVEN);
    }
    raise_again(error);
}

/* The future of a load that the desk has answered. If there is a cache map, it gets that of a fresh load. */
static PyObject *loaded_future(Desk *self, dl_loaded answer, PyObject *cache_key)
{
    PyObject *future = future_of(self, answer.cell);
    bool is_held = future != NULL && (cache_key == NULL || PyObject_SetItem(self->cache_map, cache_key, future) == 0);

    if (answer.code == DL_FRESH && (!is_held || !schedule(self))) {
        undo_load(self, answer.cell);
        Py_CLEAR(future);
    }
    return future;
}

/* Loads a key by the desk, and notes it in the cache map by the other key, if there is one. */
static PyObject *load_by_desk(Desk *self, PyObject *key, Known *known, uint64_t number, PyObject *cache_key)
{
    PyObject *future;
    KeyText text = key_text(number);
    dl_loaded answer;

    if (!reserve_cells(self, 1)) {
        return NULL;
    }
    answer = dl_desk_load(&self->desk, KEY(text));
    if (answer.code > DL_FRESH) {
        return raise_code(self, answer.code);
    }
    if (answer.code == DL_FRESH) {
        note_cell(self, key, known, answer.cell, COLLECTED);
    }
    self->unended++;
    future = loaded_future(self, answer, cache_key);
    self->unended--;
    if (future != NULL) {
        self->counts.loads++;
        self->counts.hits += answer.code == DL_HIT;
    }
    return future;
}

/* Loads a key. The desk isn't asked for a cell that it is known to hold and that has a future which is done. */
static PyObject *load_cell(Desk *self, PyObject *key, PyObject *cache_key)
{
    PyObject *future;
    Known *known;
    uint64_t number;

    if (self->held == 0) {
        renew(self, 1);
    }
    if (!loaded_key(self, key, &known, &number)) {
        return NULL;
    }
    if (known != NULL && known->done != NULL) {
        future = known->done;
        Py_INCREF(future);
        self->counts.loads++;
        self->counts.hits++;
    } else {
        future = load_by_desk(self, key, known, number, cache_key);
    }
    Py_XDECREF(known);
    return future;
}

/* Loads a key by the cache map, which has a future of each cell. Callers have theirs over it, if one could cancel it. */
static PyObject *load_mapped(Desk *self, PyObject *key)
{
    PyObject *cache_key = cache_key_of(self, key), *held, *future;

    if (cache_key == NULL) {
        return NULL;
    }
    held = of_cache_map(self, self->module->get, cache_key);
    if (held != NULL && held != Py_None) {
        self->counts.loads++;
        self->counts.hits++;
    } else if (held != NULL) {
        replace(&held, load_cell(self, key, cache_key));
    }
    Py_DECREF(cache_key);
    if (held == NULL || self->rounds != NULL) {
        return held;
    }
    future = call_one(self->module->shield, held);
    Py_DECREF(held);
    return future;
}

static PyObject *desk_load(Desk *self, PyObject *key)
{
    if (!is_on_loop(self)) {
        return NULL;
    }
    return self->cache_map == NULL ? load_cell(self, key, NULL) : load_mapped(self, key);
}

/* Several keys as dl_desk_load_many takes them, and its answers. */
typedef struct {
    Known **known;
    uint8_t *texts;
    size_t texts_len;
    dl_key_lengths *lengths;
    dl_loaded *answers;
    size_t count;
} Many;

static void free_many(Many *many)
{
    for (size_t i = 0; many->known != NULL && i < many->count; i++) {
        Py_XDECREF(many->known[i]);
    }
    PyMem_Free(many->known);
    PyMem_Free(many->texts);
    PyMem_Free(many->lengths);
    PyMem_Free(many->answers);
}

/* Finds what is known of the keys, and writes their texts, one after another. */
static bool read_many(Desk *self, PyObject *keys, Many *many)
{
    size_t count = (size_t)PyTuple_Size(keys);

    many->known = PyMem_New(Known *, count + 1);
    many->texts = PyMem_New(uint8_t, (count + 1) * KEY_BYTES);
    many->lengths = PyMem_New(dl_key_lengths, count + 1);
    many->answers = PyMem_New(dl_loaded, count + 1);
    if (many->known == NULL || many->texts == NULL || many->lengths == NULL || many->answers == NULL) {
        PyErr_NoMemory();
        return false;
    }
    for (; many->count < count; many->count++) {
        uint64_t number;
        if (!loaded_key(self, PyTuple_GetItem(keys, (Py_ssize_t)many->count), &many->known[many->count], &number)) {
            return false;
        }
        many->lengths[many->count] = append_key(number, many->texts, &many->texts_len);
    }
    return true;
}

/* Ends what a load of several keys has begun, and lets go of the futures that were made for it. */
static void undo_many(Desk *self, const Many *many, PyObject *futures)
{
    PyObject *error = take_error();

    for (Py_ssize_t i = 0; futures != NULL && i < PyList_Size(futures); i++) {
        PyObject *given = call_method(PyList_GetItem(futures, i), self->module->cancel, NULL);
        if (given == NULL) {
            PyErr_Clear();
        }
        Py_XDECREF(given);
    }
    raise_again(error);
    for (size_t i = 0; i < many->count; i++) {
        if (many->answers[i].code == DL_FRESH) {
            undo_load(self, many->answers[i].cell);
        }
    }
}

/* The futures of keys that the desk has loaded: all, or the fresh ones are forgotten. */
static PyObject *loaded_futures(Desk *self, PyObject *keys, const Many *many)
{
    PyObject *futures;
    size_t fresh = 0;
    bool is_made;

    for (size_t i = 0; i < many->count; i++) {
        if (many->answers[i].code == DL_FRESH) {
            note_cell(self, PyTuple_GetItem(keys, (Py_ssize_t)i), many->known[i], many->answers[i].cell, COLLECTED);
            fresh++;
        }
    }
    futures = PyList_New(0);
    is_made = futures != NULL;
    for (size_t i = 0; is_made && i < many->count; i++) {
        PyObject *future = future_of(self, many->answers[i].cell);
        is_made = future != NULL && PyList_Append(futures, future) == 0;
        Py_XDECREF(future);
    }
    if (is_made && fresh > 0) {
        is_made = schedule(self);
    }
    if (is_made) {
        self->counts.loads += many->count;
        self->counts.hits += many->count - fresh;
    } else {
        undo_many(self, many, futures);
        Py_CLEAR(futures);
    }
    return futures;
}

static PyObject *desk_load_all(Desk *self, PyObject *given)
{
    Many many = {0};
    PyObject *futures = NULL, *keys;

    /* A tuple of its own, so that nobody changes it meanwhile. */
    if (!is_on_loop(self) || (keys = PySequence_Tuple(given)) == NULL) {
        return NULL;
    }
    renew(self, (size_t)PyTuple_Size(keys));
    if (read_many(self, keys, &many) && reserve_cells(self, many.count)) {
        uint32_t code =
            dl_desk_load_many(&self->desk, many.texts, many.texts_len, many.lengths, many.count, many.answers, many.count);
        self->unended++;
        futures = code == DL_DONE ? loaded_futures(self, keys, &many) : raise_code(self, code);
        self->unended--;
    }
    free_many(&many);
    Py_DECREF(keys);
    return futures;
}

static PyObject *desk_held(Desk *self, PyObject *key)
{
    dl_loaded answer = {DL_NONE, 0, 0};
    PyObject *future;
    Known *known;
    int found;

    if (!is_on_loop(self)) {
        return NULL;
    }
    if (!self->is_memo) {
        return of_cache_map_by_key(self, self->module->get, key);
    }
    found = known_of(self, key, false, &known);
    if (found < 0) {
        return NULL;
    }
    if (found == 1) {
        KeyText text = key_text(known->number);
        answer = dl_desk_held(&self->desk, KEY(text));
        Py_DECREF(known);
    }
    if (answer.code == DL_NONE) {
        Py_RETURN_NONE;
    }
    if (answer.code != DL_HIT) {
        return raise_code(self, answer.code);
    }
    self->unended++;
    future = future_of(self, answer.cell);
    self->unended--;
    return future;
}

/* Primes. */

/* Begins a cell in no batch for an outcome that the caller has, unless the key is held: 1 with the cell; 0; or -1 with an
 * exception. */
static int prime_cell(Desk *self, Known *known, uint64_t number, uint32_t *place)
{
    KeyText text = key_text(number);
    dl_loaded answer;

    if (!reserve_cells(self, 1)) {
        return -1;
    }
    answer = dl_desk_prime(&self->desk, KEY(text));
    if (answer.code == DL_HIT) {
        return 0;
    }
    if (answer.code != DL_FRESH) {
        raise_code(self, answer.code);
        return -1;
    }
    note_cell(self, NULL, known, answer.cell, SENT);
    *place = answer.cell;
    return 1;
}

/* The same of a key, if the desk is the memo. */
static int prime_key(Desk *self, PyObject *key, uint32_t *place)
{
    Known *known;
    int is_begun;

    renew(self, 1);
    if (known_of(self, key, true, &known) < 0) {
        return -1;
    }
    is_begun = prime_cell(self, known, known->number, place);
    Py_DECREF(known);
    return is_begun;
}

/* The same by the cache map, which gets a future of the cell. */
static int prime_mapped(Desk *self, PyObject *key, uint32_t *place)
{
    PyObject *cache_key = cache_key_of(self, key), *held = NULL, *future = NULL;
    int is_begun = -1;

    if (cache_key != NULL && is_on_loop(self)) {
        held = of_cache_map(self, self->module->get, cache_key);
    }
    if (held != NULL && held != Py_None) {
        is_begun = 0;
    } else if (held != NULL) {
        renew(self, 1);
        is_begun = prime_cell(self, NULL, self->next_number++, place);
    }
    if (is_begun == 1 &&
        ((future = new_waiter(self, *place)) == NULL || PyObject_SetItem(self->cache_map, cache_key, future) < 0)) {
        lose_cell(self, *place);
        is_begun = -1;
    }
    Py_XDECREF(future);
    Py_XDECREF(held);
    Py_XDECREF(cache_key);
    return is_begun;
}

/* Ends a cell that was primed. */
static void end_primed(Desk *self, uint32_t place, PyObject *outcome)
{
    if (place >= self->cell_count || self->cells[place].state != SENT) {
        return;
    }
    replace(&self->cells[place].key, NULL);
    if (PyExceptionInstance_Check(outcome)) {
        /* The loop doesn't report it: the caller knows it. */
        end_with_error(self, place, outcome, WITH_SILENT_ERROR, PRIMED);
    } else {
        end_cell(self, place, outcome, WITH_VALUE);
    }
}

static PyObject *desk_end_as(Desk *self, PyObject *const *args, Py_ssize_t count)
{
    uint32_t place;
    PyObject *error, *outcome;

    if (count != 2) {
        PyErr_SetString(PyExc_TypeError, "_end_as takes a cell and a future");
        return NULL;
    }
    place = (uint32_t)PyLong_AsUnsignedLong(args[0]);
    error = call_future(args[1], self->module->exception, NULL);
    outcome = error == Py_None ? call_future(args[1], self->module->result, NULL) : error != NULL ? error : take_error();
    if (error == Py_None) {
        Py_DECREF(error);
    }
    if (outcome == NULL) {
        outcome = take_error();
    }
    end_primed(self, place, outcome);
    Py_DECREF(outcome);
    Py_RETURN_NONE;
}

/* Has a cell end as the future does. */
static bool end_with_future(Desk *self, uint32_t place, PyObject *future)
{
    PyObject *end = PyObject_GetAttr((PyObject *)self, self->module->end_as);
    PyObject *callback = end == NULL ? NULL : PyObject_CallFunction(self->module->partial, "Ok", end, (unsigned long)place);
    PyObject *none = callback == NULL ? NULL : call_method(future, self->module->add_done_callback, callback);

    Py_XDECREF(end);
    Py_XDECREF(callback);
    Py_XDECREF(none);
    return none != NULL;
}

static PyObject *desk_prime(Desk *self, PyObject *const *args, Py_ssize_t count)
{
    uint32_t place;
    int is_begun;

    if (count != 3) {
        PyErr_SetString(PyExc_TypeError, "_prime takes a key, a value, and whether that is a future");
        return NULL;
    }
    if (!is_in_thread(self)) {
        return NULL;
    }
    if (!self->is_memo && self->cache_map == NULL) {
        return of_cache_map_by_key(self, self->module->get, args[0]);
    }
    is_begun = self->is_memo ? prime_key(self, args[0], &place) : prime_mapped(self, args[0], &place);
    if (is_begun == 1 && args[2] != Py_True) {
        end_primed(self, place, args[1]);
    } else if (is_begun == 1 && !end_with_future(self, place, args[1])) {
        PyObject *error = take_error();
        fail_cell(self, place, error, WITH_SILENT_ERROR, GIVEN);
        raise_again(error);
        return NULL;
    } else if (is_begun == 1 && self->cells[place].state == SENT) {
        /* A future may need somebody who keeps it. */
        Py_INCREF(args[1]);
        self->cells[place].key = args[1];
    }
    if (is_begun < 0) {
        return NULL;
    }
    Py_RETURN_NONE;
}

/* Clears. */

static bool is_collected(const Desk *self, uint32_t place)
{
    return place != NO_CELL && self->cells[place].state == COLLECTED;
}

/* Keeps the number of a key until what is collected is sent. */
static bool keep_number(Desk *self, PyObject *cache_key, Known *known)
{
    PyObject *cleared = cleared_of(self);
    bool is_kept = cleared != NULL && PyDict_SetItem(cleared, cache_key, (PyObject *)known) == 0;

    Py_XDECREF(cleared);
    return is_kept;
}

/* The same of all keys, if any is collected. */
static bool keep_numbers(Desk *self)
{
    uint32_t place = self->cell_count;
    PyObject *keys, *cleared;
    bool are_kept;

    while (place > 0 && !is_collected(self, place - 1)) {
        place--;
    }
    if (place == 0 || (keys = keys_of(self, false)) == NULL) {
        return true;
    }
    cleared = cleared_of(self);
    are_kept = cleared != NULL && PyDict_Update(cleared, keys) == 0;
    Py_XDECREF(cleared);
    Py_DECREF(keys);
    return are_kept;
}

/* Has the desk forget a key that is known, and forgets it. */
static PyObject *clear_known(Desk *self, PyObject *cache_key, Known *known)
{
    KeyText text = key_text(known->number);
    uint32_t code;
    PyObject *keys;
    bool is_cleared;

    if (is_collected(self, known->place) && !keep_number(self, cache_key, known)) {
        return NULL;
    }
    code = dl_desk_clear(&self->desk, KEY(text));
    if (code != DL_DONE) {
        return raise_code(self, code);
    }
    if (known->place != NO_CELL) {
        unhold_cell(self, known->place);
    }
    keys = keys_of(self, false);
    is_cleared = keys == NULL || PyDict_DelItem(keys, cache_key) == 0 || PyErr_ExceptionMatches(PyExc_KeyError);
    Py_XDECREF(keys);
    if (!is_cleared) {
        return NULL;
    }
    PyErr_Clear();
    Py_INCREF(self);
    return (PyObject *)self;
}

static PyObject *desk_clear(Desk *self, PyObject *key)
{
    PyObject *cache_key, *answer = NULL;
    Known *known;
    int found;

    if (!is_in_thread(self)) {
        return NULL;
    }
    if (!self->is_memo) {
        PyObject *popped = of_cache_map_by_key(self, self->module->pop, key);
        if (popped == NULL) {
            return NULL;
        }
        Py_DECREF(popped);
        Py_INCREF(self);
        return (PyObject *)self;
    }
    cache_key = cache_key_of(self, key);
    if (cache_key == NULL) {
        return NULL;
    }
    found = find_known(self, cache_key, false, &known);
    if (found == 1) {
        answer = clear_known(self, cache_key, known);
        Py_DECREF(known);
    } else if (found == 0) {
        Py_INCREF(self);
        answer = (PyObject *)self;
    }
    Py_DECREF(cache_key);
    return answer;
}

static PyObject *desk_clear_all(Desk *self, PyObject *Py_UNUSED(nothing))
{
    uint32_t code;

    if (!is_in_thread(self) || !keep_numbers(self)) {
        return NULL;
    }
    code = dl_desk_clear_all(&self->desk);
    if (code != DL_DONE) {
        return raise_code(self, code);
    }
    unhold_all(self);
    renew(self, self->max_cells);
    if (self->cache_map != NULL) {
        PyObject *none = call_method(self->cache_map, self->module->clear, NULL);
        if (none == NULL) {
            return NULL;
        }
        Py_DECREF(none);
    }
    Py_INCREF(self);
    return (PyObject *)self;
}

/* Batches. */

/* The keys of the members of a batch that are still collected. */
static PyObject *batch_keys(Desk *self, uint32_t batch)
{
    PyObject *keys = PyList_New(0);
    dl_loaded member;

    for (uint32_t index = 0; keys != NULL && (member = dl_desk_member(&self->desk, batch, index)).code == DL_HIT; index++) {
        if (self->cells[member.cell].state == COLLECTED && PyList_Append(keys, self->cells[member.cell].key) < 0) {
            Py_CLEAR(keys);
        }
    }
    return keys;
}

/* A batch by its number, with its keys. */
static PyObject *batch_pair(uint64_t batch, PyObject *keys)
{
    PyObject *number = PyLong_FromUnsignedLongLong(batch), *pair = number == NULL ? NULL : PyTuple_Pack(2, number, keys);

    Py_XDECREF(number);
    return pair;
}

/* Adds the batches that the desk has sent to the list, each by its number with the keys of its members. One whose loads have all
 * raised is ended, and isn't among them. */
static bool list_batches(Desk *self, dl_dispatched sent, PyObject *batches)
{
    bool is_listed = true;

    for (uint32_t batch = sent.first; is_listed && batch < sent.first + sent.count; batch++) {
        PyObject *keys = batch_keys(self, batch), *pair = NULL;
        bool is_empty = keys != NULL && PyList_Size(keys) == 0;
        if (is_empty) {
            dl_desk_settle(&self->desk, batch);
        } else if (keys != NULL) {
            pair = batch_pair(self->first_batch + batch, keys);
        }
        is_listed = is_empty || (pair != NULL && PyList_Append(batches, pair) == 0);
        Py_XDECREF(pair);
        Py_XDECREF(keys);
    }
    return is_listed;
}

/* Notes that the members of a batch are sent. The batch function has their keys, and a cache map may be asked for them. */
static void note_sent(Desk *self, uint32_t batch)
{
    dl_loaded member;

    for (uint32_t index = 0; (member = dl_desk_member(&self->desk, batch, index)).code == DL_HIT; index++) {
        if (self->cells[member.cell].state == COLLECTED) {
            self->cells[member.cell].state = SENT;
            self->counts.keys++;
            if (self->cache_map == NULL) {
                Py_CLEAR(self->cells[member.cell].key);
            }
        }
    }
}

/* Sends what is collected, and adds its batches to the list. If that raises once the desk has sent, their loads end with that. */
static bool send(Desk *self, PyObject *batches)
{
    Py_ssize_t before = PyList_Size(batches);
    dl_dispatched sent = dl_desk_dispatch(&self->desk);

    if (sent.code != DL_DONE) {
        raise_code(self, sent.code);
        return false;
    }
    self->is_collecting = false;
    Py_CLEAR(self->sending);
    self->batch_count += (uint32_t)sent.count;
    if (!list_batches(self, sent, batches)) {
        PyObject *error = take_error();
        PyList_SetSlice(batches, before, PyList_Size(batches), NULL);
        self->counts.failures += abandon(self, error, WITH_ERROR);
        raise_again(error);
        return false;
    }
    self->counts.batches += (unsigned long long)(PyList_Size(batches) - before);
    for (uint32_t batch = sent.first; batch < sent.first + sent.count; batch++) {
        note_sent(self, batch);
    }
    Py_CLEAR(self->cleared);
    return true;
}

/* What the loop has ready, if it has a list of that, else None. If the list of batches isn't that of the task that sends, it is given back:
 * an eager task runs within the load that has begun it. */
static PyObject *desk_look(Desk *self, PyObject *batches)
{
    PyObject *ready = batches;

    if (batches == self->sending) {
        ready = self->loop_dict == NULL ? NULL : PyDict_GetItemWithError(self->loop_dict, self->module->ready);
        if (ready == NULL && PyErr_Occurred()) {
            return NULL;
        }
    }
    return or_none(ready);
}

static PyObject *desk_send(Desk *self, PyObject *batches)
{
    if (!is_on_loop(self) || (batches == self->sending && !send(self, batches))) {
        return NULL;
    }
    Py_RETURN_NONE;
}

static PyObject *desk_dispatch(Desk *self, PyObject *Py_UNUSED(nothing))
{
    PyObject *batches, *error;
    bool is_sent;

    if (!is_on_loop(self) || (batches = PyList_New(0)) == NULL) {
        return NULL;
    }
    is_sent = send(self, batches) && fetch_each(self, batches);
    if (!is_sent) {
        error = take_error();
        self->counts.failures += abandon(self, error, WITH_ERROR);
        fail_batches(self, batches, error, GIVEN);
        raise_again(error);
    }
    Py_DECREF(batches);
    if (!is_sent) {
        return NULL;
    }
    Py_RETURN_NONE;
}

/* The values of a batch function's answer, as many as there are members that wait for one: a tuple, or NULL with an exception. */
static PyObject *batch_values(Desk *self, uint32_t batch, PyObject *answer)
{
    Py_ssize_t count = 0;
    PyObject *values;
    dl_loaded member;

    for (uint32_t index = 0; (member = dl_desk_member(&self->desk, batch, index)).code == DL_HIT; index++) {
        count += self->cells[member.cell].state == SENT;
    }
    values = PySequence_Tuple(answer);
    if (values != NULL && PyTuple_Size(values) != count) {
        PyErr_Format(PyExc_TypeError,
                     "a batch function answers a value for each of its keys; this one was asked for %zd and answered %zd", count,
                     PyTuple_Size(values));
        Py_CLEAR(values);
    }
    return values;
}

/* Ends the only batch of a list with an outcome for each key, and takes it off. */
static PyObject *desk_settle(Desk *self, PyObject *const *args, Py_ssize_t count)
{
    uint64_t number;
    uint32_t batch, code;
    PyObject *values;
    Py_ssize_t place = 0;
    dl_loaded member;

    if (count != 2) {
        PyErr_SetString(PyExc_TypeError, "_settle takes a list of a batch and an answer");
        return NULL;
    }
    if (PyList_Size(args[0]) < 1 || (number = batch_at(args[0], 0)) < self->first_batch) {
        return PyErr_Occurred() ? NULL : raise_code(self, DL_ENDED_BEFORE);
    }
    batch = (uint32_t)(number - self->first_batch);
    values = batch_values(self, batch, args[1]);
    if (values == NULL) {
        return NULL;
    }
    code = dl_desk_settle(&self->desk, batch);
    if (code == DL_DONE && PyList_SetSlice(args[0], 0, 1, NULL) < 0) {
        PyErr_Clear();
    }
    self->unended++;
    for (uint32_t index = 0; code == DL_DONE && (member = dl_desk_member(&self->desk, batch, index)).code == DL_HIT; index++) {
        if (self->cells[member.cell].state == SENT) {
            end_with(self, member.cell, PyTuple_GetItem(values, place++), GIVEN);
        }
    }
    self->unended--;
    Py_DECREF(values);
    if (code != DL_DONE) {
        return raise_code(self, code);
    }
    Py_RETURN_NONE;
}

static PyObject *desk_fail(Desk *self, PyObject *const *args, Py_ssize_t count)
{
    if (count != 2) {
        PyErr_SetString(PyExc_TypeError, "_fail takes a list of batches and an exception");
        return NULL;
    }
    fail_batches(self, args[0], args[1], GIVEN);
    Py_RETURN_NONE;
}

/* The type. */

static PyObject *desk_counts(Desk *self, void *Py_UNUSED(closure))
{
    return Py_BuildValue("(KKKKK)", self->counts.loads, self->counts.hits, self->counts.batches, self->counts.keys,
                         self->counts.failures);
}

static PyObject *desk_cells(Desk *self, void *Py_UNUSED(closure))
{
    return PyLong_FromUnsignedLong(self->cell_count);
}

static PyObject *desk_loop(Desk *self, void *Py_UNUSED(closure))
{
    return or_none(self->loop);
}

static PyObject *desk_sending(Desk *self, void *Py_UNUSED(closure))
{
    return or_none(self->sending);
}

/* Keeps an object, unless it is None. */
static void keep(PyObject **place, PyObject *given)
{
    if (given != Py_None) {
        Py_INCREF(given);
        replace(place, given);
    }
}

static void desk_dealloc(Desk *self);

/* A desk that isn't open. A type that is abstract is refused by Python. */
static PyObject *desk_new(PyTypeObject *type, PyObject *Py_UNUSED(args), PyObject *Py_UNUSED(kwargs))
{
    newfunc plain = (newfunc)PyType_GetSlot(&PyBaseObject_Type, Py_tp_new);
    PyTypeObject *base = type;
    Desk *self;
    Module *module;

    while ((destructor)PyType_GetSlot(base, Py_tp_dealloc) != (destructor)desk_dealloc) {
        base = (PyTypeObject *)PyType_GetSlot(base, Py_tp_base);
    }
    module = PyType_GetModuleState(base);
    self = module == NULL ? NULL : (Desk *)plain(type, module->no_args, NULL);
    if (self != NULL) {
        self->module = module;
    }
    return (PyObject *)self;
}

/* The options of a loader, as its attributes have them. */
typedef struct {
    PyObject *batch_load_fn, *batch, *max_batch_size, *cache, *get_cache_key, *cache_map, *batch_schedule_fn, *name, *max_cells;
} Options;

enum { OPTIONS = sizeof(Options) / sizeof(PyObject *) };

/* A limit that is an int within its bounds, or 0. None is the largest. */
static uint32_t limit_of(PyObject *given)
{
    long limit = given == Py_None ? DL_LARGEST_LIMIT : PyLong_CheckExact(given) ? PyLong_AsLong(given) : 0;

    if (PyErr_Occurred()) {
        PyErr_Clear();
    }
    return limit >= 1 && limit <= DL_LARGEST_LIMIT ? (uint32_t)limit : 0;
}

/* Reads the options, and has those looked at that aren't plainly right. */
static bool read_options(Desk *self, Options *options)
{
    PyObject **each = (PyObject **)options, *none;

    for (int place = 0; place < OPTIONS; place++) {
        each[place] = PyObject_GetAttr((PyObject *)self, self->module->options[place]);
        if (each[place] == NULL && place == 0 && PyErr_ExceptionMatches(PyExc_AttributeError)) {
            PyErr_Clear();
            each[place] = or_none(NULL);
        }
        if (each[place] == NULL) {
            return false;
        }
    }
    if (PyCallable_Check(options->batch_load_fn) && PyBool_Check(options->batch) && PyBool_Check(options->cache) &&
        options->get_cache_key == Py_None && options->cache_map == Py_None && options->batch_schedule_fn == Py_None &&
        options->name == Py_None && limit_of(options->max_batch_size) > 0 && limit_of(options->max_cells) > 0) {
        return true;
    }
    none = call_method((PyObject *)self, self->module->check_options, NULL);
    Py_XDECREF(none);
    return none != NULL;
}

static PyObject *desk_open(Desk *self, PyObject *const *args, Py_ssize_t count)
{
    Options options = {0};
    uint32_t code = DL_OUT_OF_MEMORY;

    if (!read_options(self, &options)) {
        goto done;
    }
    bool is_cached = options.cache == Py_True;
    self->max_batch = options.batch == Py_True ? limit_of(options.max_batch_size) : 1;
    self->max_cells = limit_of(options.max_cells);
    /* The desk's keys are numbers that the loader gives in turn: nobody chooses them, so no seed has to be secret. */
    code = dl_desk_open(&self->desk, self->max_batch, self->max_cells, 0, 0);
    if (code != DL_DONE) {
        raise_code(self, code);
        goto done;
    }
    self->is_memo = is_cached && options.cache_map == Py_None;
    keep(&self->get_cache_key, options.get_cache_key);
    if (is_cached) {
        keep(&self->cache_map, count == 2 ? args[1] : options.cache_map);
    }
    if (count == 2) {
        keep(&self->rounds, args[0]);
    }
done:
    for (int place = 0; place < OPTIONS; place++) {
        Py_XDECREF(((PyObject **)&options)[place]);
    }
    if (code != DL_DONE) {
        return NULL;
    }
    Py_RETURN_NONE;
}

static int desk_traverse(Desk *self, visitproc visit, void *arg)
{
    for (uint32_t place = 0; place < self->cell_count; place++) {
        Py_VISIT(self->cells[place].key);
        Py_VISIT(self->cells[place].what);
    }
    Py_VISIT(self->get_cache_key);
    Py_VISIT(self->cache_map);
    Py_VISIT(self->keys);
    Py_VISIT(self->cleared);
    Py_VISIT(self->task);
    Py_VISIT(self->task_batches);
    Py_VISIT(self->tasks);
    Py_VISIT(self->sending);
    Py_VISIT(self->rounds);
    Py_VISIT(self->loop);
    Py_VISIT(self->of_loop);
    Py_VISIT(self->create_future);
    Py_VISIT(self->loop_dict);
    Py_VISIT(self->run);
    Py_VISIT(Py_TYPE(self));
    return 0;
}

static int desk_forget(Desk *self)
{
    Cell *cells = self->cells;
    uint32_t count = self->cell_count;

    /* A desk without its cells answers no more calls. */
    dl_desk_close(&self->desk);
    self->cells = NULL;
    self->cell_count = self->cell_room = 0;
    for (uint32_t place = 0; place < count; place++) {
        Py_XDECREF(cells[place].key);
        Py_XDECREF(cells[place].what);
        Py_XDECREF(cells[place].known);
    }
    PyMem_Free(cells);
    Py_CLEAR(self->get_cache_key);
    Py_CLEAR(self->cache_map);
    Py_CLEAR(self->keys);
    Py_CLEAR(self->cleared);
    Py_CLEAR(self->task);
    Py_CLEAR(self->task_batches);
    Py_CLEAR(self->tasks);
    Py_CLEAR(self->sending);
    Py_CLEAR(self->rounds);
    Py_CLEAR(self->loop);
    Py_CLEAR(self->of_loop);
    Py_CLEAR(self->create_future);
    Py_CLEAR(self->loop_dict);
    Py_CLEAR(self->run);
    return 0;
}

static void desk_dealloc(Desk *self)
{
    PyTypeObject *type = Py_TYPE(self);

    PyObject_GC_UnTrack(self);
    desk_forget(self);
    ((freefunc)PyType_GetSlot(type, Py_tp_free))(self);
    Py_DECREF(type);
}

#define CALL(function) (PyCFunction)(void (*)(void))(function)

static PyMethodDef desk_methods[] = {
    {"load", CALL(desk_load), METH_O,
     PyDoc_STR("load($self, key, /)\n--\n\nLoads a key: a future of its value, or of its error.")},
    {"held", CALL(desk_held), METH_O,
     PyDoc_STR("held($self, key, /)\n--\n\nA future of what is held for the key, or None. It loads nothing.")},
    {"clear", CALL(desk_clear), METH_O, PyDoc_STR("clear($self, key, /)\n--\n\nForgets the key, and answers the loader.")},
    {"clear_all", CALL(desk_clear_all), METH_NOARGS,
     PyDoc_STR("clear_all($self, /)\n--\n\nForgets all keys, and answers the loader.")},
    {"_open", CALL(desk_open), METH_FASTCALL,
     PyDoc_STR("_open($self, rounds=None, cache_map=None, /)\n--\n\nOpens the desk with the loader's options: once. Of a thread it is "
               "given both.")},
    {"_load_all", CALL(desk_load_all), METH_O,
     PyDoc_STR("_load_all($self, keys, /)\n--\n\nThe futures of the keys, in order. All are loaded, or none is.")},
    {"_prime", CALL(desk_prime), METH_FASTCALL,
     PyDoc_STR("_prime($self, key, value, is_future, /)\n--\n\nHolds a value, an error or what a future ends with for the key, "
               "unless it is held.")},
    {"_end_as", CALL(desk_end_as), METH_FASTCALL,
     PyDoc_STR("_end_as($self, cell, future, /)\n--\n\nEnds a cell that was primed as the future has ended.")},
    {"_dispatch", CALL(desk_dispatch), METH_NOARGS,
     PyDoc_STR("_dispatch($self, /)\n--\n\nSends what is collected, and has a task fetch each batch.")},
    {"_look", CALL(desk_look), METH_O,
     PyDoc_STR("_look($self, batches, /)\n--\n\nWhat the loop has ready, or None if it doesn't say; or the list itself, if it isn't that "
               "of the task that sends.")},
    {"_send", CALL(desk_send), METH_O,
     PyDoc_STR("_send($self, batches, /)\n--\n\nSends what is collected, if the list is that of the task that sends: the list "
               "gets each "
               "batch with its keys.")},
    {"_fetch_each", CALL(desk_fetch_each), METH_O,
     PyDoc_STR("_fetch_each($self, batches, /)\n--\n\nHas a task fetch each batch of the list.")},
    {"_fetch_here", CALL(desk_fetch_here), METH_O,
     PyDoc_STR("_fetch_here($self, batches, /)\n--\n\nCalls `_fetch` for each batch of the list, and ends what that leaves.")},
    {"_settle", CALL(desk_settle), METH_FASTCALL,
     PyDoc_STR(
         "_settle($self, batches, answer, /)\n--\n\nEnds the only batch of the list with an outcome for each key. An answer that "
         "has another number of them raises, and ends nothing.")},
    {"_fail", CALL(desk_fail), METH_FASTCALL,
     PyDoc_STR("_fail($self, batches, fault, /)\n--\n\nEnds each batch of the list with a fault of the whole: its keys are "
               "forgotten.")},
    {"_task_ended", CALL(desk_task_ended), METH_O,
     PyDoc_STR(
         "_task_ended($self, task, /)\n--\n\nEnds whatever the task has left: what it was to send, and what it was to fetch.")},
    {"__class_getitem__", (PyCFunction)Py_GenericAlias, METH_O | METH_CLASS, NULL},
    {NULL, NULL, 0, NULL},
};

static PyGetSetDef desk_getset[] = {
    {"_counts", (getter)desk_counts, NULL, PyDoc_STR("Loads, hits, batches, keys and failures."), NULL},
    {"_cells", (getter)desk_cells, NULL, PyDoc_STR("How many cells have begun."), NULL},
    {"_loop", (getter)desk_loop, NULL, PyDoc_STR("The event loop of the first load, or None."), NULL},
    {"_sending", (getter)desk_sending, NULL, PyDoc_STR("The list of the task that will send, or None."), NULL},
    {NULL, NULL, NULL, NULL, NULL},
};

static PyType_Slot desk_slots[] = {
    {Py_tp_doc, PyDoc_STR("The proved loader of one thread, and who waits for what. A subclass has its options, and `_fetch`, of "
                          "which tasks are made.")},
    {Py_tp_new, desk_new},
    {Py_tp_dealloc, desk_dealloc},
    {Py_tp_traverse, desk_traverse},
    {Py_tp_clear, desk_forget},
    {Py_tp_methods, desk_methods},
    {Py_tp_getset, desk_getset},
    {0, NULL},
};

static PyType_Spec desk_spec = {
    .name = "thrushscreen._desk.Desk",
    .basicsize = sizeof(Desk),
    .flags = Py_TPFLAGS_DEFAULT | Py_TPFLAGS_BASETYPE | Py_TPFLAGS_HAVE_GC,
    .slots = desk_slots,
};

static PyType_Slot known_slots[] = {
    {Py_tp_doc, PyDoc_STR("What a loader knows of a key.")},
    {Py_tp_dealloc, known_dealloc},
    {0, NULL},
};

static PyType_Spec known_spec = {
    .name = "thrushscreen._desk.Known",
    .basicsize = sizeof(Known),
    .flags = Py_TPFLAGS_DEFAULT,
    .slots = known_slots,
};

/* The module. */

/* Of each reference of a module that is a name: where it is, and the name. */
static const struct {
    size_t place;
    const char *name;
} names[] = {
    {offsetof(Module, options[0]), "batch_load_fn"},
    {offsetof(Module, options[1]), "batch"},
    {offsetof(Module, options[2]), "max_batch_size"},
    {offsetof(Module, options[3]), "cache"},
    {offsetof(Module, options[4]), "get_cache_key"},
    {offsetof(Module, options[5]), "cache_map"},
    {offsetof(Module, options[6]), "batch_schedule_fn"},
    {offsetof(Module, options[7]), "name"},
    {offsetof(Module, options[8]), "max_cells"},
    {offsetof(Module, add_done_callback), "add_done_callback"},
    {offsetof(Module, batch_schedule_fn), "batch_schedule_fn"},
    {offsetof(Module, cancel), "cancel"},
    {offsetof(Module, cancelled), "cancelled"},
    {offsetof(Module, check_options), "_check_options"},
    {offsetof(Module, clear), "clear"},
    {offsetof(Module, close), "close"},
    {offsetof(Module, collect), "collect"},
    {offsetof(Module, create_future), "create_future"},
    {offsetof(Module, create_task), "create_task"},
    {offsetof(Module, dispatch), "_dispatch"},
    {offsetof(Module, end_as), "_end_as"},
    {offsetof(Module, exception), "exception"},
    {offsetof(Module, fetch), "_fetch"},
    {offsetof(Module, get), "get"},
    {offsetof(Module, pop), "pop"},
    {offsetof(Module, result), "result"},
    {offsetof(Module, set_exception), "set_exception"},
    {offsetof(Module, set_result), "set_result"},
    {offsetof(Module, setdefault), "setdefault"},
    {offsetof(Module, task_ended), "_task_ended"},
    {offsetof(Module, thread_id), "_thread_id"},
    {offsetof(Module, loop), "loop"},
    {offsetof(Module, ready), "_ready"},
};

/* Of each that another module has: where it is, and the two names. */
static const struct {
    size_t place;
    const char *module, *name;
} taken[] = {
    {offsetof(Module, get_running_loop), "asyncio", "_get_running_loop"},
    {offsetof(Module, future_type), "asyncio", "Future"},
    {offsetof(Module, cancelled_error), "asyncio", "CancelledError"},
    {offsetof(Module, invalid_state), "asyncio", "InvalidStateError"},
    {offsetof(Module, shield), "asyncio", "shield"},
    {offsetof(Module, partial), "functools", "partial"},
};

static PyObject **reference(Module *module, size_t place)
{
    return (PyObject **)((char *)module + place);
}

static bool take_names(Module *module)
{
    for (size_t i = 0; i < sizeof names / sizeof *names; i++) {
        if ((*reference(module, names[i].place) = PyUnicode_InternFromString(names[i].name)) == NULL) {
            return false;
        }
    }
    return true;
}

static bool take_others(Module *module)
{
    PyObject *loop_type;

    for (size_t i = 0; i < sizeof taken / sizeof *taken; i++) {
        PyObject *other = PyImport_ImportModule(taken[i].module);
        PyObject *found = other == NULL ? NULL : PyObject_GetAttrString(other, taken[i].name);
        Py_XDECREF(other);
        if ((*reference(module, taken[i].place) = found) == NULL) {
            return false;
        }
    }
    replace(&module->base_create_future, PyImport_ImportModule("asyncio"));
    loop_type = module->base_create_future == NULL ? NULL : PyObject_GetAttrString(module->base_create_future, "BaseEventLoop");
    replace(&module->base_create_future, loop_type == NULL ? NULL : PyObject_GetAttr(loop_type, module->create_future));
    Py_XDECREF(loop_type);
    return module->base_create_future != NULL;
}

static int module_exec(PyObject *module)
{
    Module *state = PyModule_GetState(module);

    state->no_args = PyTuple_New(0);
    state->loader_full = PyErr_NewExceptionWithDoc("thrushscreen.LoaderFull", "A loader has as many cells as its ``max_cells``.",
                                                   PyExc_RuntimeError, NULL);
    state->desk_type = PyType_FromModuleAndSpec(module, &desk_spec, NULL);
    state->known_type = PyType_FromModuleAndSpec(module, &known_spec, NULL);
    if (state->no_args == NULL || state->loader_full == NULL || state->desk_type == NULL || state->known_type == NULL ||
        !take_names(state) || !take_others(state)) {
        return -1;
    }
    return PyModule_AddObjectRef(module, "Desk", state->desk_type) == 0 &&
                   PyModule_AddObjectRef(module, "LoaderFull", state->loader_full) == 0
               ? 0
               : -1;
}

static int module_traverse(PyObject *module, visitproc visit, void *arg)
{
    Module *state = PyModule_GetState(module);

    for (size_t place = 0; place < sizeof *state; place += sizeof(PyObject *)) {
        Py_VISIT(*reference(state, place));
    }
    return 0;
}

static int module_clear(PyObject *module)
{
    Module *state = PyModule_GetState(module);

    for (size_t place = 0; place < sizeof *state; place += sizeof(PyObject *)) {
        Py_CLEAR(*reference(state, place));
    }
    return 0;
}

static void module_free(void *module)
{
    module_clear(module);
}

static PyModuleDef_Slot module_slots[] = {
    {Py_mod_exec, module_exec},
    {0, NULL},
    {0, NULL},
};

static struct PyModuleDef desk_module = {
    PyModuleDef_HEAD_INIT,    .m_name = "thrushscreen._desk", .m_doc = "The proved desk, by its C library.",
    .m_size = sizeof(Module), .m_slots = module_slots,        .m_traverse = module_traverse,
    .m_clear = module_clear,  .m_free = module_free,
};

PyMODINIT_FUNC PyInit__desk(void)
{
    take_own_locks(&module_slots[1]);
    return PyModuleDef_Init(&desk_module);
}
