/* The loader that threads share, for Python: a type over dl_loader.h whose cells have Python's objects for words. The lock is that of
 * dl_loader.c, and nothing of Python runs under it: so its calls never wait for a thread that runs Python's code, with the
 * interpreter's lock or without.
 *
 * A word is a reference, which the loader owns from the call that gives it on until the loader goes. A key is a number. */
#ifndef Py_GIL_DISABLED
#define Py_LIMITED_API 0x030a0000
#endif
#define PY_SSIZE_T_CLEAN
#include <Python.h>

#include <stdatomic.h>

#include "_keys.h"
#include "dl_loader.h"

typedef struct {
    PyObject *loader_full;
} Module;

typedef struct {
    PyObject_HEAD
    dl_loader *loader;
    PyObject *loader_full;
    _Atomic uint32_t cells, begun, sent; /* how many cells and batches were begun, and how many batches sent, as far as answers told */
} Shared;

/* ---- errors */

static PyObject *raise_code(const Shared *self, uint32_t code)
{
    switch (code) {
    case DL_OUT_OF_MEMORY:
        return PyErr_NoMemory();
    case DL_CELLS_FULL:
        PyErr_SetString(self->loader_full, "the loader has as many cells as its max_cells: make a loader for each request");
        return NULL;
    case DL_LOG_FULL:
        PyErr_SetString(self->loader_full, "the loader has made as many calls as its max_calls: make a loader for each request");
        return NULL;
    case DL_CLOSED:
        PyErr_SetString(PyExc_RuntimeError, "the loader is closed");
        return NULL;
    case DL_STOPPED:
        PyErr_SetString(PyExc_RuntimeError, "the loader is stopped: it couldn't end a batch");
        return NULL;
    case DL_UNSETTLED:
        PyErr_SetString(PyExc_RuntimeError, "a batch has not ended: wait for its loads, or dispatch() what is collected; a full history is lost");
        return NULL;
    case DL_BAD_LIMIT:
    case DL_BAD_CALLERS:
        PyErr_Format(PyExc_ValueError, "a limit is 1 to %d, and callers are 1 to %d", DL_LARGEST_LIMIT, DL_MOST_CALLERS);
        return NULL;
    default:
        PyErr_Format(PyExc_SystemError, "the loader answered %s", dl_code_name(code));
        return NULL;
    }
}

static PyObject *none_or_raise(const Shared *self, uint32_t code)
{
    return code <= DL_FRESH ? Py_NewRef(Py_None) : raise_code(self, code);
}

/* Whether the loader is there: it isn't once a collector has cleared it. */
static bool is_there(const Shared *self)
{
    if (self->loader == NULL) {
        raise_code(self, DL_CLOSED);
    }
    return self->loader != NULL;
}

/* ---- numbers and keys */

static bool read_u32(PyObject *given, uint32_t *number)
{
    unsigned long read = PyLong_AsUnsignedLong(given);

    if (PyErr_Occurred()) {
        return false;
    }
    *number = read > UINT32_MAX ? UINT32_MAX : (uint32_t)read;
    return true;
}

static bool read_key(PyObject *given, KeyText *text)
{
    *text = key_text(PyLong_AsUnsignedLongLong(given));
    return !PyErr_Occurred();
}

static PyObject *number_of(const dl_key_texts *texts)
{
    unsigned long long number = 0;

    for (size_t i = 0; i < texts->id_len; i++) {
        number = 10 * number + (texts->id[i] - '0');
    }
    return PyLong_FromUnsignedLongLong(number);
}

/* Raises a count to what was told of it. */
static void note(_Atomic uint32_t *count, uint32_t told)
{
    uint32_t known = atomic_load(count);
    while (known < told && !atomic_compare_exchange_weak(count, &known, told)) {
    }
}

static bool takes(Py_ssize_t given, Py_ssize_t wanted)
{
    if (given != wanted) {
        PyErr_Format(PyExc_TypeError, "the call takes %zd arguments, and not %zd", wanted, given);
    }
    return given == wanted;
}

/* ---- loads */

/* The answer to a load: the cell, the ticket, and the batch, or None for a hit. */
static PyObject *loaded(Shared *self, dl_ticket given)
{
    note(&self->cells, given.cell + 1);
    if (given.code == DL_HIT) {
        return Py_BuildValue("(InO)", given.cell, (Py_ssize_t)given.ticket, Py_None);
    }
    note(&self->begun, given.batch + 1);
    return Py_BuildValue("(InI)", given.cell, (Py_ssize_t)given.ticket, given.batch);
}

static PyObject *shared_load(PyObject *object, PyObject *const *given, Py_ssize_t count)
{
    Shared *self = (Shared *)object;
    uint32_t caller;
    KeyText key;

    if (!takes(count, 2) || !is_there(self) || !read_u32(given[0], &caller) || !read_key(given[1], &key)) {
        return NULL;
    }
    dl_ticket answer = dl_loader_load(self->loader, caller, KEY(key));
    return answer.code <= DL_FRESH ? loaded(self, answer) : raise_code(self, answer.code);
}

/* The texts of several keys, and the answers to their loads. */
typedef struct {
    uint8_t *texts;
    dl_key_lengths *lengths;
    dl_ticket *answers;
    size_t texts_len;
} Several;

static void free_several(Several *several)
{
    PyMem_Free(several->texts);
    PyMem_Free(several->lengths);
    PyMem_Free(several->answers);
}

/* Reads the numbers of a list. It has to be freed also if it raises. */
static bool read_several(PyObject *list, Py_ssize_t count, Several *several)
{
    size_t room = (size_t)count + 1;

    several->texts = PyMem_Malloc(room * KEY_BYTES);
    several->lengths = PyMem_Calloc(room, sizeof *several->lengths);
    several->answers = PyMem_Calloc(room, sizeof *several->answers);
    several->texts_len = 0;
    if (several->texts == NULL || several->lengths == NULL || several->answers == NULL) {
        PyErr_NoMemory();
        return false;
    }
    for (Py_ssize_t i = 0; i < count; i++) {
        PyObject *given = PyList_GetItem(list, i);
        unsigned long long number = given == NULL ? 0 : PyLong_AsUnsignedLongLong(given);
        if (PyErr_Occurred()) {
            return false;
        }
        several->lengths[i] = append_key(number, several->texts, &several->texts_len);
    }
    return true;
}

/* The answers to several loads. */
static PyObject *loaded_many(Shared *self, const dl_ticket *answers, Py_ssize_t count)
{
    PyObject *all = PyList_New(count);

    for (Py_ssize_t i = 0; i < count; i++) {
        /* What is collected is noted also if there is no memory for the list. */
        PyObject *one = loaded(self, answers[i]);
        if (all == NULL || one == NULL || PyList_SetItem(all, i, one) < 0) {
            Py_CLEAR(all);
        }
    }
    return all;
}

static PyObject *shared_load_many(PyObject *object, PyObject *const *given, Py_ssize_t count)
{
    Shared *self = (Shared *)object;
    Several several = {NULL, NULL, NULL, 0};
    PyObject *answer = NULL;
    uint32_t caller, code;

    if (!takes(count, 2) || !is_there(self) || !read_u32(given[0], &caller)) {
        return NULL;
    }
    Py_ssize_t keys = PyList_Size(given[1]);
    if (keys >= 0 && read_several(given[1], keys, &several)) {
        code = dl_loader_load_many(self->loader, caller, several.texts, several.texts_len, several.lengths, (size_t)keys,
                                   several.answers, (size_t)keys);
        answer = code == DL_DONE ? loaded_many(self, several.answers, keys) : raise_code(self, code);
    }
    free_several(&several);
    return answer;
}

/* ---- other calls of callers */

static PyObject *shared_prime(PyObject *object, PyObject *const *given, Py_ssize_t count)
{
    Shared *self = (Shared *)object;
    uint32_t caller;
    KeyText key;

    if (!takes(count, 3) || !is_there(self) || !read_u32(given[0], &caller) || !read_key(given[1], &key)) {
        return NULL;
    }
    PyObject *outcome = Py_NewRef(given[2]);
    dl_loaded answer = dl_loader_prime(self->loader, caller, KEY(key), (uint64_t)(uintptr_t)outcome);
    if (answer.code == DL_FRESH) {
        note(&self->cells, answer.cell + 1);
    } else {
        Py_DECREF(outcome);
    }
    return none_or_raise(self, answer.code);
}

static PyObject *shared_clear(PyObject *object, PyObject *const *given, Py_ssize_t count)
{
    Shared *self = (Shared *)object;
    uint32_t caller;
    KeyText key;

    if (!takes(count, 2) || !is_there(self) || !read_u32(given[0], &caller) || !read_key(given[1], &key)) {
        return NULL;
    }
    return none_or_raise(self, dl_loader_clear(self->loader, caller, KEY(key)));
}

static PyObject *shared_clear_all(PyObject *object, PyObject *given)
{
    Shared *self = (Shared *)object;
    uint32_t caller;

    if (!is_there(self) || !read_u32(given, &caller)) {
        return NULL;
    }
    return none_or_raise(self, dl_loader_clear_all(self->loader, caller));
}

/* ---- batches */

static size_t member_count(Shared *self, uint32_t batch)
{
    dl_key_texts texts;
    uint32_t count = 0;

    while (dl_loader_member(self->loader, batch, count, &texts).code == DL_HIT) {
        count++;
    }
    return count;
}

/* Fails a batch: each of its cells has a reference to the fault. */
static uint32_t fail_batch(Shared *self, uint32_t caller, uint32_t batch, PyObject *fault)
{
    size_t members = member_count(self, batch);

    for (size_t i = 0; i < members; i++) {
        Py_INCREF(fault);
    }
    uint32_t code = dl_loader_fail(self->loader, caller, batch, (uint64_t)(uintptr_t)fault);
    for (size_t i = 0; code != DL_DONE && i < members; i++) {
        Py_DECREF(fault);
    }
    return code;
}

/* A batch that was sent: its number, its cells, and the numbers of its keys. */
static PyObject *job_of(Shared *self, uint32_t batch)
{
    PyObject *cells = PyList_New(0), *keys = PyList_New(0), *job = NULL;
    bool is_whole = cells != NULL && keys != NULL;
    dl_key_texts texts;
    dl_loaded member;

    for (uint32_t i = 0; is_whole && (member = dl_loader_member(self->loader, batch, i, &texts)).code == DL_HIT; i++) {
        PyObject *cell = PyLong_FromUnsignedLong(member.cell), *key = number_of(&texts);
        is_whole = cell != NULL && key != NULL && PyList_Append(cells, cell) == 0 && PyList_Append(keys, key) == 0;
        Py_XDECREF(cell);
        Py_XDECREF(key);
    }
    if (is_whole) {
        job = Py_BuildValue("(IOO)", batch, cells, keys);
    }
    Py_XDECREF(cells);
    Py_XDECREF(keys);
    return job;
}

/* Sends what is collected, and puts each batch into a list, so that no interrupt comes between. Those for which there is no memory fail
 * by the error that is raised. */
static PyObject *shared_dispatch(PyObject *object, PyObject *const *given, Py_ssize_t count)
{
    Shared *self = (Shared *)object;
    uint32_t caller;
    PyObject *type, *fault, *traceback;

    if (!takes(count, 2) || !is_there(self) || !read_u32(given[0], &caller)) {
        return NULL;
    }
    dl_dispatched sent = dl_loader_dispatch(self->loader, caller);
    if (sent.code != DL_DONE) {
        return raise_code(self, sent.code);
    }
    uint32_t end = sent.first + (uint32_t)sent.count, batch = sent.first;
    note(&self->sent, end);
    for (; batch < end; batch++) {
        PyObject *job = job_of(self, batch);
        bool is_put = job != NULL && PyList_Append(given[1], job) == 0;
        Py_XDECREF(job);
        if (!is_put) {
            break;
        }
    }
    if (batch == end) {
        return Py_NewRef(Py_None);
    }
    PyErr_Fetch(&type, &fault, &traceback);
    PyErr_NormalizeException(&type, &fault, &traceback);
    for (; batch < end; batch++) {
        fail_batch(self, caller, batch, fault);
    }
    PyErr_Restore(type, fault, traceback);
    return NULL;
}

static PyObject *shared_settle(PyObject *object, PyObject *const *given, Py_ssize_t count)
{
    Shared *self = (Shared *)object;
    uint32_t caller, batch;

    if (!takes(count, 3) || !is_there(self) || !read_u32(given[0], &caller) || !read_u32(given[1], &batch)) {
        return NULL;
    }
    Py_ssize_t words_len = PyList_Size(given[2]);
    uint64_t *words = words_len < 0 ? NULL : PyMem_Calloc((size_t)words_len + 1, sizeof *words);
    if (words == NULL) {
        return words_len < 0 ? NULL : PyErr_NoMemory();
    }
    for (Py_ssize_t i = 0; i < words_len; i++) {
        words[i] = (uint64_t)(uintptr_t)Py_NewRef(PyList_GetItem(given[2], i));
    }
    uint32_t code = dl_loader_settle(self->loader, caller, batch, words, (size_t)words_len);
    for (Py_ssize_t i = 0; code != DL_DONE && i < words_len; i++) {
        Py_DECREF((PyObject *)(uintptr_t)words[i]);
    }
    PyMem_Free(words);
    return none_or_raise(self, code);
}

/* A batch that has ended before stays as it ended. */
static PyObject *shared_fail(PyObject *object, PyObject *const *given, Py_ssize_t count)
{
    Shared *self = (Shared *)object;
    uint32_t caller, batch;

    if (!takes(count, 3) || !is_there(self) || !read_u32(given[0], &caller) || !read_u32(given[1], &batch)) {
        return NULL;
    }
    uint32_t code = fail_batch(self, caller, batch, given[2]);
    return none_or_raise(self, code == DL_ENDED_BEFORE ? DL_DONE : code);
}

/* ---- what is no event */

static PyObject *shared_look(PyObject *object, PyObject *const *given, Py_ssize_t count)
{
    Shared *self = (Shared *)object;
    uint32_t cell;

    if (!takes(count, 2) || !is_there(self) || !read_u32(given[0], &cell)) {
        return NULL;
    }
    dl_shown shown = dl_loader_look(self->loader, cell);
    return Py_NewRef(shown.state == DL_EMPTY ? given[1] : (PyObject *)(uintptr_t)shown.word);
}

/* A closed loader notes nothing any more. */
static PyObject *shared_saw(PyObject *object, PyObject *const *given, Py_ssize_t count)
{
    Shared *self = (Shared *)object;
    uint32_t caller;

    if (!takes(count, 2) || !is_there(self) || !read_u32(given[0], &caller)) {
        return NULL;
    }
    size_t ticket = PyLong_AsSize_t(given[1]);
    if (PyErr_Occurred()) {
        return NULL;
    }
    uint32_t code = dl_loader_saw(self->loader, caller, ticket);
    return none_or_raise(self, code == DL_CLOSED ? DL_DONE : code);
}

static PyObject *shared_collects(PyObject *object, PyObject *none)
{
    Shared *self = (Shared *)object;

    (void)none;
    return PyBool_FromLong(atomic_load(&self->begun) > atomic_load(&self->sent));
}

static PyObject *shared_stop(PyObject *object, PyObject *none)
{
    Shared *self = (Shared *)object;

    (void)none;
    return is_there(self) ? none_or_raise(self, dl_loader_stop(self->loader)) : NULL;
}

static PyObject *shared_close(PyObject *object, PyObject *none)
{
    Shared *self = (Shared *)object;

    (void)none;
    return is_there(self) ? none_or_raise(self, dl_loader_close(self->loader)) : NULL;
}

/* ---- the history */

/* A key of an event: its number, whether a cell begins, the cell and the batch. */
static PyObject *key_of_event(Shared *self, uint32_t at, size_t index)
{
    dl_key_texts texts;
    dl_loaded answer = dl_loader_event_key(self->loader, at, index, &texts);
    PyObject *number = answer.code <= DL_FRESH ? number_of(&texts) : raise_code(self, answer.code);

    return number == NULL ? NULL : Py_BuildValue("(NOII)", number, answer.code == DL_FRESH ? Py_True : Py_False, answer.cell, answer.batch);
}

/* The event at a place: its caller, its call, the first of its batches and how many they are, and its keys; None past the last one. */
static PyObject *shared_event(PyObject *object, PyObject *given)
{
    Shared *self = (Shared *)object;
    uint32_t at;

    if (!is_there(self) || !read_u32(given, &at)) {
        return NULL;
    }
    dl_event event = dl_loader_event(self->loader, at);
    if (event.code != DL_DONE) {
        return event.code == DL_NO_EVENT ? Py_NewRef(Py_None) : raise_code(self, event.code);
    }
    PyObject *keys = PyList_New(0);
    for (size_t i = 0; keys != NULL && i < event.keys; i++) {
        PyObject *key = key_of_event(self, at, i);
        if (key == NULL || PyList_Append(keys, key) < 0) {
            Py_CLEAR(keys);
        }
        Py_XDECREF(key);
    }
    return keys == NULL ? NULL : Py_BuildValue("(IIInN)", event.caller, event.call, event.batch, (Py_ssize_t)event.batches, keys);
}

/* The entry of a caller: whether it is a call, the place of the event, and the cell; None past the last one. */
static PyObject *shared_entry(PyObject *object, PyObject *const *given, Py_ssize_t count)
{
    Shared *self = (Shared *)object;
    uint32_t caller;

    if (!takes(count, 2) || !is_there(self) || !read_u32(given[0], &caller)) {
        return NULL;
    }
    size_t index = PyLong_AsSize_t(given[1]);
    if (PyErr_Occurred()) {
        return NULL;
    }
    dl_entry entry = dl_loader_entry(self->loader, caller, index);
    if (entry.code != DL_DONE) {
        return entry.code == DL_NO_EVENT ? Py_NewRef(Py_None) : raise_code(self, entry.code);
    }
    return Py_BuildValue("(OII)", entry.kind == DL_ENTRY_CALL ? Py_True : Py_False, entry.at, entry.cell);
}

/* ---- the type */

static PyObject *shared_new(PyTypeObject *type, PyObject *arguments, PyObject *named)
{
    dl_serial_opening opening = {0};
    Module *module = PyType_GetModuleState(type);
    unsigned max_batch, max_cells, max_calls, callers;

    (void)named;
    if (!PyArg_ParseTuple(arguments, "IIII:Shared", &max_batch, &max_cells, &max_calls, &callers)) {
        return NULL;
    }
    opening = (dl_serial_opening){max_batch, max_cells, max_calls, callers, 0, 0};
    allocfunc allocate = (allocfunc)PyType_GetSlot(type, Py_tp_alloc);
    Shared *self = (Shared *)allocate(type, 0);
    if (self == NULL) {
        return NULL;
    }
    self->loader_full = Py_NewRef(module->loader_full);
    uint32_t code = dl_loader_open(&self->loader, &opening);
    if (code != DL_DONE) {
        raise_code(self, code);
        Py_DECREF(self);
        return NULL;
    }
    return (PyObject *)self;
}

/* The object of a cell, or NULL. */
static PyObject *word_of(const Shared *self, uint32_t cell)
{
    dl_shown shown = dl_loader_look(self->loader, cell);

    return shown.state == DL_EMPTY ? NULL : (PyObject *)(uintptr_t)shown.word;
}

static int shared_traverse(PyObject *object, visitproc visit, void *arg)
{
    Shared *self = (Shared *)object;

    Py_VISIT(Py_TYPE(object));
    Py_VISIT(self->loader_full);
    for (uint32_t cell = 0; self->loader != NULL && cell < atomic_load(&self->cells); cell++) {
        Py_VISIT(word_of(self, cell));
    }
    return 0;
}

static int shared_tp_clear(PyObject *object)
{
    Shared *self = (Shared *)object;
    dl_loader *loader = self->loader;
    Shared gone = {.loader = loader};

    Py_CLEAR(self->loader_full);
    self->loader = NULL;
    for (uint32_t cell = 0; loader != NULL && cell < atomic_load(&self->cells); cell++) {
        Py_XDECREF(word_of(&gone, cell));
    }
    dl_loader_free(loader);
    return 0;
}

static void shared_dealloc(PyObject *object)
{
    PyTypeObject *type = Py_TYPE(object);
    freefunc release = (freefunc)PyType_GetSlot(type, Py_tp_free);

    PyObject_GC_UnTrack(object);
    shared_tp_clear(object);
    release(object);
    Py_DECREF(type);
}

#define FAST(call) (PyCFunction)(void (*)(void))(call), METH_FASTCALL

static PyMethodDef shared_methods[] = {
    {"load", FAST(shared_load), NULL},
    {"load_many", FAST(shared_load_many), NULL},
    {"prime", FAST(shared_prime), NULL},
    {"clear", FAST(shared_clear), NULL},
    {"clear_all", shared_clear_all, METH_O, NULL},
    {"dispatch", FAST(shared_dispatch), NULL},
    {"settle", FAST(shared_settle), NULL},
    {"fail", FAST(shared_fail), NULL},
    {"look", FAST(shared_look), NULL},
    {"saw", FAST(shared_saw), NULL},
    {"collects", shared_collects, METH_NOARGS, NULL},
    {"stop", shared_stop, METH_NOARGS, NULL},
    {"close", shared_close, METH_NOARGS, NULL},
    {"event", shared_event, METH_O, NULL},
    {"entry", FAST(shared_entry), NULL},
    {NULL, NULL, 0, NULL},
};

static PyType_Slot shared_slots[] = {
    {Py_tp_doc, "A loader that threads share. Keys are numbers, and outcomes are objects."},
    {Py_tp_new, shared_new},
    {Py_tp_traverse, shared_traverse},
    {Py_tp_clear, shared_tp_clear},
    {Py_tp_dealloc, shared_dealloc},
    {Py_tp_methods, shared_methods},
    {0, NULL},
};

static PyType_Spec shared_spec = {
    .name = "thrushscreen._shared.Shared",
    .basicsize = sizeof(Shared),
    .flags = Py_TPFLAGS_DEFAULT | Py_TPFLAGS_HAVE_GC | Py_TPFLAGS_IMMUTABLETYPE,
    .slots = shared_slots,
};

static int module_exec(PyObject *module)
{
    Module *state = PyModule_GetState(module);
    PyObject *desk = PyImport_ImportModule("thrushscreen._desk"), *type;

    state->loader_full = desk == NULL ? NULL : PyObject_GetAttrString(desk, "LoaderFull");
    Py_XDECREF(desk);
    type = state->loader_full == NULL ? NULL : PyType_FromModuleAndSpec(module, &shared_spec, NULL);
    int status = type == NULL ? -1 : PyModule_AddObjectRef(module, "Shared", type);
    Py_XDECREF(type);
    return status;
}

static int module_traverse(PyObject *module, visitproc visit, void *arg)
{
    Py_VISIT(((Module *)PyModule_GetState(module))->loader_full);
    return 0;
}

static int module_clear(PyObject *module)
{
    Py_CLEAR(((Module *)PyModule_GetState(module))->loader_full);
    return 0;
}

/* A Python without an interpreter's lock takes the module by one more slot: the lock of dl_loader.c keeps calls apart. */
static PyModuleDef_Slot module_slots[] = {
    {Py_mod_exec, module_exec},
#ifdef Py_GIL_DISABLED
    {Py_mod_gil, Py_MOD_GIL_NOT_USED},
#endif
    {0, NULL},
    {0, NULL},
};

static struct PyModuleDef shared_module = {
    PyModuleDef_HEAD_INIT,       .m_name = "thrushscreen._shared", .m_doc = "The proved loader that threads share, by its C library.",
    .m_size = sizeof(Module),    .m_slots = module_slots,          .m_traverse = module_traverse,
    .m_clear = module_clear,
};

PyMODINIT_FUNC PyInit__shared(void)
{
    take_own_locks(&module_slots[sizeof module_slots / sizeof *module_slots - 2]);
    return PyModuleDef_Init(&shared_module);
}
