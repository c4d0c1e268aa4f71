/* What the extensions share: references, keys as the libraries know them, and the slot by which interpreters of their own take a module. */
#ifndef THRUSHSCREEN_KEYS_H
#define THRUSHSCREEN_KEYS_H

#include <Python.h>

#include <stdlib.h>
#include <string.h>

#include "dl_types.h"

/* From Python 3.12 on, interpreters with locks of their own share None, small numbers, short texts and such. Nobody counts the references
 * to these: their counts are negative, as numbers of 32 bits. The macros of the limited API of 3.10 count each object, so two interpreters
 * at once would count wrong. */
#ifdef Py_LIMITED_API
static inline void take_reference(PyObject *object)
{
    if (object != NULL && (int32_t)Py_REFCNT(object) >= 0) {
        Py_INCREF(object);
    }
}

static inline void drop_reference(PyObject *object)
{
    if (object != NULL && (int32_t)Py_REFCNT(object) >= 0) {
        Py_DECREF(object);
    }
}

static inline PyObject *taken_reference(PyObject *object)
{
    take_reference(object);
    return object;
}

#undef Py_INCREF
#undef Py_XINCREF
#undef Py_NewRef
#undef Py_DECREF
#undef Py_XDECREF
#define Py_INCREF(object) take_reference((PyObject *)(object))
#define Py_XINCREF(object) take_reference((PyObject *)(object))
#define Py_NewRef(object) taken_reference((PyObject *)(object))
#define Py_DECREF(object) drop_reference((PyObject *)(object))
#define Py_XDECREF(object) drop_reference((PyObject *)(object))
#endif

/* A key as a library knows it: the digits of a number. Python's dict says which keys are one. So nobody but the loader chooses the
 * library's keys, and its hashes need no seed. */
typedef struct {
    size_t len;
    uint8_t digits[20];
} KeyText;

/* The one table, and what a call of a library takes of a key. */
#define TABLE "k"
#define KEY(text) (const uint8_t *)TABLE, sizeof TABLE - 1, (text).digits, (text).len

static KeyText key_text(uint64_t number)
{
    KeyText text = {.len = 1};

    for (uint64_t rest = number / 10; rest > 0; rest /= 10) {
        text.len++;
    }
    for (size_t place = text.len; place > 0; place--) {
        text.digits[place - 1] = (uint8_t)('0' + number % 10);
        number /= 10;
    }
    return text;
}

/* The most bytes that a key has among several. */
enum { KEY_BYTES = sizeof TABLE - 1 + sizeof((KeyText *)0)->digits };

/* Writes a key behind the texts of others, and gives its lengths. */
static dl_key_lengths append_key(uint64_t number, uint8_t *texts, size_t *texts_len)
{
    KeyText text = key_text(number);

    memcpy(texts + *texts_len, TABLE, sizeof TABLE - 1);
    memcpy(texts + *texts_len + sizeof TABLE - 1, text.digits, text.len);
    *texts_len += sizeof TABLE - 1 + text.len;
    return (dl_key_lengths){sizeof TABLE - 1, (uint32_t)text.len};
}

/* From Python 3.12 on an interpreter with a lock of its own takes a module that has one more slot. The libraries share nothing. */
static void take_own_locks(PyModuleDef_Slot *slot)
{
    enum { MULTIPLE_INTERPRETERS = 3, EACH_WITH_ITS_LOCK = 2 };

    if (strtol(Py_GetVersion() + strlen("3."), NULL, 10) >= 12) {
        *slot = (PyModuleDef_Slot){MULTIPLE_INTERPRETERS, (void *)EACH_WITH_ITS_LOCK};
    }
}

#endif
