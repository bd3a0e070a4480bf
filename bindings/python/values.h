/* Makes Python's values from events. */
#ifndef VALUES_H
#define VALUES_H

#include <Python.h>

#include "bytes.h"
#include "resp.h"

/* The most values whose memory is kept for the next reply. */
#define MOST_VALUES 4096

/* The most digits of a big number, and how many become a number at once. */
#define MOST_DIGITS 65536
#define DIGITS_AT_ONCE 4000

/* Keeps code for rare cases out of the code that runs for each value. */
#ifdef __GNUC__
#define APART __attribute__((noinline))
#else
#define APART
#endif

/* An array with a number of members in this range is allocated when it opens. Larger numbers in a head allocate
 * nothing. */
#define LEAST_FILLED 8
#define MOST_FILLED 1024

/* An open aggregate: its kind, and the index of its first member among the values; or the list that is filled with the
 * members, and how many it has. The list is hidden from the garbage collector until it is complete. */
struct open {
    uint32_t form;
    size_t first;
    PyObject *list;
    Py_ssize_t filled;
};

/* How strings are read. */
enum reading { AS_BYTES, AS_UTF8, AS_ENCODED };

/* The small integers that each module has. */
#define MOST_SMALL 256

/* The objects of a module. Each interpreter has a module of its own. */
struct module {
    PyObject *protocol_error, *reply_error, *push, *pairs;
    /* The object that gets returns in protocol 3 until a reply is complete. There False is a reply. */
    PyObject *no_reply;
    /* The most frequent replies of redis-server: `OK` as bytes, and small integers. */
    PyObject *ok, *small[MOST_SMALL];
};

struct values {
    struct module *module;
    /* The complete values: the members of the open aggregates, in order, or the top-level value. */
    PyObject **start;
    size_t count, room;
    /* As many as the limit of depth allows, and how many are open. */
    struct open *open;
    size_t depth;
    /* The innermost aggregate, if it is a list that is filled. */
    struct open *filling;
    /* A text that arrives in parts: its kind, whether it is a negative big number, and its bytes. */
    uint32_t form;
    bool is_negative;
    struct bytes text;
    /* The exception of a value that can't be made. It is raised after the value has been read. The next value can then
     * be read. */
    PyObject *failure;
    /* The function that makes errors from texts; how strings are read with the encoding, and how in this call. */
    PyObject *reply_error;
    char *encoding, *errors;
    enum reading reads, reads_now;
    /* Whether sets become lists. */
    bool lists_sets;
    /* Whether a big number is too long. After it no more replies are read. */
    bool is_too_long;
};

/* Replaces a value by another. Steals the reference to the new one. */
static void replace(PyObject **place, PyObject *value) {
    PyObject *before = *place;
    *place = value;
    Py_XDECREF(before);
}

/* Returns the exception that is set, and clears it. */
static PyObject *take_exception(void) {
    PyObject *type, *value, *traceback;
    PyErr_Fetch(&type, &value, &traceback);
    PyErr_NormalizeException(&type, &value, &traceback);
    Py_XDECREF(type);
    Py_XDECREF(traceback);
    return value;
}

/* Stores the exception that is set, if it is the first of this reply. */
static APART void fail(struct values *values) {
    PyObject *exception = take_exception();
    if (!values->failure)
        values->failure = exception;
    else
        Py_XDECREF(exception);
}

static inline PyObject *hashable(PyObject *value);

/* Returns a tuple of hashable copies of the members. */
static PyObject *hashable_tuple(PyObject *members) {
    PyObject *tuple = PySequence_Tuple(members);
    if (!tuple)
        return NULL;
    Py_ssize_t length = PyTuple_Size(tuple);
    PyObject *made = PyTuple_New(length);
    for (Py_ssize_t at = 0; made && at < length; at++) {
        PyObject *value = hashable(PyTuple_GetItem(tuple, at));
        if (!value || PyTuple_SetItem(made, at, value))
            Py_CLEAR(made);
    }
    Py_DECREF(tuple);
    return made;
}

/* Returns a copy that can be hashed: a list becomes a tuple, a set a frozenset, and a dict the tuple of its pairs. */
static APART PyObject *hashable_copy(PyObject *value) {
    if (PyList_Check(value) || PyTuple_Check(value))
        return hashable_tuple(value);
    if (PyDict_Check(value)) {
        PyObject *pairs = PyDict_Items(value);
        PyObject *made = pairs ? hashable_tuple(pairs) : NULL;
        Py_XDECREF(pairs);
        return made;
    }
    if (PySet_Check(value))
        return PyFrozenSet_New(value);
    Py_INCREF(value);
    return value;
}

/* The same for any value. Most keys are strings or integers. */
static inline PyObject *hashable(PyObject *value) {
    PyTypeObject *type = Py_TYPE(value);
    if (type != &PyBytes_Type && type != &PyUnicode_Type && type != &PyLong_Type)
        return hashable_copy(value);
    Py_INCREF(value);
    return value;
}

static inline PyObject *integer_of(struct values *values, int64_t number) {
    if ((uint64_t)number >= MOST_SMALL)
        return PyLong_FromLongLong(number);
    PyObject *small = values->module->small[number];
    Py_INCREF(small);
    return small;
}

/* The functions that follow make the value of a text. */

static PyObject *error_of(struct values *values, const char *start, Py_ssize_t length) {
    PyObject *text = PyUnicode_DecodeUTF8(start, length, "replace");
    PyObject *value = text ? PyObject_CallFunctionObjArgs(values->reply_error, text, NULL) : NULL;
    Py_XDECREF(text);
    return value;
}

/* Returns a double. The scanner accepts only texts of the published grammar, and `-nan`. Python's float() reads them all. */
static PyObject *double_of(const char *start, Py_ssize_t length) {
    PyObject *text = PyUnicode_DecodeUTF8(start, length, "strict");
    PyObject *value = text ? PyFloat_FromString(text) : NULL;
    Py_XDECREF(text);
    return value;
}

/* Returns the number of these digits. */
static PyObject *int_of(const char *start, Py_ssize_t length) {
    PyObject *digits = PyUnicode_FromStringAndSize(start, length);
    PyObject *value = digits ? PyObject_CallFunctionObjArgs((PyObject *)&PyLong_Type, digits, NULL) : NULL;
    Py_XDECREF(digits);
    return value;
}

/* Returns `value` with more digits behind its own: its product with a power of ten, and the number of these digits. Steals
 * the reference to `value`. */
static PyObject *with_digits(PyObject *value, const char *start, Py_ssize_t length) {
    PyObject *ten = PyLong_FromLong(10), *exponent = PyLong_FromSsize_t(length);
    PyObject *power = ten && exponent ? PyNumber_Power(ten, exponent, Py_None) : NULL;
    PyObject *product = power ? PyNumber_Multiply(value, power) : NULL;
    PyObject *more = product ? int_of(start, length) : NULL;
    PyObject *sum = more ? PyNumber_Add(product, more) : NULL;
    Py_XDECREF(ten);
    Py_XDECREF(exponent);
    Py_XDECREF(power);
    Py_XDECREF(product);
    Py_XDECREF(more);
    Py_DECREF(value);
    return sum;
}

/* Makes a big number. Python's int() accepts at most 4,300 digits at once, so a longer one is made from several. One over
 * MOST_DIGITS would take long: it is refused once the reply has been read. */
static PyObject *big_of(struct values *values, const char *start, Py_ssize_t length) {
    if (length > MOST_DIGITS) {
        values->is_too_long = true;
        return PyLong_FromLong(0);
    }
    PyObject *value = PyLong_FromLong(0);
    for (Py_ssize_t at = 0; value && at < length; at += DIGITS_AT_ONCE)
        value = with_digits(value, start + at, length - at < DIGITS_AT_ONCE ? length - at : DIGITS_AT_ONCE);
    if (value && values->is_negative)
        replace(&value, PyNumber_Negative(value));
    return value;
}

/* Makes the value of a text that is no string. */
static APART PyObject *other_of(struct values *values, uint32_t form, const char *start, Py_ssize_t length) {
    switch (form) {
    case RESP_TEXT_DOUBLE:
        return double_of(start, length);
    case RESP_TEXT_BIG:
        return big_of(values, start, length);
    default:
        return error_of(values, start, length);
    }
}

static APART PyObject *decoded(struct values *values, const char *start, Py_ssize_t length) {
    return values->reads_now == AS_UTF8 ? PyUnicode_DecodeUTF8(start, length, values->errors)
                                        : PyUnicode_Decode(start, length, values->encoding, values->errors);
}

static inline PyObject *text_of(struct values *values, uint32_t form, const uint8_t *bytes, size_t size) {
    const char *start = (const char *)bytes;
    Py_ssize_t length = (Py_ssize_t)size;
    if (form != RESP_TEXT_BULK && form != RESP_TEXT_SIMPLE && form != RESP_TEXT_VERBATIM)
        return other_of(values, form, start, length);
    if (values->reads_now != AS_BYTES)
        return decoded(values, start, length);
    if (length == 2 && start[0] == 'O' && start[1] == 'K') {
        Py_INCREF(values->module->ok);
        return values->module->ok;
    }
    return PyBytes_FromStringAndSize(start, length);
}

/* The functions that follow make an aggregate from its members. They steal the references to the members. */

static void let_go(PyObject **members, size_t count) {
    for (size_t at = 0; at < count; at++)
        Py_DECREF(members[at]);
}

static PyObject *list_of(PyObject **members, size_t count) {
    PyObject *list = PyList_New((Py_ssize_t)count);
    if (!list) {
        let_go(members, count);
        return NULL;
    }
    for (size_t at = 0; at < count; at++)
        PyList_SetItem(list, (Py_ssize_t)at, members[at]);
    return list;
}

/* Makes a push, which has a type of its own. */
static PyObject *push_of(struct values *values, PyObject **members, size_t count) {
    PyObject *list = list_of(members, count);
    PyObject *push = list ? PyObject_CallFunctionObjArgs(values->module->push, list, NULL) : NULL;
    Py_XDECREF(list);
    return push;
}

/* Makes a set, or a list if two members are equal in Python, as 1 and True are: nothing is lost. */
static PyObject *set_of(PyObject **members, size_t count) {
    PyObject *set = PySet_New(NULL);
    for (size_t at = 0; set && at < count; at++) {
        PyObject *member = hashable(members[at]);
        if (!member || PySet_Add(set, member))
            Py_CLEAR(set);
        Py_XDECREF(member);
    }
    if (set && (size_t)PySet_Size(set) < count) {
        Py_DECREF(set);
        return list_of(members, count);
    }
    let_go(members, count);
    return set;
}

/* Makes the list of the pairs of a map, of the type Pairs. */
static PyObject *pairs_of(struct values *values, PyObject **members, size_t count) {
    PyObject *list = PyList_New((Py_ssize_t)(count / 2));
    for (size_t at = 0; list && at + 1 < count; at += 2) {
        PyObject *pair = PyTuple_Pack(2, members[at], members[at + 1]);
        if (!pair || PyList_SetItem(list, (Py_ssize_t)(at / 2), pair))
            Py_CLEAR(list);
    }
    let_go(members, count);
    PyObject *pairs = list ? PyObject_CallFunctionObjArgs(values->module->pairs, list, NULL) : NULL;
    Py_XDECREF(list);
    return pairs;
}

/* Makes a dict, or the list of the pairs if two keys are equal in Python: nothing is lost. */
static PyObject *dict_of(struct values *values, PyObject **members, size_t count) {
    PyObject *dict = PyDict_New();
    for (size_t at = 0; dict && at + 1 < count; at += 2) {
        PyObject *key = hashable(members[at]);
        if (!key || PyDict_SetItem(dict, key, members[at + 1]))
            Py_CLEAR(dict);
        Py_XDECREF(key);
    }
    if (dict && (size_t)PyDict_Size(dict) < count / 2) {
        Py_DECREF(dict);
        return pairs_of(values, members, count);
    }
    let_go(members, count);
    return dict;
}

/* Skips an attribute: the last member is the value that it annotates. */
static PyObject *annotated(PyObject **members, size_t count) {
    PyObject *value = count ? members[count - 1] : Py_None;
    Py_INCREF(value);
    let_go(members, count);
    return value;
}

static PyObject *aggregate_of(struct values *values, uint32_t form, PyObject **members, size_t count) {
    switch (form) {
    case RESP_MAP:
        return dict_of(values, members, count);
    case RESP_SET:
        return values->lists_sets ? list_of(members, count) : set_of(members, count);
    case RESP_PUSH:
        return push_of(values, members, count);
    case RESP_ATTRIBUTE:
        return annotated(members, count);
    default:
        return list_of(members, count);
    }
}

/* Makes room for more values. */
static APART bool reserve_values(struct values *values) {
    size_t room = values->room ? 2 * values->room : 64;
    PyObject **start = PyMem_Realloc(values->start, room * sizeof *start);
    if (!start) {
        PyErr_NoMemory();
        return false;
    }
    values->start = start;
    values->room = room;
    return true;
}

/* Adds a complete value, and steals the reference to it. Adds None if it couldn't be made. */
static inline void add(struct values *values, PyObject *value) {
    if (!value) {
        fail(values);
        Py_INCREF(Py_None);
        value = Py_None;
    }
    if (values->filling) {
        PyList_SetItem(values->filling->list, values->filling->filled++, value);
        return;
    }
    if (values->count == values->room && !reserve_values(values)) {
        fail(values);
        Py_DECREF(value);
        return;
    }
    values->start[values->count++] = value;
}

static APART void begin_values(struct values *values, const struct resp_event *event) {
    struct open *open = &values->open[values->depth++];
    bool is_filled = event->form == RESP_ARRAY && event->members >= LEAST_FILLED && event->members <= MOST_FILLED;
    *open = (struct open){event->form, values->count, is_filled ? PyList_New((Py_ssize_t)event->members) : NULL, 0};
    if (is_filled && !open->list)
        fail(values);
    if (open->list)
        PyObject_GC_UnTrack(open->list);
    values->filling = open->list ? open : NULL;
}

/* Ends the innermost aggregate. */
static APART void end(struct values *values) {
    struct open *open = &values->open[--values->depth];
    values->filling = values->depth && open[-1].list ? open - 1 : NULL;
    if (open->list) {
        PyObject_GC_Track(open->list);
        add(values, open->list);
        return;
    }
    PyObject **members = values->start + open->first;
    size_t count = values->count - open->first;
    /* From here on the garbage collector sees the members in their new place. */
    values->count = open->first;
    add(values, aggregate_of(values, open->form, members, count));
}

/* Processes an event of a rare kind, whose bytes begin at `at`. */
static APART void take_seldom(struct values *values, const struct resp_event *event, const uint8_t *at) {
    switch (event->kind) {
    case RESP_NULL:
        Py_INCREF(Py_None);
        add(values, Py_None);
        break;
    case RESP_BOOL:
        add(values, PyBool_FromLong((long)event->number));
        break;
    case RESP_TEXT:
        values->form = event->form;
        values->is_negative = event->number;
        values->text.length = 0;
        break;
    case RESP_PART:
        if (!append(&values->text, resp_event_part(event, at), event->part))
            fail(values);
        break;
    case RESP_TEXT_END:
        add(values, text_of(values, values->form, values->text.length ? values->text.start : (const uint8_t *)"",
                            values->text.length));
        empty(&values->text, MOST_KEPT);
        break;
    }
}

/* Processes an event, whose bytes begin at `at`. Returns false for RESP_DONE and RESP_MORE. */
static inline bool take(struct values *values, const struct resp_event *event, const uint8_t *at) {
    if (event->kind == RESP_WHOLE)
        add(values, text_of(values, event->form, resp_event_whole(event, at), event->part));
    else if (event->kind == RESP_INT)
        add(values, integer_of(values, event->number));
    else if (event->kind == RESP_DONE || event->kind == RESP_MORE)
        return false;
    else if (event->kind == RESP_OPEN)
        begin_values(values, event);
    else if (event->kind == RESP_CLOSE)
        end(values);
    else
        take_seldom(values, event, at);
    return true;
}

/* Drops all values, and frees large buffers. */
static void forget(struct values *values) {
    values->filling = NULL;
    while (values->depth)
        Py_XDECREF(values->open[--values->depth].list);
    while (values->count)
        Py_DECREF(values->start[--values->count]);
    Py_CLEAR(values->failure);
    if (values->room > MOST_VALUES) {
        PyMem_Free(values->start);
        values->start = NULL;
        values->room = 0;
    }
}

/* Returns the complete value, or raises the exception that was stored for it. */
static inline PyObject *whole(struct values *values) {
    if (values->failure) {
        PyObject *failure = values->failure;
        values->failure = NULL;
        forget(values);
        PyErr_SetObject((PyObject *)Py_TYPE(failure), failure);
        Py_DECREF(failure);
        return NULL;
    }
    PyObject *value = values->start[0];
    values->count = 0;
    if (values->room > MOST_VALUES)
        forget(values);
    return value;
}

#endif
