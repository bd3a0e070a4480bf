/* The compiled part of the package resp: readers of RESP2 and RESP3 that make Python's values from events. */
#define PY_SSIZE_T_CLEAN
#define Py_LIMITED_API 0x03080000
#include <Python.h>

#include "bytes.h"
#include "older.h"
#include "resp.h"
#include "values.h"

/* The most events of one call to the scanner. */
#define MOST_EVENTS 64

struct reader {
    PyObject_HEAD
    /* The module, whose objects `values` uses. */
    PyObject *module;
    /* `length` bytes were fed. The first `pos` of them have been read. They are in `lent`, or in `kept` if that is
     * NULL. */
    const uint8_t *fed;
    size_t length, pos;
    PyObject *lent;
    struct bytes kept;
    /* The events that haven't been read yet, for the bytes from `pos` on. RESP_MORE ends them. `scanned` is the end of
     * the bytes that the scanner has read. */
    const struct resp_event *next;
    size_t scanned;
    /* The error of the byte at `scanned`, or RESP_OK; and whether the array of events was full. */
    uint32_t cause;
    bool is_full;
    /* Whether a reply was begun, and whether a call is reading now. */
    bool is_begun, is_reading;
    /* The version of the scanner, and the limits. */
    uint32_t version;
    struct resp_limits limits;
    struct resp_scanner scanner;
    struct values values;
    PyObject *protocol_error, *not_enough_data;
    /* Whether not_enough_data is the one that the protocol has by default. */
    bool waits_by_default;
    /* Whether replies are paired with commands; the commands that wait, and the number of the current reply. */
    bool pairs;
    struct resp_pairing pairing;
    uint64_t number;
    /* The most memory that is kept for bytes, or 0 for any. */
    size_t maxbuf;
    /* The array of events. It, the scanner's memory and the room for open aggregates are allocated when the first bytes
     * arrive. */
    struct resp_event *events;
};

/* The events of a reader that has no more of them. */
static const struct resp_event NOTHING = {.kind = RESP_MORE};

/* Raises protocolError, with the name of the error and the byte of the value as attributes. */
static PyObject *refuse(struct reader *reader, uint32_t cause, uint64_t at) {
    const char *name = resp_cause_name(cause);
    PyObject *error = PyObject_CallFunction(reader->protocol_error, "N",
        PyUnicode_FromFormat("%s at byte %llu of the value", name, (unsigned long long)at));
    if (!error)
        return NULL;
    PyObject *cause_value = PyUnicode_FromString(name), *at_value = PyLong_FromUnsignedLongLong(at);
    if (cause_value && at_value && !PyObject_SetAttrString(error, "cause", cause_value) &&
        !PyObject_SetAttrString(error, "at", at_value))
        PyErr_SetObject((PyObject *)Py_TYPE(error), error);
    Py_XDECREF(cause_value);
    Py_XDECREF(at_value);
    Py_DECREF(error);
    return NULL;
}

/* Raises protocolError for a big number that is too long. The byte isn't known. */
static APART PyObject *refuse_number(struct reader *reader) {
    PyObject *error = PyObject_CallFunction(reader->protocol_error, "s", "Length of a big number");
    PyObject *cause = error ? PyUnicode_FromString("Length") : NULL;
    if (cause && !PyObject_SetAttrString(error, "cause", cause) && !PyObject_SetAttrString(error, "at", Py_None))
        PyErr_SetObject((PyObject *)Py_TYPE(error), error);
    Py_XDECREF(cause);
    Py_XDECREF(error);
    return NULL;
}

/* Drops the events that haven't been read. */
static void begin_scanning(struct reader *reader, uint32_t version) {
    reader->version = version;
    reader->next = &NOTHING;
    reader->scanned = reader->pos;
    reader->cause = RESP_OK;
    reader->is_full = false;
}

/* Scans the bytes after a reply again in another version. */
static APART void scan_again(struct reader *reader, uint32_t version) {
    if (reader->events)
        resp_scanner_init(&reader->scanner, version, &reader->limits);
    begin_scanning(reader, version);
}

/* Asks the scanner for more events after all have been read. Returns false if there are none. */
static APART bool scan(struct reader *reader) {
    struct resp_scanned scanned;
    reader->next = reader->events;
    reader->events[0].kind = RESP_MORE;
    /* The bytes after the last event belong to no event yet. */
    reader->pos = reader->scanned;
    if (reader->cause != RESP_OK || (reader->pos == reader->length && !reader->is_full))
        return false;
    reader->cause = resp_scanner_scan(&reader->scanner, reader->fed + reader->pos, reader->length - reader->pos,
                                      reader->events, MOST_EVENTS, &scanned);
    reader->events[scanned.count].kind = RESP_MORE;
    reader->scanned = reader->pos + scanned.used;
    reader->is_full = scanned.count == MOST_EVENTS;
    return true;
}

/* Drops the bytes that were fed, after all have been read. */
static void drop_fed(struct reader *reader) {
    Py_CLEAR(reader->lent);
    empty(&reader->kept, reader->maxbuf ? reader->maxbuf : SIZE_MAX);
    reader->fed = (const uint8_t *)"";
    reader->length = reader->pos = reader->scanned = 0;
}

/* Moves the bytes that haven't been read to the front of our own buffer, which has room for them. */
static void move_rest(struct reader *reader) {
    size_t rest = reader->length - reader->pos;
    memmove(reader->kept.start, reader->fed + reader->pos, rest);
    reader->fed = reader->kept.start;
    reader->kept.length = reader->length = rest;
    reader->scanned -= reader->pos;
    reader->pos = 0;
    Py_CLEAR(reader->lent);
}

/* Copies bytes into our own buffer, after the bytes that haven't been read. */
static bool keep(struct reader *reader, const uint8_t *more, size_t length) {
    size_t rest = reader->length - reader->pos;
    if (reader->lent && !reserve(&reader->kept, rest + length))
        return false;
    /* The rest is moved if it is shorter than the bytes before it. */
    if (reader->lent || reader->pos > rest)
        move_rest(reader);
    if (!append(&reader->kept, more, length))
        return false;
    reader->fed = reader->kept.start;
    reader->length = reader->kept.length;
    return true;
}

/* Returns whether a call may use the reader: not before it was initialised, and not from a function that a read calls.
 * Check this after the arguments have been converted, since that may run Python code too. */
static bool is_ready(struct reader *reader) {
    if (reader->not_enough_data && !reader->is_reading)
        return true;
    PyErr_SetString(PyExc_RuntimeError, reader->is_reading ? "the reader is in use" : "the reader wasn't begun");
    return false;
}

/* Reads the slice of an object of `size` bytes from the arguments after the first. */
static bool slice_of(PyObject *const *args, Py_ssize_t count, Py_ssize_t size, Py_ssize_t *from, Py_ssize_t *length) {
    *from = 0;
    *length = -1;
    if (count > 1 && (*from = PyNumber_AsSsize_t(args[1], PyExc_OverflowError)) == -1 && PyErr_Occurred())
        return false;
    if (count > 2 && (*length = PyNumber_AsSsize_t(args[2], PyExc_OverflowError)) == -1 && PyErr_Occurred())
        return false;
    if (*length < 0)
        *length = size - *from;
    if (*from >= 0 && *length >= 0 && *from <= size && *length <= size - *from)
        return true;
    PyErr_SetString(PyExc_ValueError, "the slice lies outside the buffer");
    return false;
}

/* Feeds an object of the type bytes. It can't change, so it isn't copied if all bytes before it have been read. */
static bool feed_bytes(struct reader *reader, PyObject *const *args, Py_ssize_t count) {
    Py_ssize_t from, length;
    if (!slice_of(args, count, PyBytes_Size(args[0]), &from, &length) || !is_ready(reader))
        return false;
    const uint8_t *start = (const uint8_t *)PyBytes_AsString(args[0]) + from;
    if (reader->pos != reader->length)
        return keep(reader, start, (size_t)length);
    drop_fed(reader);
    Py_INCREF(args[0]);
    reader->lent = args[0];
    reader->fed = start;
    reader->length = (size_t)length;
    return true;
}

static bool feed_buffer(struct reader *reader, PyObject *const *args, Py_ssize_t count) {
    Py_buffer piece;
    Py_ssize_t from, length;
    if (PyObject_GetBuffer(args[0], &piece, PyBUF_SIMPLE))
        return false;
    bool is_fed = slice_of(args, count, piece.len, &from, &length) && is_ready(reader) &&
                  keep(reader, (const uint8_t *)piece.buf + from, (size_t)length);
    PyBuffer_Release(&piece);
    return is_fed;
}

/* Allocates what a reader needs to read, unless it has it. */
static inline bool begin_reading(struct reader *reader) {
    if (reader->events)
        return true;
    if (!is_ready(reader))
        return false;
    void *scanner = PyMem_Malloc(resp_scanner_size());
    struct open *open = PyMem_Malloc((size_t)reader->limits.depth * sizeof *open);
    struct resp_event *events = PyMem_Malloc((MOST_EVENTS + 1) * sizeof *events);
    if (!scanner || !open || !events) {
        PyMem_Free(scanner);
        PyMem_Free(open);
        PyMem_Free(events);
        PyErr_NoMemory();
        return false;
    }
    reader->scanner.memory = scanner;
    reader->values.open = open;
    reader->events = events;
    resp_scanner_init(&reader->scanner, reader->version, &reader->limits);
    return true;
}

static PyObject *reader_feed(struct reader *reader, PyObject *const *args, Py_ssize_t count) {
    if (count < 1 || count > 3) {
        PyErr_SetString(PyExc_TypeError, "feed takes bytes, and where a slice of them begins, and its length");
        return NULL;
    }
    bool is_bytes = Py_TYPE(args[0]) == &PyBytes_Type;
    if (!begin_reading(reader) || !(is_bytes ? feed_bytes(reader, args, count) : feed_buffer(reader, args, count)))
        return NULL;
    Py_RETURN_NONE;
}

/* Ends a read without a reply: raises the scanner's error, or returns notEnoughData. */
static APART PyObject *stop(struct reader *reader) {
    if (reader->cause != RESP_OK) {
        forget(&reader->values);
        return refuse(reader, reader->cause, resp_scanner_taken(&reader->scanner));
    }
    drop_fed(reader);
    Py_INCREF(reader->not_enough_data);
    return reader->not_enough_data;
}

/* Begins a value that is paired. Returns false, with an exception, if no command asked for it and it is no push. */
static bool begin_paired(struct reader *reader) {
    uint32_t version = 0, cause = resp_pairing_first(&reader->pairing, reader->fed[reader->pos], &version);
    if (cause != RESP_OK) {
        refuse(reader, cause, 0);
        return false;
    }
    if (version != reader->version)
        scan_again(reader, version);
    return true;
}

/* Continues the reply that was begun, and passes its events to the pairing, if there is one. */
static inline PyObject *read_on(struct reader *reader, bool pairs) {
    const struct resp_event *event = reader->next;
    const uint8_t *at = reader->fed + reader->pos;
    for (;;) {
        if (pairs && event->kind != RESP_MORE)
            resp_pairing_take(&reader->pairing, event, &reader->number);
        if (take(&reader->values, event, at)) {
            at += event++->used;
        } else if (event->kind == RESP_DONE) {
            reader->next = event + 1;
            reader->pos = (size_t)(at - reader->fed) + event->used;
            reader->is_begun = false;
            if (reader->values.is_too_long) {
                forget(&reader->values);
                return refuse_number(reader);
            }
            return whole(&reader->values);
        } else if (scan(reader)) {
            event = reader->next;
            at = reader->fed + reader->pos;
        } else {
            return stop(reader);
        }
    }
}

/* Returns the next reply. */
static inline PyObject *read_reply(struct reader *reader) {
    if (!reader->is_begun && reader->pos == reader->length)
        return stop(reader);
    reader->is_begun = true;
    return read_on(reader, false);
}

/* Returns the next reply with the number of its command, or with None for a push. */
static APART PyObject *read_paired(struct reader *reader) {
    if (!reader->is_begun && reader->pos == reader->length)
        return stop(reader);
    if (!reader->is_begun && !begin_paired(reader))
        return NULL;
    reader->is_begun = true;
    PyObject *value = read_on(reader, true);
    if (!value || reader->is_begun)
        return value;
    return reader->number ? Py_BuildValue("(KN)", (unsigned long long)reader->number, value)
                          : Py_BuildValue("(ON)", Py_None, value);
}

static PyObject *reader_gets(struct reader *reader, PyObject *const *args, Py_ssize_t count) {
    int decodes = count == 1 ? PyObject_IsTrue(args[0]) : 1;
    if (count > 1)
        PyErr_SetString(PyExc_TypeError, "gets takes no more than whether strings are decoded");
    if (count > 1 || decodes < 0 || !is_ready(reader))
        return NULL;
    reader->values.reads_now = decodes ? reader->values.reads : AS_BYTES;
    if (reader->values.is_too_long)
        return refuse_number(reader);
    reader->is_reading = true;
    PyObject *reply = reader->pairs ? read_paired(reader) : read_reply(reader);
    reader->is_reading = false;
    return reply;
}

static PyObject *reader_has_data(struct reader *reader, PyObject *args) {
    (void)args;
    return PyBool_FromLong(reader->pos < reader->length || reader->is_begun);
}

static PyObject *reader_len(struct reader *reader, PyObject *args) {
    (void)args;
    return PyLong_FromSize_t(reader->length - reader->pos);
}

static PyObject *reader_getmaxbuf(struct reader *reader, PyObject *args) {
    (void)args;
    return PyLong_FromSize_t(reader->maxbuf);
}

static PyObject *reader_setmaxbuf(struct reader *reader, PyObject *most) {
    Py_ssize_t number = most == Py_None ? MOST_KEPT : PyNumber_AsSsize_t(most, PyExc_OverflowError);
    if (number == -1 && PyErr_Occurred())
        return NULL;
    if (number < 0) {
        PyErr_SetString(PyExc_ValueError, "maxbuf is negative");
        return NULL;
    }
    reader->maxbuf = (size_t)number;
    Py_RETURN_NONE;
}

/* Sets what gets returns until a reply is complete, as the protocol has it by default. */
static void wait_by_default(struct reader *reader, unsigned int version) {
    PyObject *waiting = version == 3 ? reader->values.module->no_reply : Py_False;
    Py_INCREF(waiting);
    replace(&reader->not_enough_data, waiting);
}

static PyObject *reader_set_protocol(struct reader *reader, PyObject *args) {
    unsigned int version;
    if (!PyArg_ParseTuple(args, "I:set_protocol", &version) || !is_ready(reader))
        return NULL;
    if (version != 2 && version != 3) {
        PyErr_SetString(PyExc_ValueError, "a protocol that is neither 2 nor 3");
        return NULL;
    }
    if (reader->is_begun) {
        PyErr_SetString(PyExc_ValueError, "the version cannot change inside a value");
        return NULL;
    }
    if (version != reader->version)
        scan_again(reader, version);
    if (reader->waits_by_default)
        wait_by_default(reader, version);
    Py_RETURN_NONE;
}

/* Returns the bytes of a word of a command that decides how it is answered. */
static bool word_bytes(PyObject *word, PyObject **held, Py_buffer *bytes) {
    *held = PyUnicode_Check(word) ? PyUnicode_AsUTF8String(word) : PyLong_Check(word) ? PyNumber_ToBase(word, 10) : NULL;
    if (*held && PyUnicode_Check(*held))
        replace(held, PyUnicode_AsUTF8String(*held));
    if (PyErr_Occurred())
        return false;
    return !PyObject_GetBuffer(*held ? *held : word, bytes, PyBUF_SIMPLE);
}

/* Sets the kind of a command with these words. Returns false with an exception if a word isn't a word. */
static bool kind_of(PyObject *words, uint32_t *kind) {
    Py_ssize_t count = PyTuple_Size(words);
    PyObject *held[2] = {NULL, NULL};
    Py_buffer bytes[2] = {{0}, {0}};
    Py_ssize_t read = 0, most = count < 2 ? count : 2;
    while (read < most && word_bytes(PyTuple_GetItem(words, read), &held[read], &bytes[read]))
        read++;
    if (read == most)
        *kind = resp_command_kind((size_t)count, read > 0 && bytes[0].len ? bytes[0].buf : (const uint8_t *)"",
                                  (size_t)bytes[0].len, read > 1 && bytes[1].len ? bytes[1].buf : (const uint8_t *)"",
                                  (size_t)bytes[1].len);
    for (Py_ssize_t at = 0; at < read; at++)
        PyBuffer_Release(&bytes[at]);
    Py_XDECREF(held[0]);
    Py_XDECREF(held[1]);
    return read == most;
}

/* Sets the kind that the arguments of queue() name: none for a command with one reply, the version of a HELLO, or the
 * words of a command. */
static bool kind_of_queued(PyObject *args, uint32_t *kind) {
    Py_ssize_t count = PyTuple_Size(args);
    *kind = RESP_COMMAND_ONE_REPLY;
    if (!count)
        return true;
    PyObject *first = PyTuple_GetItem(args, 0);
    if (count > 1 || !PyLong_Check(first))
        return kind_of(args, kind);
    unsigned long hello = PyLong_AsUnsignedLong(first);
    if (hello == (unsigned long)-1 && PyErr_Occurred())
        return false;
    /* The kinds that aren't versions have names of words. */
    *kind = hello <= 3 ? (uint32_t)hello : 4;
    return true;
}

static PyObject *pairing_queue(struct reader *reader, PyObject *args) {
    uint32_t kind;
    uint64_t number;
    if (!kind_of_queued(args, &kind) || !is_ready(reader))
        return NULL;
    switch (kind == RESP_COMMAND_SUBSCRIBING
                ? resp_pairing_queue_pushes(&reader->pairing, (uint64_t)PyTuple_Size(args) - 1, &number)
                : resp_pairing_queue(&reader->pairing, kind, &number)) {
    case RESP_OK:
        return PyLong_FromUnsignedLongLong(number);
    case RESP_CAUSE_PUSHES_WAIT:
        PyErr_SetString(PyExc_ValueError, "a command that pushes answer waits");
        return NULL;
    case RESP_CAUSE_UNPAIRED:
        PyErr_SetString(PyExc_ValueError, "a command that does not have exactly one reply, or that changes the protocol");
        return NULL;
    case RESP_CAUSE_HELLO_WAITS:
        PyErr_SetString(PyExc_ValueError, "a HELLO with a protocol waits");
        return NULL;
    case RESP_CAUSE_TOO_MANY:
        PyErr_SetString(PyExc_OverflowError, "the numbers of commands are used up");
        return NULL;
    default:
        PyErr_SetString(PyExc_ValueError, "a protocol that is neither 2 nor 3");
        return NULL;
    }
}

static PyObject *pairing_protocol(struct reader *reader, PyObject *args) {
    (void)args;
    return PyLong_FromUnsignedLong(reader->pairing.version);
}

/* The arguments of a reader. */
struct words {
    PyObject *protocol_error, *reply_error, *not_enough_data;
    const char *encoding, *errors;
    unsigned int version;
    struct resp_limits limits;
    int lists_sets;
};

/* Checks the version and the limits. */
static bool are_right(unsigned int version, const struct resp_limits *limits) {
    size_t size, lengths[1] = {0};
    if (version != 2 && version != 3)
        PyErr_SetString(PyExc_ValueError, "a protocol that is neither 2 nor 3");
    else if (resp_command_size(limits, lengths, 1, &size) == RESP_CAUSE_BAD_LIMITS)
        PyErr_SetString(PyExc_ValueError, "a limit is out of range");
    else
        return true;
    return false;
}

static bool read_words(struct words *to, const struct module *module, PyObject *args, PyObject *words) {
    static char *names[] = {"protocolError", "replyError", "encoding", "errors", "notEnoughData", "protocol",
                            "depth", "length", "total", "items", "streamed", "doubles", "convertSetsToLists", NULL};
    struct resp_limits limits;
    resp_limits_standard(&limits);
    unsigned long long depth = limits.depth, length = limits.length, total = limits.total, items = limits.items;
    int streamed = limits.streamed, doubles = 1;
    *to = (struct words){module->protocol_error, module->reply_error, NULL, NULL, NULL, 2, limits, 0};
    if (!PyArg_ParseTupleAndKeywords(args, words, "|OOzzOIKKKKppp:Reader", names, &to->protocol_error, &to->reply_error,
                                     &to->encoding, &to->errors, &to->not_enough_data, &to->version, &depth, &length,
                                     &total, &items, &streamed, &doubles, &to->lists_sets))
        return false;
    to->limits = (struct resp_limits){depth, length, total, items, streamed, doubles};
    if (PyCallable_Check(to->protocol_error) && PyCallable_Check(to->reply_error))
        return true;
    PyErr_SetString(PyExc_TypeError, "an error that can't be called");
    return false;
}

/* Copies a text that may be NULL. Returns false if memory is out. */
static bool copy_text(char **to, const char *text) {
    size_t size = text ? strlen(text) + 1 : 0;
    *to = text ? PyMem_Malloc(size) : NULL;
    if (*to)
        memcpy(*to, text, size);
    else if (text)
        PyErr_NoMemory();
    return *to || !text;
}

/* Returns how strings of this encoding are read. UTF-8 has a faster way. */
static enum reading reading_of(const char *encoding) {
    static const char *const names[] = {"utf-8", "utf8", "UTF-8", "UTF8"};
    for (size_t at = 0; encoding && at < sizeof names / sizeof *names; at++)
        if (!strcmp(encoding, names[at]))
            return AS_UTF8;
    return encoding ? AS_ENCODED : AS_BYTES;
}

/* Sets how strings are decoded. An error changes nothing. */
static bool set_texts(struct values *values, const char *encoding, const char *errors) {
    char *copy = NULL, *errors_copy = NULL;
    if (encoding && !PyCodec_KnownEncoding(encoding)) {
        PyErr_Format(PyExc_LookupError, "unknown encoding: %s", encoding);
        return false;
    }
    PyObject *handler = PyCodec_LookupError(errors);
    Py_XDECREF(handler);
    if (!handler || !copy_text(&copy, encoding) || !copy_text(&errors_copy, errors)) {
        PyMem_Free(copy);
        return false;
    }
    PyMem_Free(values->encoding);
    PyMem_Free(values->errors);
    values->encoding = copy;
    values->errors = errors_copy;
    values->reads = reading_of(copy);
    return true;
}

static PyObject *reader_set_encoding(struct reader *reader, PyObject *args, PyObject *words) {
    static char *names[] = {"encoding", "errors", NULL};
    const char *encoding = NULL, *errors = NULL;
    if (!PyArg_ParseTupleAndKeywords(args, words, "|zz:set_encoding", names, &encoding, &errors) || !is_ready(reader) ||
        !set_texts(&reader->values, encoding, errors))
        return NULL;
    Py_RETURN_NONE;
}

/* Frees what begin_reading has allocated. */
static void end_reading(struct reader *reader) {
    PyMem_Free(reader->scanner.memory);
    PyMem_Free(reader->values.open);
    PyMem_Free(reader->events);
    reader->scanner.memory = NULL;
    reader->values.open = NULL;
    reader->events = NULL;
}

static struct PyModuleDef MODULE;

/* The attribute of the types of readers that has the module. PyType_GetModule is missing in Python 3.8. */
#define MODULE_NAME "__resp__"

/* Sets the module of a reader to that of its type. Returns false with an exception if the type has lost it. */
static bool find_module(struct reader *reader) {
    PyObject *module = PyObject_GetAttrString((PyObject *)Py_TYPE((PyObject *)reader), MODULE_NAME);
    if (module && (!PyModule_Check(module) || PyModule_GetDef(module) != &MODULE)) {
        PyErr_SetString(PyExc_TypeError, "the attribute " MODULE_NAME " of the type is not the module of resp");
        replace(&module, NULL);
    }
    if (!module)
        return false;
    replace(&reader->module, module);
    reader->values.module = PyModule_GetState(module);
    return true;
}

/* Resets the reader: nothing was fed. */
static void begin(struct reader *reader, const struct words *given) {
    /* The objects that are released may run Python code. */
    reader->is_reading = true;
    reader->is_begun = false;
    forget(&reader->values);
    end_reading(reader);
    reader->limits = given->limits;
    reader->maxbuf = MOST_KEPT;
    reader->values.lists_sets = given->lists_sets;
    reader->values.is_too_long = false;
    drop_fed(reader);
    begin_scanning(reader, given->version);
    Py_INCREF(given->protocol_error);
    replace(&reader->protocol_error, given->protocol_error);
    Py_INCREF(given->reply_error);
    replace(&reader->values.reply_error, given->reply_error);
    reader->waits_by_default = !given->not_enough_data;
    if (reader->waits_by_default) {
        wait_by_default(reader, given->version);
    } else {
        Py_INCREF(given->not_enough_data);
        replace(&reader->not_enough_data, given->not_enough_data);
    }
    reader->is_reading = false;
}

static int reader_init(struct reader *reader, PyObject *args, PyObject *words) {
    struct words given;
    if (!find_module(reader) || !read_words(&given, reader->values.module, args, words) ||
        (reader->not_enough_data && !is_ready(reader)) || !are_right(given.version, &given.limits) ||
        !set_texts(&reader->values, given.encoding, given.errors))
        return -1;
    begin(reader, &given);
    return 0;
}

static int pairing_init(struct reader *reader, PyObject *args, PyObject *words) {
    if (reader_init(reader, args, words))
        return -1;
    reader->pairs = true;
    resp_pairing_init(&reader->pairing);
    return 0;
}

/* The next two functions support Python's garbage collector. Since Python 3.9 a reader has to name its type. */

static bool visits_type;

static int reader_traverse(struct reader *reader, visitproc visit, void *arg) {
    if (visits_type)
        Py_VISIT(Py_TYPE((PyObject *)reader));
    Py_VISIT(reader->module);
    Py_VISIT(reader->protocol_error);
    Py_VISIT(reader->values.reply_error);
    Py_VISIT(reader->not_enough_data);
    Py_VISIT(reader->values.failure);
    for (size_t at = 0; at < reader->values.count; at++)
        Py_VISIT(reader->values.start[at]);
    return 0;
}

static int reader_clear(struct reader *reader) {
    /* Without this object no call may use the reader. */
    Py_CLEAR(reader->not_enough_data);
    forget(&reader->values);
    Py_CLEAR(reader->lent);
    Py_CLEAR(reader->protocol_error);
    Py_CLEAR(reader->values.reply_error);
    return 0;
}

static void reader_dealloc(struct reader *reader) {
    PyTypeObject *type = Py_TYPE((PyObject *)reader);
    struct values *values = &reader->values;
    PyObject_GC_UnTrack(reader);
    reader_clear(reader);
    Py_CLEAR(reader->module);
    PyMem_Free(reader->kept.start);
    end_reading(reader);
    PyMem_Free(values->start);
    PyMem_Free(values->text.start);
    PyMem_Free(values->encoding);
    PyMem_Free(values->errors);
    ((freefunc)PyType_GetSlot(type, Py_tp_free))(reader);
    Py_DECREF(type);
}

/* Appends the head of a command of this many words. */
static bool append_head(struct bytes *bytes, size_t words) {
    uint8_t head[24];
    size_t size = 0;
    return resp_write_head(head, sizeof head, RESP_ARRAY, words, &size) == RESP_OK && append(bytes, head, size);
}

/* Appends a bulk string after the head. */
static bool append_bulk(struct bytes *bytes, const uint8_t *start, size_t length) {
    size_t size = 0, room = bytes->room - bytes->length;
    uint32_t cause = resp_write_bulk(bytes->start + bytes->length, room, start, length, &size);
    if (cause == RESP_CAUSE_NO_ROOM) {
        if (!reserve(bytes, size))
            return false;
        resp_write_bulk(bytes->start + bytes->length, size, start, length, &size);
    }
    bytes->length += size;
    return true;
}

/* Returns the bytes of a word that is no bytes: those of a text in UTF-8, or the text of a number. */
static PyObject *word_of(PyObject *word) {
    if (PyUnicode_Check(word))
        return PyUnicode_AsUTF8String(word);
    PyObject *text = NULL;
    if (PyLong_Check(word) && !PyBool_Check(word)) {
        text = PyNumber_ToBase(word, 10);
    } else if (PyFloat_Check(word)) {
        PyObject *number = PyFloat_FromDouble(PyFloat_AsDouble(word));
        text = number ? PyObject_Str(number) : NULL;
        Py_XDECREF(number);
    } else {
        PyErr_Format(PyExc_TypeError, "a word of a command is bytes, a buffer, str, int or float, not %S", Py_TYPE(word));
    }
    PyObject *made = text ? PyUnicode_AsUTF8String(text) : NULL;
    Py_XDECREF(text);
    return made;
}

/* Appends the bytes of an object with a buffer. */
static bool append_buffer(struct bytes *bytes, PyObject *word) {
    Py_buffer buffer;
    if (PyObject_GetBuffer(word, &buffer, PyBUF_SIMPLE))
        return false;
    bool is_added = append_bulk(bytes, buffer.len ? buffer.buf : (const uint8_t *)"", (size_t)buffer.len);
    PyBuffer_Release(&buffer);
    return is_added;
}

/* Returns whether an object is of a type that word_of reads. */
static bool is_text_or_number(PyObject *word) { return PyUnicode_Check(word) || PyLong_Check(word) || PyFloat_Check(word); }

/* Appends a word of a command. */
static bool append_word(struct bytes *bytes, PyObject *word) {
    if (!is_text_or_number(word)) {
        if (append_buffer(bytes, word))
            return true;
        if (!PyErr_ExceptionMatches(PyExc_TypeError))
            return false;
        PyErr_Clear();
    }
    PyObject *made = word_of(word);
    bool is_added = made && append_buffer(bytes, made);
    Py_XDECREF(made);
    return is_added;
}

static PyObject *pack(PyObject *module, PyObject *words) {
    (void)module;
    struct bytes bytes = {NULL, 0, 0};
    Py_ssize_t count = PyTuple_Size(words);
    PyObject *packed = NULL;
    if (count == 0) {
        PyErr_SetString(PyExc_ValueError, "a command without a word");
        return NULL;
    }
    bool is_packed = append_head(&bytes, (size_t)count);
    for (Py_ssize_t at = 0; is_packed && at < count; at++)
        is_packed = append_word(&bytes, PyTuple_GetItem(words, at));
    if (is_packed)
        packed = PyBytes_FromStringAndSize((const char *)bytes.start, (Py_ssize_t)bytes.length);
    PyMem_Free(bytes.start);
    return packed;
}

#define FLAGS (Py_TPFLAGS_DEFAULT | Py_TPFLAGS_BASETYPE | Py_TPFLAGS_HAVE_GC)

static PyMethodDef READER_METHODS[] = {
    {"feed", (PyCFunction)reader_feed, METH_FASTCALL,
     "feed(bytes, from=0, length=-1)\n--\n\nAdds bytes that were received, or a slice of them."},
    {"gets", (PyCFunction)reader_gets, METH_FASTCALL,
     "gets(shouldDecode=True)\n--\n\nReturns the next reply, or notEnoughData if it isn't complete. Raises protocolError at the first byte\n"
     "that no reply can contain there, with the attributes cause and at. Every later call raises it again."},
    {"has_data", (PyCFunction)reader_has_data, METH_NOARGS,
     "has_data()\n--\n\nReturns whether bytes wait to be read, or a reply was begun."},
    {"set_protocol", (PyCFunction)reader_set_protocol, METH_VARARGS,
     "set_protocol(protocol)\n--\n\nReads the next replies in protocol 2 or 3. Raises ValueError inside a reply."},
    {"set_encoding", (PyCFunction)(void (*)(void))reader_set_encoding, METH_VARARGS | METH_KEYWORDS,
     "set_encoding(encoding=None, errors=None)\n--\n\nSets how strings are decoded. Raises LookupError if Python knows no such\n"
     "encoding or error handler."},
    {"len", (PyCFunction)reader_len, METH_NOARGS, "len()\n--\n\nReturns the number of bytes that were fed and not read yet."},
    {"getmaxbuf", (PyCFunction)reader_getmaxbuf, METH_NOARGS,
     "getmaxbuf()\n--\n\nReturns the most bytes of memory that the reader keeps for the next pieces, or 0 for any number."},
    {"setmaxbuf", (PyCFunction)reader_setmaxbuf, METH_O,
     "setmaxbuf(most)\n--\n\nSets that number. None sets the number that a new reader has."},
    {NULL, NULL, 0, NULL},
};

static PyType_Slot READER_SLOTS[] = {
    {Py_tp_init, reader_init},
    {Py_tp_dealloc, reader_dealloc},
    {Py_tp_traverse, reader_traverse},
    {Py_tp_clear, reader_clear},
    {Py_tp_methods, READER_METHODS},
    {Py_tp_doc, "Reader(protocolError, replyError, encoding=None, errors=None, notEnoughData=.., protocol=2, depth=32,\n"
                "       length=536870912, total=1073741824, items=1099511627776, streamed=True, doubles=True,\n"
                "       convertSetsToLists=False)\n--\n\n"
                "Reads replies of RESP2 or RESP3 from pieces of any size."},
    {0, NULL},
};

static PyType_Spec READER = {"resp.Reader", sizeof(struct reader), 0, FLAGS, READER_SLOTS};

static PyMethodDef PAIRING_METHODS[] = {
    {"feed", (PyCFunction)reader_feed, METH_FASTCALL,
     "feed(bytes, from=0, length=-1)\n--\n\nAdds bytes that were received, or a slice of them."},
    {"gets", (PyCFunction)reader_gets, METH_FASTCALL,
     "gets(shouldDecode=True)\n--\n\nReturns (number, reply): the next reply with the number of its command, or None for a push. Else as\n"
     "Reader.gets. Raises protocolError with the cause Unasked if no command asked for the value; after a command is queued\n"
     "the value can be read."},
    {"has_data", (PyCFunction)reader_has_data, METH_NOARGS,
     "has_data()\n--\n\nReturns whether bytes wait to be read, or a reply was begun."},
    {"queue", (PyCFunction)pairing_queue, METH_VARARGS,
     "queue(*words)\n--\n\nCounts a command of these words that is sent. Returns the number of its reply, from 1. Raises\n"
     "ValueError for a command that does not have exactly one reply or that changes the protocol (MONITOR, SYNC, PSYNC, RESET,\n"
     "CLIENT REPLY, and in protocol 2 SUBSCRIBE, PSUBSCRIBE, SSUBSCRIBE and their UN- forms), and for a HELLO with a protocol or\n"
     "a command that pushes answer while another one waits.\n\n"
     "queue() counts a command that has exactly one reply, and queue(2) or queue(3) a HELLO that asks for this protocol."},
    {"protocol", (PyCFunction)pairing_protocol, METH_NOARGS,
     "protocol()\n--\n\nReturns the protocol: 2, or the one of the last HELLO that was answered without an error."},
    {NULL, NULL, 0, NULL},
};

static PyType_Slot PAIRING_SLOTS[] = {
    {Py_tp_init, pairing_init},
    {Py_tp_dealloc, reader_dealloc},
    {Py_tp_traverse, reader_traverse},
    {Py_tp_clear, reader_clear},
    {Py_tp_methods, PAIRING_METHODS},
    {Py_tp_doc, "Pairing(..)\n--\n\nA Reader that knows which command each reply answers, and reads each reply in its protocol. It\n"
                "accepts the same arguments. The protocol is 2 until a HELLO is answered."},
    {0, NULL},
};

static PyType_Spec PAIRING = {"resp.Pairing", sizeof(struct reader), 0, FLAGS, PAIRING_SLOTS};

static PyMethodDef METHODS[] = {
    {"pack", pack, METH_VARARGS, "pack(*words)\n--\n\nReturns the bytes of a command. A word is bytes or another buffer, a str, which is encoded in\n"
                                "UTF-8, or an int or float, which is converted to text. Any other type raises TypeError."},
    {NULL, NULL, 0, NULL},
};

/* Adds a name to the module. Keeps our own reference. */
static bool add_name(PyObject *module, const char *name, PyObject *value) {
    if (!value)
        return false;
    Py_INCREF(value);
    if (!PyModule_AddObject(module, name, value))
        return true;
    Py_DECREF(value);
    return false;
}

/* Adds a type to the module. */
static bool add_type(PyObject *module, const char *name, PyType_Spec *spec) {
    PyObject *type = PyType_FromSpec(spec);
    bool is_added = type && !PyObject_SetAttrString(type, MODULE_NAME, module) && add_name(module, name, type);
    Py_XDECREF(type);
    return is_added;
}

static PyObject *no_reply_repr(PyObject *self) {
    (void)self;
    return PyUnicode_FromString("resp.NO_REPLY");
}

static int no_reply_bool(PyObject *self) {
    (void)self;
    return 0;
}

static PyType_Slot NO_REPLY_SLOTS[] = {
    {Py_tp_repr, no_reply_repr},
    {Py_nb_bool, no_reply_bool},
    {Py_tp_doc, "The type of NO_REPLY, which gets returns in protocol 3 until a reply is complete. It is false."},
    {0, NULL},
};

static PyType_Spec NO_REPLY = {"resp.NoReply", sizeof(PyObject), 0, Py_TPFLAGS_DEFAULT, NO_REPLY_SLOTS};

/* Makes the object that stands for no reply. */
static PyObject *make_no_reply(void) {
    PyObject *type = PyType_FromSpec(&NO_REPLY);
    PyObject *made = type ? PyObject_CallFunctionObjArgs(type, NULL) : NULL;
    Py_XDECREF(type);
    return made;
}

/* Makes a type of lists. With the name of the package its values can be pickled. */
static PyObject *make_list_type(const char *name, const char *doc) {
    return PyObject_CallFunction((PyObject *)&PyType_Type, "s(O){ssss}", name, (PyObject *)&PyList_Type, "__doc__", doc,
                                 "__module__", "resp");
}

static bool make_usual(struct module *to) {
    if (!(to->ok = PyBytes_FromString("OK")))
        return false;
    for (long at = 0; at < MOST_SMALL; at++)
        if (!(to->small[at] = PyLong_FromLong(at)))
            return false;
    return true;
}

static int fill_module(PyObject *module) {
    struct module *to = PyModule_GetState(module);
    PyObject *version = PySys_GetObject("hexversion");
    visits_type = version && PyLong_AsLong(version) >= 0x03090000;
    PyObject *error = PyErr_NewException("resp.RespError", NULL, NULL);
    if (!error)
        return -1;
    to->protocol_error = PyErr_NewException("resp.ProtocolError", error, NULL);
    to->reply_error = PyErr_NewException("resp.ReplyError", error, NULL);
    to->push = make_list_type("Push", "The members of a push.");
    to->pairs = make_list_type("Pairs", "The pairs of a map with keys that are equal in Python.");
    to->no_reply = make_no_reply();
    bool is_filled = make_usual(to) && add_name(module, "RespError", error) &&
                     add_name(module, "ProtocolError", to->protocol_error) &&
                     add_name(module, "ReplyError", to->reply_error) && add_name(module, "Push", to->push) &&
                     add_name(module, "Pairs", to->pairs) && add_name(module, "NO_REPLY", to->no_reply) &&
                     add_type(module, "Reader", &READER) && add_type(module, "Pairing", &PAIRING) &&
                     !PyModule_AddStringConstant(module, "__version__", RESP_VERSION);
    Py_DECREF(error);
    return is_filled ? 0 : -1;
}

static int module_traverse(PyObject *module, visitproc visit, void *arg) {
    struct module *to = PyModule_GetState(module);
    Py_VISIT(to->protocol_error);
    Py_VISIT(to->reply_error);
    Py_VISIT(to->push);
    Py_VISIT(to->pairs);
    Py_VISIT(to->no_reply);
    return 0;
}

/* Readers may outlive this call, so they keep what makes their values until the module is freed. */
static void module_free(void *module) {
    struct module *to = PyModule_GetState(module);
    if (!to)
        return;
    Py_CLEAR(to->protocol_error);
    Py_CLEAR(to->reply_error);
    Py_CLEAR(to->push);
    Py_CLEAR(to->pairs);
    Py_CLEAR(to->no_reply);
    Py_CLEAR(to->ok);
    for (size_t at = 0; at < MOST_SMALL; at++)
        Py_CLEAR(to->small[at]);
}

static PyModuleDef_Slot MODULE_SLOTS[] = {
    {Py_mod_exec, fill_module},
    {0, NULL},
};

static struct PyModuleDef MODULE = {
    PyModuleDef_HEAD_INIT, "resp._resp", "The compiled part of the package resp.", sizeof(struct module), METHODS, MODULE_SLOTS,
    module_traverse, NULL, module_free,
};

PyMODINIT_FUNC PyInit__resp(void) { return PyModuleDef_Init(&MODULE); }
