/* What Python has exported since 3.8, and declares for its stable ABI since a later version only. The struct and the
 * functions are the same in all of these versions. */
#ifndef OLDER_H
#define OLDER_H

#include <Python.h>

typedef struct {
    void *buf;
    PyObject *obj;
    Py_ssize_t len, itemsize;
    int readonly, ndim;
    char *format;
    Py_ssize_t *shape, *strides, *suboffsets;
    void *internal;
} Py_buffer;

#define PyBUF_SIMPLE 0

PyAPI_FUNC(int) PyObject_GetBuffer(PyObject *object, Py_buffer *buffer, int flags);
PyAPI_FUNC(void) PyBuffer_Release(Py_buffer *buffer);

#ifndef METH_FASTCALL
#define METH_FASTCALL 0x0080
#endif

#endif
