/* A buffer of bytes that grows. */
#ifndef BYTES_H
#define BYTES_H

#include <Python.h>

#include <stdbool.h>
#include <stdint.h>
#include <string.h>

/* The most memory that is kept for the next bytes, unless the caller sets another number. */
#define MOST_KEPT 65536

struct bytes {
    uint8_t *start;
    size_t length, room;
};

/* Makes room for `length` more bytes. If memory is out, nothing changes. */
static bool reserve(struct bytes *bytes, size_t length) {
    if (length > bytes->room - bytes->length) {
        size_t room = bytes->length + length;
        room = room < 512 ? 512 : room + room / 2;
        uint8_t *start = PyMem_Realloc(bytes->start, room);
        if (!start) {
            PyErr_NoMemory();
            return false;
        }
        bytes->start = start;
        bytes->room = room;
    }
    return true;
}

static bool append(struct bytes *bytes, const uint8_t *more, size_t length) {
    if (!reserve(bytes, length))
        return false;
    if (length)
        memcpy(bytes->start + bytes->length, more, length);
    bytes->length += length;
    return true;
}

/* Drops the bytes, and frees a buffer of more than `most` bytes. */
static void empty(struct bytes *bytes, size_t most) {
    bytes->length = 0;
    if (bytes->room > most) {
        PyMem_Free(bytes->start);
        bytes->start = NULL;
        bytes->room = 0;
    }
}

#endif
