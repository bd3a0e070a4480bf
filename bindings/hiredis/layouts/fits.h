/* Finds out which layout a hiredis has. */
#ifndef LAYOUTS_FITS_H
#define LAYOUTS_FITS_H

#include <stdbool.h>
#include <stddef.h>

/* The functions of a reader. */
struct hiredis_calls {
    void *(*create)(void *functions);
    void (*free)(void *reader);
    int (*feed)(void *reader, const char *more, size_t length);
    int (*get)(void *reader, void **reply);
};

/* Return whether the readers of a hiredis have this layout. `has_allocators` is whether a program can replace its
 * allocators. */
bool hiredis_0_14_fits(const struct hiredis_calls *theirs, bool has_allocators);
bool hiredis_1_fits(const struct hiredis_calls *theirs, bool has_allocators);

#endif
