/* The allocators of the hiredis in the process, which a program may replace. preload.c finds them. */
#ifndef LAYOUTS_ALLOC_H
#define LAYOUTS_ALLOC_H

#include <stddef.h>

struct hiredis_allocators {
    void *(*malloc)(size_t size);
    void *(*calloc)(size_t count, size_t size);
    void *(*realloc)(void *start, size_t size);
    char *(*strdup)(const char *text);
    void (*free)(void *start);
};

extern const struct hiredis_allocators *hiredis_allocators;

#define hi_malloc hiredis_allocators->malloc
#define hi_calloc hiredis_allocators->calloc
#define hi_realloc hiredis_allocators->realloc
#define hi_free hiredis_allocators->free

#endif
