/* Compares a reader of a hiredis with a layout of read.h. */
#include "read.h"
#include "fits.h"

#include <malloc.h>

/* Returns whether a hiredis reads doubles, which the versions before 1.0 do not know. */
static bool reads_doubles(const struct hiredis_calls *theirs) {
    static const char text[] = ",1.5\r\n";
    void *reply = NULL, *reader = theirs->create(NULL);
    bool is_read = reader && theirs->feed(reader, text, sizeof text - 1) == REDIS_OK &&
                   theirs->get(reader, &reply) == REDIS_OK && reply;
    if (reader)
        theirs->free(reader);
    return is_read;
}

#if HIREDIS_LAYOUT == 1
static bool has_layout(const redisReader *reader) {
    return reader->maxelements == REDIS_READER_MAX_ARRAY_ELEMENTS && reader->task && reader->tasks == 9;
}

bool NAMED(fits)(const struct hiredis_calls *theirs, bool has_allocators) {
    bool may_fit = has_allocators && reads_doubles(theirs);
#else
/* Without other allocators, the reader is memory of malloc. */
static bool has_layout(const redisReader *reader) { return malloc_usable_size((void *)reader) >= sizeof *reader; }

bool NAMED(fits)(const struct hiredis_calls *theirs, bool has_allocators) {
    bool may_fit = !has_allocators && !reads_doubles(theirs);
#endif
    redisReplyObjectFunctions functions = {0};
    redisReader *reader = may_fit ? theirs->create(&functions) : NULL;
    bool fits = reader && has_layout(reader) && reader->maxbuf == REDIS_READER_MAX_BUF && reader->ridx == -1 &&
                reader->fn == &functions && !reader->reply && !reader->privdata;
    if (reader)
        theirs->free(reader);
    return fits;
}
