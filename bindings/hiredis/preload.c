/* A shared library for LD_PRELOAD. It has the functions of hiredis' reader, which the hiredis of a process then calls in
 * place of its own. It has read.c in two layouts, and takes the one that this hiredis has. If none fits, it ends the
 * process with a message. */
#define _GNU_SOURCE
#include <dlfcn.h>
#include <errno.h>
#include <link.h>
#include <stdbool.h>
#include <stdio.h>
#include <stdlib.h>
#include <string.h>

#include "layouts/alloc.h"
#include "layouts/fits.h"

/* The functions of read.c in each layout. Readers and tables of functions of both layouts are without a type here. */
#define DECLARE(layout)                                                                  \
    void *layout##_create(void *functions);                                              \
    void layout##_free(void *reader);                                                    \
    int layout##_feed(void *reader, const char *more, size_t length);                    \
    int layout##_get(void *reader, void **reply)

DECLARE(hiredis_0_14);
DECLARE(hiredis_1);

struct layout {
    struct hiredis_calls ours;
    bool (*fits)(const struct hiredis_calls *theirs, bool has_allocators);
};

#define LAYOUT(name) {{name##_create, name##_free, name##_feed, name##_get}, name##_fits}

static const struct layout LAYOUTS[] = {LAYOUT(hiredis_0_14), LAYOUT(hiredis_1)};

/* The most files with hiredis whose readers are replaced in a process. */
#define MOST_FOUND 16

/* The layout of all readers of the process, or NULL before the first of them; and the functions of each hiredis whose
 * readers were replaced. */
static const struct layout *chosen;
static struct hiredis_calls found[MOST_FOUND];
static size_t count;

const struct hiredis_allocators *hiredis_allocators;

/* The calls that hiredis declares in read.h. */
void *redisReaderCreateWithFunctions(void *functions);
void redisReaderFree(void *reader);
int redisReaderFeed(void *reader, const char *more, size_t length);
int redisReaderGetReply(void *reader, void **reply);

/* Ends the process, since the reader of this file cannot be replaced. */
static _Noreturn void refuse(const char *file, const char *why) {
    fprintf(stderr, "resp-preload: %s: %s %s\n", program_invocation_short_name, file, why);
    _Exit(126);
}

/* Finds a name of the hiredis that serves the file at this address: its own one, that of a library below it, or that of
 * the program. Returns NULL if there is none. */
static void *find(const void *caller, const char *name) {
    struct link_map *map = NULL;
    Dl_info about;
    void *result = NULL;
    if (dladdr1(caller, &about, (void **)&map, RTLD_DL_LINKMAP) && map && *map->l_name) {
        void *file = dlopen(map->l_name, RTLD_LAZY | RTLD_NOLOAD);
        if (file) {
            result = dlsym(file, name);
            dlclose(file);
        }
    }
    return result ? result : dlsym(RTLD_NEXT, name);
}

/* Finds the functions of the hiredis that serves the file at this address. */
static struct hiredis_calls find_calls(const void *caller) {
    struct hiredis_calls theirs;
    *(void **)&theirs.create = find(caller, "redisReaderCreateWithFunctions");
    *(void **)&theirs.free = find(caller, "redisReaderFree");
    *(void **)&theirs.feed = find(caller, "redisReaderFeed");
    *(void **)&theirs.get = find(caller, "redisReaderGetReply");
    return theirs;
}

/* Returns the file that has this function or variable. */
static const char *file_of(const void *place) {
    Dl_info about;
    return place && dladdr(place, &about) ? about.dli_fname : "hiredis";
}

/* Returns whether readers of the hiredis with this function were replaced. */
static bool is_found(const void *get) {
    for (size_t at = 0; at < count; at++)
        if (*(void **)&found[at].get == get)
            return true;
    return false;
}

/* Sets the layout and the allocators of the process to those of the hiredis that serves the file at this address. */
static void choose(const void *caller) {
    static const struct hiredis_allocators usual = {malloc, calloc, realloc, strdup, free};
    struct hiredis_calls theirs = find_calls(caller);
    const void *get = *(void **)&theirs.get;
    const char *file = file_of(get);
    if (is_found(get))
        return;
    if (!theirs.create || !theirs.free || !theirs.feed || !theirs.get)
        refuse(file, "has no reader");
    const struct hiredis_allocators *allocators = find(caller, "hiredisAllocFns");
    const struct layout *layout = LAYOUTS, *end = LAYOUTS + sizeof LAYOUTS / sizeof *LAYOUTS;
    while (layout < end && !layout->fits(&theirs, allocators))
        layout++;
    if (layout == end)
        refuse(file, "has a hiredis of another version than 0.13 to 1.2");
    if ((chosen && chosen != layout) || count == MOST_FOUND)
        refuse(file, "has another hiredis than the process has already");
    hiredis_allocators = allocators ? allocators : &usual;
    found[count++] = theirs;
    chosen = layout;
}

/* Refuses a program that has hiredis inside it. It calls its own reader, whatever is loaded before it. */
__attribute__((constructor)) static void begin(void) {
    Dl_info first, ours;
    void *reader = dlsym(RTLD_DEFAULT, "redisReaderGetReply");
    if (dladdr(reader, &first) && dladdr(&chosen, &ours) && first.dli_fbase != ours.dli_fbase)
        refuse(first.dli_fname, "has hiredis inside it and calls its own reader");
}

/* Names the files that have a hiredis inside them, if none of their readers was replaced: a file may call its own functions
 * without a look at the table of functions. */
__attribute__((destructor)) static void tell(void) {
    struct link_map *map = NULL;
    if (dlinfo(dlopen(NULL, RTLD_LAZY), RTLD_DI_LINKMAP, &map))
        return;
    for (; map; map = map->l_next) {
        void *file = *map->l_name ? dlopen(map->l_name, RTLD_LAZY | RTLD_NOLOAD) : NULL;
        void *get = file ? dlsym(file, "redisReaderGetReply") : NULL;
        bool is_own = get && !strcmp(file_of(get), map->l_name) && strcmp(file_of(&count), map->l_name);
        if (is_own && !strstr(map->l_name, "/libhiredis.so") && !is_found(get))
            fprintf(stderr, "resp-preload: %s: %s has hiredis inside it, and none of its readers was replaced\n",
                    program_invocation_short_name, map->l_name);
    }
}

void *redisReaderCreateWithFunctions(void *functions) {
    choose(__builtin_return_address(0));
    return chosen->ours.create(functions);
}

void redisReaderFree(void *reader) {
    if (reader)
        chosen->ours.free(reader);
}

int redisReaderFeed(void *reader, const char *more, size_t length) { return chosen->ours.feed(reader, more, length); }

int redisReaderGetReply(void *reader, void **reply) { return chosen->ours.get(reader, reply); }
