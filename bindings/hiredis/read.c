/* Implements the functions of hiredis' read.h with the proved scanner. Replaces hiredis' own read.c.
 *
 * It reads both versions of the protocol, with doubles. It rejects streamed strings and aggregates,
 * since createArray needs the number of members first. It skips attributes: the reply is the value
 * that the attribute annotates. After an error a reader returns that error from every call. */
#include "read.h"
#include "resp.h"

#include <ctype.h>
#include <limits.h>
#include <math.h>
#include <stdbool.h>
#include <stdio.h>
#include <stdlib.h>
#include <string.h>

/* A program may replace the allocators of newer hiredis. */
#ifdef REDIS_READER_MAX_ARRAY_ELEMENTS
#include "alloc.h"
#else
#define hi_malloc malloc
#define hi_calloc calloc
#define hi_realloc realloc
#define hi_free free
#endif

/* If read.h is older and lacks a type of reply, another type replaces it. */
#ifdef REDIS_REPLY_DOUBLE
#define REPLY_MAP REDIS_REPLY_MAP
#define REPLY_SET REDIS_REPLY_SET
#else
#define REPLY_MAP REDIS_REPLY_ARRAY
#define REPLY_SET REDIS_REPLY_ARRAY
#endif
#ifdef REDIS_REPLY_PUSH
#define REPLY_PUSH REDIS_REPLY_PUSH
#else
#define REPLY_PUSH REDIS_REPLY_ARRAY
#endif
#ifdef REDIS_REPLY_BIGNUM
#define REPLY_BIG REDIS_REPLY_BIGNUM
#else
#define REPLY_BIG REDIS_REPLY_STRING
#endif
#ifdef REDIS_REPLY_VERB
#define REPLY_VERBATIM REDIS_REPLY_VERB
#else
#define REPLY_VERBATIM REDIS_REPLY_STRING
#endif

/* The greatest limit of depth. */
#define MOST_OPEN 128

/* Keeps code for rare cases out of the code that runs for each value. */
#ifdef __GNUC__
#define APART __attribute__((noinline))
#else
#define APART
#endif

/* The size of the buffer for a double, longer than any double. */
#define MOST_DOUBLE 512

/* The most events of one call to the scanner. */
#define MOST_EVENTS 64

/* The most memory that is reserved because of a length in a head. */
#define MOST_BELIEVED 65536

/* The frames for which a reader has room at first. */
#define FIRST_FRAMES 9

/* The top level, or an open aggregate. */
struct frame {
    /* The task that is passed to the create functions for the next value. */
    redisReadTask task;
    /* By how much the index grows after a value: 1 in an aggregate. */
    int step;
    /* Of an attribute: how many values are left before the value that it annotates. */
    uint64_t before;
};

struct reader {
    /* `buf` has `len` bytes. The first `pos` of them have been read. */
    redisReader base;
    struct resp_scanner scanner;
    size_t room;
    /* The events that haven't been read yet, for the bytes from `pos` on. RESP_MORE ends them. `taken`
     * is the end of the bytes that the scanner has read. */
    const struct resp_event *next;
    size_t taken;
    /* The error of the byte at `taken`, or RESP_OK; and whether the array of events was full. */
    uint32_t cause;
    bool is_full;
    /* The innermost frame, and the number of open attributes whose pairs are still being read. */
    struct frame *frame;
    size_t unread;
    /* How many bytes of the value the scanner had read before these events. */
    uint64_t before;
    /* The first byte of the current line, if an earlier call has read it, or 0. */
    char type;
    /* The kind of the current text. */
    uint32_t form;
    /* Whether a text is being read, and its bytes so far: at `start` of `buf`, or in `gathered`. */
    bool is_text;
    size_t start, length;
    bool is_gathered;
    char *gathered;
    size_t gathered_room;
    /* The array of events. It and the scanner's memory, which is behind it, are allocated when the first bytes arrive. */
    struct resp_event *events;
    /* The frames from the top level on: the first ones, or more of them in other memory. */
    struct frame *frames, *last_frame;
    struct frame first[FIRST_FRAMES];
};

/* The events of a reader that has no more of them. */
static const struct resp_event NOTHING = {.kind = RESP_MORE};

/* Stores the error and frees the reply that was begun. Returns false. */
static bool fail(struct reader *reader, int type, const char *text) {
    redisReader *base = &reader->base;
    if (base->reply && base->fn && base->fn->freeObject)
        base->fn->freeObject(base->reply);
    base->reply = NULL;
    hi_free(base->buf);
    base->buf = NULL;
    base->pos = base->len = reader->room = 0;
    base->err = type;
    snprintf(base->errstr, sizeof base->errstr, "%s", text);
    return false;
}

static bool out_of_memory(struct reader *reader) { return fail(reader, REDIS_ERR_OOM, "Out of memory"); }

static bool is_out_of_range(struct reader *reader) {
    return fail(reader, REDIS_ERR_PROTOCOL, "Multi-bulk length out of range");
}

/* Grows the buffer `*start` of `*room` bytes to at least `length` bytes. Returns false if memory is out. */
static bool reserve(char **start, size_t *room, size_t length) {
    if (length <= *room)
        return true;
    size_t more = length < SIZE_MAX / 2 ? 2 * length : length;
    char *grown = hi_realloc(*start, more < 512 ? 512 : more);
    if (!grown)
        return false;
    *start = grown;
    *room = more < 512 ? 512 : more;
    return true;
}

/* Returns the task of the current value, with this type. */
static inline redisReadTask *task_of(struct reader *reader, int type) {
    redisReadTask *task = &reader->frame->task;
    task->type = type;
    return task;
}

/* Stores the object of a top-level value. Other objects were stored by their parents. */
static inline bool keep(struct reader *reader, const redisReadTask *task, void *object) {
    if (!object)
        return out_of_memory(reader);
    if (!task->parent)
        reader->base.reply = object;
    return true;
}

/* Returns the object of a value if there is no create function for it. */
static void *kind(const redisReadTask *task) { return (void *)(size_t)task->type; }

/* Ends a value: the next value has the next index. */
static inline void end(struct reader *reader) {
    struct frame *frame = reader->frame;
    frame->task.idx += frame->step;
}

/* Ends a value that is skipped. */
static void end_unread(struct reader *reader) {
    struct frame *frame = reader->frame;
    if (frame->before && !--frame->before)
        reader->unread--;
    end(reader);
}

static bool add_null(struct reader *reader) {
    redisReplyObjectFunctions *fn = reader->base.fn;
    redisReadTask *task = task_of(reader, REDIS_REPLY_NIL);
    return keep(reader, task, fn && fn->createNil ? fn->createNil(task) : kind(task));
}

static inline bool add_integer(struct reader *reader, long long number) {
    redisReplyObjectFunctions *fn = reader->base.fn;
    redisReadTask *task = task_of(reader, REDIS_REPLY_INTEGER);
    return keep(reader, task, fn && fn->createInteger ? fn->createInteger(task, number) : kind(task));
}

static bool add_truth(struct reader *reader, bool truth) {
#ifdef REDIS_REPLY_BOOL
    redisReplyObjectFunctions *fn = reader->base.fn;
    redisReadTask *task = task_of(reader, REDIS_REPLY_BOOL);
    return keep(reader, task, fn && fn->createBool ? fn->createBool(task, truth) : kind(task));
#else
    return add_integer(reader, truth);
#endif
}

static inline bool add_string(struct reader *reader, int type, char *start, size_t length) {
    redisReplyObjectFunctions *fn = reader->base.fn;
    redisReadTask *task = task_of(reader, type);
    return keep(reader, task, fn && fn->createString ? fn->createString(task, start, length) : kind(task));
}

/* Adds a double. The scanner accepts only texts of the published grammar, and `-nan`. strtod reads them all. */
static APART bool add_double(struct reader *reader, char *start, size_t length) {
    char text[MOST_DOUBLE];
    if (length >= sizeof text)
        return fail(reader, REDIS_ERR_PROTOCOL, "Bad double value");
    memcpy(text, start, length);
    text[length] = '\0';
#ifdef REDIS_REPLY_DOUBLE
    redisReplyObjectFunctions *fn = reader->base.fn;
    redisReadTask *task = task_of(reader, REDIS_REPLY_DOUBLE);
    double number = strtod(text, NULL);
    return keep(reader, task, fn && fn->createDouble ? fn->createDouble(task, number, text, length) : kind(task));
#else
    return add_string(reader, REDIS_REPLY_STRING, start, length);
#endif
}

/* Appends bytes to the gathered text. */
static bool gather(struct reader *reader, const void *more, size_t length) {
    if (!reserve(&reader->gathered, &reader->gathered_room, reader->length + length))
        return out_of_memory(reader);
    memcpy(reader->gathered + reader->length, more, length);
    reader->length += length;
    return true;
}

/* Begins a text. The text of a verbatim string begins with its format, and of a big number with its sign. */
static bool begin_text(struct reader *reader, const struct resp_event *event) {
    reader->form = event->form;
    reader->is_text = true;
    reader->length = 0;
    reader->is_gathered = event->form == RESP_TEXT_VERBATIM || event->form == RESP_TEXT_BIG;
    if (event->form == RESP_TEXT_VERBATIM)
        return gather(reader, event->format, 3) && gather(reader, ":", 1);
    return event->form != RESP_TEXT_BIG || !event->number || gather(reader, "-", 1);
}

static bool add_part(struct reader *reader, const struct resp_event *event, size_t at) {
    if (reader->is_gathered)
        return gather(reader, resp_event_part(event, (const uint8_t *)reader->base.buf + at), event->part);
    /* The parts of a text are adjacent, and stay in the buffer until its end. */
    if (!reader->length)
        reader->start = at + (event->used - event->part);
    reader->length += event->part;
    return true;
}

/* Adds a complete text of this kind. A big number has its sign, a verbatim string its format. */
static inline bool add_text(struct reader *reader, uint32_t form, char *start, size_t length) {
    static const int types[] = {
        [RESP_TEXT_SIMPLE] = REDIS_REPLY_STATUS, [RESP_TEXT_ERROR] = REDIS_REPLY_ERROR,
        [RESP_TEXT_BULK] = REDIS_REPLY_STRING,   [RESP_TEXT_BULK_ERROR] = REDIS_REPLY_ERROR,
        [RESP_TEXT_VERBATIM] = REPLY_VERBATIM,   [RESP_TEXT_BIG] = REPLY_BIG,
    };
    if (form == RESP_TEXT_DOUBLE)
        return add_double(reader, start, length);
    return add_string(reader, types[form], start, length);
}

/* Ends a text that arrived in parts. */
static bool end_text(struct reader *reader) {
    static char none[] = "";
    if (reader->form == RESP_TEXT_BIG && !reader->length && !gather(reader, "0", 1))
        return false;
    char *start = !reader->length ? none : reader->is_gathered ? reader->gathered : reader->base.buf + reader->start;
    /* If it becomes a string, leave out the format. */
    size_t front = reader->form == RESP_TEXT_VERBATIM && REPLY_VERBATIM == REDIS_REPLY_STRING ? 4 : 0;
    return add_text(reader, reader->form, start + front, reader->length - front);
}

/* Returns whether an aggregate may have this number of members; `items` counts pairs if it is a map. */
static bool is_allowed(struct reader *reader, uint64_t items, uint64_t members) {
#ifdef REDIS_READER_MAX_ARRAY_ELEMENTS
    long long most = reader->base.maxelements;
    (void)members;
    return most <= 0 || items <= (uint64_t)most;
#else
    (void)reader;
    (void)items;
    return members <= INT_MAX;
#endif
}

/* Doubles the room for frames. Each frame of a member has a pointer to the frame of its aggregate. */
static APART bool grow_frames(struct reader *reader) {
    struct frame *frames = reader->frames;
    size_t count = (size_t)(reader->frame - frames) + 1, room = 2 * count;
    if (room > MOST_OPEN + 1)
        room = MOST_OPEN + 1;
    struct frame *grown = hi_malloc(room * sizeof *grown);
    if (!grown)
        return out_of_memory(reader);
    memcpy(grown, frames, count * sizeof *grown);
    for (size_t at = 1; at < count; at++)
        if (grown[at].task.parent)
            grown[at].task.parent = &grown[(struct frame *)grown[at].task.parent - frames].task;
    if (frames != reader->first)
        hi_free(frames);
    reader->frames = grown;
    reader->frame = grown + count - 1;
    reader->last_frame = grown + room - 1;
    return true;
}

/* Makes room for one more frame, which may move the others. */
static inline bool reserve_frame(struct reader *reader) {
    return reader->frame != reader->last_frame || grow_frames(reader);
}

/* Begins the frame of an aggregate other than an attribute. */
static inline bool begin_places(struct reader *reader) {
    if (!reserve_frame(reader))
        return false;
    redisReadTask *task = &reader->frame->task;
    struct frame *inner = ++reader->frame;
    *inner = (struct frame){.task = {.elements = -1, .parent = task, .privdata = reader->base.privdata}, .step = 1};
    return true;
}

/* Opens an aggregate other than an attribute. */
static inline bool open(struct reader *reader, const struct resp_event *event) {
    static const int types[] = {
        [RESP_ARRAY] = REDIS_REPLY_ARRAY, [RESP_SET] = REPLY_SET, [RESP_MAP] = REPLY_MAP, [RESP_PUSH] = REPLY_PUSH,
    };
    redisReplyObjectFunctions *fn = reader->base.fn;
    uint64_t members = event->form == RESP_MAP ? 2 * event->members : event->members;
    if (!is_allowed(reader, event->members, members))
        return is_out_of_range(reader);
    if (!begin_places(reader))
        return false;
    redisReadTask *task = &reader->frame[-1].task;
    task->type = types[event->form];
    task->elements = (long long)members;
    task->obj = fn && fn->createArray ? fn->createArray(task, members) : kind(task);
    return keep(reader, task, task->obj);
}

/* Processes an event of a rare kind, whose bytes begin at `at`. */
static APART bool take_seldom(struct reader *reader, const struct resp_event *event, size_t at) {
    bool is_well = true;
    switch (event->kind) {
    case RESP_NULL:
        is_well = add_null(reader);
        end(reader);
        break;
    case RESP_BOOL:
        is_well = add_truth(reader, event->number);
        end(reader);
        break;
    case RESP_TEXT:
        return begin_text(reader, event);
    case RESP_PART:
        return add_part(reader, event, at);
    case RESP_TEXT_END:
        is_well = end_text(reader);
        reader->is_text = false;
        reader->length = 0;
        end(reader);
        break;
    }
    return is_well;
}

/* Begins the frame of an attribute. The value that it annotates takes the attribute's place. */
static bool begin_attribute(struct reader *reader, const struct resp_event *event) {
    if (!reserve_frame(reader))
        return false;
    redisReadTask task = reader->frame->task;
    *++reader->frame = (struct frame){.task = task, .before = 2 * event->members};
    reader->unread += event->members > 0;
    return true;
}

/* Skips an event of the pairs of an attribute. Returns false if memory is out. */
static bool pass(struct reader *reader, const struct resp_event *event) {
    switch (event->kind) {
    case RESP_TEXT:
        reader->is_text = true;
        break;
    case RESP_PART:
        break;
    case RESP_OPEN:
        return event->form == RESP_ATTRIBUTE ? begin_attribute(reader, event) : begin_places(reader);
    case RESP_CLOSE:
        reader->frame--;
        end_unread(reader);
        break;
    default:
        reader->is_text = false;
        end_unread(reader);
        break;
    }
    return true;
}

/* Skips the events of the pairs of attributes, from `pos` on. Returns the event after them, or NULL if memory is out. */
static APART const struct resp_event *pass_all(struct reader *reader, const struct resp_event *event) {
    while (reader->unread && event->kind != RESP_MORE) {
        if (!pass(reader, event))
            return NULL;
        reader->base.pos += event++->used;
    }
    return event;
}

/* Opens an attribute at `pos` and skips its pairs. Returns the event after them, or RESP_MORE, or NULL if memory is out.
 */
static APART const struct resp_event *open_attribute(struct reader *reader, const struct resp_event *event) {
    if (!begin_attribute(reader, event))
        return NULL;
    reader->base.pos += event->used;
    return pass_all(reader, event + 1);
}

/* Returns hiredis' text for a syntax error in a line that begins with `type`, or NULL in a text. */
static const char *syntax_error(char type, bool is_digit) {
    switch (type) {
    case ':':
        return "Bad integer value";
    case '_':
        return "Bad nil value";
    case '#':
        return "Bad bool value";
    case '(':
        return "Bad bignum value";
    case ',':
        return "Bad double value";
    case '$':
    case '=':
    case '!':
        return is_digit ? "Bulk string length out of range" : "Bad bulk string length";
    case '*':
    case '~':
    case '>':
    case '%':
    case '|':
        return is_digit ? "Multi-bulk length out of range" : "Bad multi-bulk length";
    default:
        return NULL;
    }
}

/* Fails with the text for the scanner's error. The line of the wrong byte begins at `pos` or earlier. */
static bool refuse(struct reader *reader) {
    redisReader *base = &reader->base;
    uint32_t cause = reader->cause;
    uint64_t at = resp_scanner_taken(&reader->scanner), taken = reader->before;
    for (const struct resp_event *event = reader->events; event->kind != RESP_MORE; event++)
        taken = event->kind == RESP_DONE ? 0 : taken + event->used;
    uint8_t byte = (uint8_t)base->buf[base->pos + (size_t)(at - taken)];
    char text_type = reader->form == RESP_TEXT_DOUBLE ? ',' : 0;
    char type = reader->is_text ? text_type : reader->type ? reader->type : base->buf[base->pos];
    char text[sizeof base->errstr];
    const char *known = NULL;
    if (cause == RESP_CAUSE_ITEMS)
        return is_allowed(reader, UINT64_MAX, UINT64_MAX) ? out_of_memory(reader) : is_out_of_range(reader);
    if (cause == RESP_CAUSE_RANGE)
        known = "Bad integer value";
    else if (cause == RESP_CAUSE_LENGTH)
        known = "Bulk string length out of range";
    else if (cause == RESP_CAUSE_SYNTAX)
        known = syntax_error(type, isdigit(byte));
    if (known)
        snprintf(text, sizeof text, "%s", known);
    else if (cause == RESP_CAUSE_SYNTAX && type)
        snprintf(text, sizeof text, isprint(byte) ? "Protocol error, got \"%c\" as reply type byte"
                                                  : "Protocol error, got \"\\x%02x\" as reply type byte", byte);
    else
        snprintf(text, sizeof text, "Protocol error, %s at byte %llu of the reply", resp_cause_name(cause),
                 (unsigned long long)at);
    return fail(reader, REDIS_ERR_PROTOCOL, text);
}

/* Asks the scanner for more events. Returns the first, or NULL if there is none or after an error. */
static APART const struct resp_event *scan(struct reader *reader) {
    redisReader *base = &reader->base;
    struct resp_scanned scanned;
    if (reader->cause != RESP_OK) {
        refuse(reader);
        return NULL;
    }
    reader->next = reader->events;
    reader->events[0].kind = RESP_MORE;
    if (base->pos < reader->taken) {
        /* These bytes belong to no event yet. */
        if (!reader->type && !reader->is_text)
            reader->type = base->buf[base->pos];
        base->pos = reader->taken;
    }
    if (base->pos == base->len && !reader->is_full)
        return NULL;
    reader->before = resp_scanner_taken(&reader->scanner);
    reader->cause = resp_scanner_scan(&reader->scanner, (const uint8_t *)base->buf + base->pos, base->len - base->pos,
                                      reader->events, MOST_EVENTS, &scanned);
    reader->events[scanned.count].kind = RESP_MORE;
    reader->taken = base->pos + scanned.used;
    reader->is_full = scanned.count == MOST_EVENTS;
    if (scanned.count)
        reader->type = 0;
    return reader->unread ? pass_all(reader, reader->events) : reader->events;
}

/* Returns whether all events and all bytes have been read. */
static inline bool is_read(struct reader *reader) {
    if (reader->base.pos < reader->base.len || reader->is_full)
        return false;
    reader->next = &NOTHING;
    return true;
}

/* Reads the buffer. Returns whether a reply is complete. If it isn't, `err` may be set. */
static inline bool read_reply(struct reader *reader) {
    redisReader *base = &reader->base;
    const struct resp_event *event = reader->next;
    size_t at = base->pos;
    for (;;) {
        uint32_t kind = event->kind;
        if (kind == RESP_WHOLE) {
            char *start = base->buf + at + (event->used - event->part - 2);
            if (!add_text(reader, event->form, start, event->part))
                return false;
            end(reader);
        } else if (kind == RESP_DONE) {
            reader->next = event + 1;
            base->pos = at;
            return true;
        } else if (kind == RESP_INT) {
            if (!add_integer(reader, event->number))
                return false;
            end(reader);
        } else if (kind == RESP_CLOSE) {
            reader->frame--;
            reader->frame->task.elements = -1;
            end(reader);
        } else if (kind == RESP_OPEN && event->form != RESP_ATTRIBUTE) {
            if (!open(reader, event))
                return false;
        } else if (kind == RESP_MORE || kind == RESP_OPEN) {
            base->pos = at;
            event = kind == RESP_OPEN ? open_attribute(reader, event) : is_read(reader) ? NULL : scan(reader);
            if (!event)
                return false;
            at = base->pos;
            continue;
        } else if (!take_seldom(reader, event, at)) {
            return false;
        }
        at += event++->used;
    }
}

redisReader *redisReaderCreateWithFunctions(redisReplyObjectFunctions *fn) {
    struct reader *reader = hi_calloc(1, sizeof *reader);
    if (!reader)
        return NULL;
    reader->next = &NOTHING;
    reader->frame = reader->frames = reader->first;
    reader->last_frame = reader->first + FIRST_FRAMES - 1;
    reader->frame->task.elements = reader->frame->task.idx = -1;
    reader->base.fn = fn;
    reader->base.maxbuf = REDIS_READER_MAX_BUF;
    reader->base.ridx = -1;
#ifdef REDIS_READER_MAX_ARRAY_ELEMENTS
    reader->base.maxelements = REDIS_READER_MAX_ARRAY_ELEMENTS;
#endif
    return &reader->base;
}

/* Allocates what a reader needs to read. Returns false if memory is out. */
static APART bool begin_reading(struct reader *reader) {
    const struct resp_limits limits = {MOST_OPEN, 1073741824, 1099511627776, 1099511627776, false, true};
    reader->events = hi_malloc((MOST_EVENTS + 1) * sizeof *reader->events + resp_scanner_size());
    if (!reader->events)
        return out_of_memory(reader);
    reader->scanner.memory = reader->events + MOST_EVENTS + 1;
    resp_scanner_init(&reader->scanner, 3, &limits);
    return true;
}

void redisReaderFree(redisReader *base) {
    struct reader *reader = (struct reader *)base;
    if (!base)
        return;
    if (base->reply && base->fn && base->fn->freeObject)
        base->fn->freeObject(base->reply);
    hi_free(base->buf);
    hi_free(reader->gathered);
    hi_free(reader->events);
    if (reader->frames != reader->first)
        hi_free(reader->frames);
    hi_free(reader);
}

/* Drops the bytes that have been read, except those of a text that hasn't ended. */
static void drop_read(struct reader *reader) {
    redisReader *base = &reader->base;
    size_t read = reader->length && !reader->is_gathered ? reader->start : base->pos;
    if (read < base->len)
        memmove(base->buf, base->buf + read, base->len - read);
    base->len -= read;
    base->pos -= read;
    reader->taken -= read;
    reader->start = 0;
}

/* Makes room for a piece. If it has to grow inside a text, it makes room for more of that text, which avoids moving
 * the text many times. */
static bool reserve_piece(struct reader *reader, size_t length) {
    redisReader *base = &reader->base;
    if (base->len + length > reader->room && reader->is_text) {
        uint64_t needed = resp_scanner_needed(&reader->scanner);
        size_t believed = needed < MOST_BELIEVED ? (size_t)needed : MOST_BELIEVED;
        length = length < believed ? believed : length;
    }
    return reserve(&base->buf, &reader->room, base->len + length);
}

int redisReaderFeed(redisReader *base, const char *more, size_t length) {
    struct reader *reader = (struct reader *)base;
    if (base->err)
        return REDIS_ERR;
    if (!more || !length)
        return REDIS_OK;
    if (!reader->events && !begin_reading(reader))
        return REDIS_ERR;
    drop_read(reader);
    if (!base->len && base->maxbuf && reader->room > base->maxbuf && reader->room / 4 > length) {
        hi_free(base->buf);
        base->buf = NULL;
        reader->room = 0;
    }
    if (!reserve_piece(reader, length)) {
        out_of_memory(reader);
        return REDIS_ERR;
    }
    memcpy(base->buf + base->len, more, length);
    base->len += length;
    return REDIS_OK;
}

int redisReaderGetReply(redisReader *base, void **reply) {
    struct reader *reader = (struct reader *)base;
    reader->frames->task.privdata = base->privdata;
    if (base->err || !read_reply(reader)) {
        if (reply)
            *reply = NULL;
        return base->err ? REDIS_ERR : REDIS_OK;
    }
    if (reply)
        *reply = base->reply;
    else if (base->reply && base->fn && base->fn->freeObject)
        base->fn->freeObject(base->reply);
    base->reply = NULL;
    return REDIS_OK;
}
