/* Reads RESP2 and RESP3, the wire protocol of Redis, from pieces of any size, and reports values as
 * events. Writes commands and values into buffers of the caller.
 *
 * No function allocates, and no function keeps a pointer to a piece after it returns.
 *
 * Preconditions, which nothing checks:
 * - The memory of a scanner is not moved.
 * - resp_scanner_init has returned RESP_OK before any other call with the scanner.
 * - One call with a scanner runs at a time.
 * - Each pointer is to what its type says. It may be NULL only if a length of 0 is given with it.
 * - What a call writes to doesn't overlap with its other arguments.
 *
 *     struct resp_limits limits;
 *     resp_limits_standard(&limits);
 *     struct resp_scanner scanner = { malloc(resp_scanner_size()) };
 *     resp_scanner_init(&scanner, 3, &limits);
 *
 *     struct resp_event event;
 *     uint32_t cause;
 *     while ((cause = resp_scanner_step(&scanner, piece, length, &event)) == RESP_OK) {
 *         if (event.kind == RESP_MORE) break;   // read the next piece
 *         ...                                   // use the event before `piece` moves
 *         piece += event.used;
 *         length -= event.used;
 *     }
 */
#ifndef RESP_H
#define RESP_H

#include <stdbool.h>
#include <stddef.h>
#include <stdint.h>
#include <string.h>

#ifdef __cplusplus
extern "C" {
#endif

/* The version of this header, and the same as a number: 65,536 x major + 256 x minor + patch. */
#define RESP_VERSION "0.3.0"
#define RESP_VERSION_NUMBER 0x000300u

/* Returns the version of the library that the program runs with, as a number. */
uint32_t resp_version(void);

/* The result of a call: RESP_OK, or an error. docs/errors.md explains each error. */
enum resp_cause {
    RESP_OK = 0,
    /* No value of version 2 or 3 can contain this byte here. */
    RESP_CAUSE_SYNTAX = 1,
    /* A double, while the limits don't allow doubles. */
    RESP_CAUSE_DOUBLE = 2,
    /* A type of version 3, while version 2 is read. */
    RESP_CAUSE_VERSION = 3,
    /* A push inside another value. */
    RESP_CAUSE_NESTED_PUSH = 4,
    /* An integer doesn't fit into signed 64 bits. */
    RESP_CAUSE_RANGE = 5,
    /* Aggregates are nested deeper than the limit. */
    RESP_CAUSE_DEPTH = 6,
    /* A text is longer than the limit. */
    RESP_CAUSE_LENGTH = 7,
    /* The value can't end within the limit of its bytes. */
    RESP_CAUSE_TOTAL = 8,
    /* The input ended inside a value. */
    RESP_CAUSE_TRUNCATED = 9,
    /* A streamed string or aggregate, while the limits don't allow them. */
    RESP_CAUSE_STREAMED = 12,
    /* An aggregate has more members or pairs than the limit. */
    RESP_CAUSE_ITEMS = 13,
    /* A value other than a push arrived while no command waits. */
    RESP_CAUSE_UNASKED = 20,
    /* 2^63 commands were queued. */
    RESP_CAUSE_TOO_MANY = 24,
    /* A line to write contains CR or LF. */
    RESP_CAUSE_BAD_LINE = 60,
    /* The digits of a big number to write aren't decimal, or have leading zeros, or are -0. */
    RESP_CAUSE_BAD_DIGITS = 61,
    /* The version can't change inside a value or after an error. */
    RESP_CAUSE_BUSY = 62,
    /* A limit is outside its range. */
    RESP_CAUSE_BAD_LIMITS = 63,
    /* The version is neither 2 nor 3. */
    RESP_CAUSE_BAD_VERSION = 64,
    /* The buffer is shorter than the text. */
    RESP_CAUSE_NO_ROOM = 65,
    /* No aggregate has this kind. */
    RESP_CAUSE_BAD_KIND = 66,
    /* Another HELLO that asks for a version waits for its reply. */
    RESP_CAUSE_HELLO_WAITS = 67,
    /* The command doesn't have exactly one reply, or changes the version in another way than HELLO. */
    RESP_CAUSE_UNPAIRED = 68,
    /* Another command that pushes answer waits. */
    RESP_CAUSE_PUSHES_WAIT = 69,
    /* A reply is whole, and resp_reply_read doesn't read its form. */
    RESP_CAUSE_NOT_PLAIN = 70
};

/* Returns the name of an error, such as "Syntax", or "" if no error has this number. */
static inline const char *resp_cause_name(uint32_t cause) {
    switch (cause) {
    case RESP_CAUSE_SYNTAX: return "Syntax";
    case RESP_CAUSE_DOUBLE: return "Double";
    case RESP_CAUSE_VERSION: return "Version";
    case RESP_CAUSE_NESTED_PUSH: return "NestedPush";
    case RESP_CAUSE_RANGE: return "Range";
    case RESP_CAUSE_DEPTH: return "Depth";
    case RESP_CAUSE_LENGTH: return "Length";
    case RESP_CAUSE_TOTAL: return "Total";
    case RESP_CAUSE_TRUNCATED: return "Truncated";
    case RESP_CAUSE_STREAMED: return "Streamed";
    case RESP_CAUSE_ITEMS: return "Items";
    case RESP_CAUSE_UNASKED: return "Unasked";
    case RESP_CAUSE_TOO_MANY: return "TooMany";
    case RESP_CAUSE_BAD_LINE: return "BadLine";
    case RESP_CAUSE_BAD_DIGITS: return "BadDigits";
    case RESP_CAUSE_BUSY: return "Busy";
    case RESP_CAUSE_BAD_LIMITS: return "BadLimits";
    case RESP_CAUSE_BAD_VERSION: return "BadVersion";
    case RESP_CAUSE_NO_ROOM: return "NoRoom";
    case RESP_CAUSE_BAD_KIND: return "BadKind";
    case RESP_CAUSE_HELLO_WAITS: return "HelloWaits";
    case RESP_CAUSE_UNPAIRED: return "Unpaired";
    case RESP_CAUSE_PUSHES_WAIT: return "PushesWait";
    case RESP_CAUSE_NOT_PLAIN: return "NotPlain";
    default: return "";
    }
}

/* The kinds of events. */
enum resp_kind {
    /* No event: the whole piece was read. */
    RESP_MORE = 0,
    RESP_NULL = 1,
    /* `number` is 1 for true and 0 for false. */
    RESP_BOOL = 2,
    /* `number` is the integer. */
    RESP_INT = 3,
    /* A text of the kind `form` begins. Its parts follow, then RESP_TEXT_END. An empty text has no
     * part. The event doesn't have the length of the text. */
    RESP_TEXT = 4,
    /* `part` bytes of the text, at resp_event_part. */
    RESP_PART = 5,
    RESP_TEXT_END = 6,
    /* An aggregate of the kind `form` begins. Its `members` follow, then RESP_CLOSE. */
    RESP_OPEN = 7,
    /* The innermost aggregate has ended. An attribute ends after the value that it annotates. */
    RESP_CLOSE = 8,
    /* The top-level value is complete. */
    RESP_DONE = 9,
    /* A complete simple string, error, double or bulk string of the kind `form`: `part` bytes at
     * resp_event_whole. Only resp_scanner_scan returns this event, in place of RESP_TEXT, RESP_PART
     * and RESP_TEXT_END. A text that is complete in the piece may still come as those three. */
    RESP_WHOLE = 10
};

/* The kinds of text. */
enum resp_text {
    RESP_TEXT_SIMPLE = 0,
    RESP_TEXT_ERROR = 1,
    /* A double, as the text that was received: a number, `inf`, `-inf`, `nan` or `-nan`. */
    RESP_TEXT_DOUBLE = 2,
    RESP_TEXT_BULK = 3,
    RESP_TEXT_BULK_ERROR = 4,
    /* A verbatim string. `format` has its three bytes of format. */
    RESP_TEXT_VERBATIM = 5,
    /* A big number. Its text is the digits without leading zeros, empty for zero; `number` is 1 if it
     * is negative. */
    RESP_TEXT_BIG = 6
};

/* The kinds of aggregate. */
enum resp_aggregate {
    RESP_ARRAY = 0,
    RESP_SET = 1,
    /* `members` counts pairs. Keys and values alternate. */
    RESP_MAP = 2,
    /* `members` counts pairs. The value that the attribute annotates follows them. */
    RESP_ATTRIBUTE = 3,
    RESP_PUSH = 4
};

/* Return the name of a kind of event, of text, and of aggregate, such as "text", "bulk string" and
 * "array", or "" if there is no such kind. */
static inline const char *resp_kind_name(uint32_t kind) {
    switch (kind) {
    case RESP_MORE: return "more";
    case RESP_NULL: return "null";
    case RESP_BOOL: return "boolean";
    case RESP_INT: return "integer";
    case RESP_TEXT: return "text";
    case RESP_PART: return "part";
    case RESP_TEXT_END: return "end of text";
    case RESP_OPEN: return "open";
    case RESP_CLOSE: return "close";
    case RESP_DONE: return "done";
    case RESP_WHOLE: return "whole text";
    default: return "";
    }
}

static inline const char *resp_text_name(uint32_t text) {
    switch (text) {
    case RESP_TEXT_SIMPLE: return "simple string";
    case RESP_TEXT_ERROR: return "error";
    case RESP_TEXT_DOUBLE: return "double";
    case RESP_TEXT_BULK: return "bulk string";
    case RESP_TEXT_BULK_ERROR: return "bulk error";
    case RESP_TEXT_VERBATIM: return "verbatim string";
    case RESP_TEXT_BIG: return "big number";
    default: return "";
    }
}

static inline const char *resp_aggregate_name(uint32_t aggregate) {
    switch (aggregate) {
    case RESP_ARRAY: return "array";
    case RESP_SET: return "set";
    case RESP_MAP: return "map";
    case RESP_ATTRIBUTE: return "attribute";
    case RESP_PUSH: return "push";
    default: return "";
    }
}

/* `members` of a streamed aggregate, whose size isn't known at its head. */
#define RESP_STREAMED UINT64_MAX

/* The limits within which values are read. */
struct resp_limits {
    /* The most aggregates inside one another, 4 to 128. */
    uint64_t depth;
    /* The most bytes of one text, 64 to 1,073,741,824. */
    uint64_t length;
    /* The most bytes of one top-level value, 256 to 1,099,511,627,776. */
    uint64_t total;
    /* The most members of an array, set or push, or pairs of a map or attribute, 16 to
     * 1,099,511,627,776. */
    uint64_t items;
    /* Whether streamed strings and aggregates are accepted. */
    bool streamed;
    /* Whether doubles are accepted, in version 3. */
    bool doubles;
};

/* A scanner. The caller owns `memory` and sets it before resp_scanner_init: resp_scanner_size()
 * bytes at the alignment resp_scanner_align(). The caller may free it at any time. */
struct resp_scanner {
    void *memory;
};

/* An event. Fields that the description of `kind` doesn't name have no meaning. */
struct resp_event {
    uint32_t kind;
    uint32_t form;
    int64_t number;
    uint64_t members;
    /* The number of bytes read from the front of the piece. */
    size_t used;
    size_t part;
    uint8_t format[3];
    uint8_t digit;
};

/* Return `kind` and `form` of an event as enums. Compilers then warn if a switch lacks a case. */
static inline enum resp_kind resp_event_kind(const struct resp_event *event) { return (enum resp_kind)event->kind; }
static inline enum resp_text resp_event_text(const struct resp_event *event) { return (enum resp_text)event->form; }
static inline enum resp_aggregate resp_event_aggregate(const struct resp_event *event) {
    return (enum resp_aggregate)event->form;
}

/* Sets the standard limits: depth 32, texts of 536,870,912 bytes, values of 1,073,741,824 bytes,
 * 1,099,511,627,776 items, with streamed strings and aggregates, and with doubles. */
void resp_limits_standard(struct resp_limits *limits);

/* Return the number of bytes of a scanner's memory, and its alignment. */
size_t resp_scanner_size(void);
size_t resp_scanner_align(void);

/* Initialises a scanner of version 2 or 3 with these limits. It may be called again at any time.
 *
 * Errors: RESP_CAUSE_BAD_VERSION, RESP_CAUSE_BAD_LIMITS. The memory is then unchanged. */
uint32_t resp_scanner_init(struct resp_scanner *scanner, uint32_t version,
                           const struct resp_limits *limits);

/* Memory that is large enough for a scanner of this version of the library, for example on the stack:
 *
 *     union resp_scanner_memory memory;
 *     struct resp_scanner scanner;
 *     uint32_t cause = resp_scanner_init_in(&scanner, &memory, 3, &limits);
 */
#define RESP_SCANNER_SIZE 4096
union resp_scanner_memory {
    uint64_t align;
    uint8_t bytes[RESP_SCANNER_SIZE];
};

/* Initialises a scanner in this memory, which may not be moved while the scanner is used.
 *
 * Errors: as resp_scanner_init; RESP_CAUSE_NO_ROOM if the library that the program runs with is a
 * newer one, whose scanner is larger. */
static inline uint32_t resp_scanner_init_in(struct resp_scanner *scanner, union resp_scanner_memory *memory,
                                            uint32_t version, const struct resp_limits *limits) {
    if (resp_scanner_size() > sizeof *memory || resp_scanner_align() > sizeof memory->align)
        return RESP_CAUSE_NO_ROOM;
    scanner->memory = memory;
    return resp_scanner_init(scanner, version, limits);
}

/* Reads bytes of the piece up to the next event or the end of the piece. A step may return an event
 * without reading a byte, so call it until it returns RESP_MORE, with an empty piece too.
 *
 * Errors: the error of the first byte that no valid value can contain there. `event` is then
 * unchanged, every later step returns the same error, and resp_scanner_taken is the index of that
 * byte in its value. */
uint32_t resp_scanner_step(struct resp_scanner *scanner, const uint8_t *piece, size_t length,
                           struct resp_event *event);

/* The result of resp_scanner_scan. */
struct resp_scanned {
    /* The number of events written. */
    size_t count;
    /* The number of bytes read from the front of the piece. */
    size_t used;
};

/* Writes the events of the piece, in the order of resp_scanner_step, to an array of `room` events.
 * The `used` of each event counts from the end of the event before. RESP_MORE is not written. The
 * call goes on past the ends of values, until
 * - the array is full: no byte after the last event has been read. Call again with the rest of the
 *   piece, even if it is empty;
 * - or the piece is used up: all of it has been read, and all of its events are written;
 * - or a byte is wrong: the call returns the error that resp_scanner_step would return.
 *
 * `scanned` is set in each case, also with an error: it counts the events before the error and
 * their bytes. The array is unchanged after the events written.
 *
 * All values of one call are read in one version. A caller that may change the version after a
 * value uses steps. Or it ignores the events after that value, and an error after it, initialises
 * the scanner in the other version, and gives it the bytes after the value again. */
uint32_t resp_scanner_scan(struct resp_scanner *scanner, const uint8_t *piece, size_t length,
                           struct resp_event *events, size_t room, struct resp_scanned *scanned);

/* Reports the end of the input.
 *
 * Errors: RESP_CAUSE_TRUNCATED inside a value; the error of an earlier call again. */
uint32_t resp_scanner_finish(struct resp_scanner *scanner);

/* Sets the version of the next values.
 *
 * Errors: RESP_CAUSE_BAD_VERSION; RESP_CAUSE_BUSY between the first byte of a value and its
 * RESP_DONE, and after an error. An error changes nothing. */
uint32_t resp_scanner_set_version(struct resp_scanner *scanner, uint32_t version);

/* Returns the number of open aggregates: RESP_OPEN was returned, and RESP_CLOSE not yet. */
size_t resp_scanner_depth(const struct resp_scanner *scanner);

/* Returns the number of bytes read of the current value, 0 between values. A wrong byte isn't
 * counted. */
uint64_t resp_scanner_taken(const struct resp_scanner *scanner);

/* Returns the smallest number of bytes that can complete the value, whatever the limit of total: 3
 * between values, and 0 if all bytes have been read and only events remain. After an error the
 * result has no meaning. */
uint64_t resp_scanner_needed(const struct resp_scanner *scanner);

/* Returns the `event->part` bytes of a RESP_PART. `piece` is the piece of the step. */
static inline const uint8_t *resp_event_part(const struct resp_event *event, const uint8_t *piece) {
    return event->used ? piece + (event->used - event->part) : &event->digit;
}

/* Returns the `event->part` bytes of a RESP_WHOLE. `piece` is where the bytes of the event begin.
 */
static inline const uint8_t *resp_event_whole(const struct resp_event *event, const uint8_t *piece) {
    return piece + (event->used - event->part - 2);
}

/* A node of a flat reply: a value without members, or the beginning of an aggregate, whose members have
 * the nodes that follow. */
struct resp_node {
    /* RESP_NULL, RESP_BOOL, RESP_INT, RESP_TEXT or RESP_OPEN. */
    uint8_t kind;
    /* The kind of a text, as an enum resp_text, or of an aggregate, as an enum resp_aggregate. */
    uint8_t form;
    /* The format of a verbatim string. */
    uint8_t format[3];
    /* An integer; or 1 for true, and 0 for false. */
    int64_t number;
    /* The index in the buffer of the first byte of a text. */
    size_t start;
    /* The number of bytes of a text, or of members of an aggregate. Keys and values of a map are its
     * members. The members of an attribute are its keys and values, and then the value that it
     * annotates. */
    size_t length;
    /* The number of nodes of the value, with this one. */
    size_t size;
};

/* The result of resp_reply_read. */
struct resp_replies {
    /* The number of nodes written. */
    size_t nodes;
    /* The number of bytes read from the front of the buffer. */
    size_t used;
};

/* Reads all replies that are whole in the buffer, and writes their nodes to an array of `room` nodes,
 * the nodes of the first reply first. `replies` counts the nodes and the bytes of the replies, also
 * after an error. Nodes after them have no meaning.
 *
 *     struct resp_node nodes[64];
 *     struct resp_replies replies;
 *     uint32_t cause = resp_reply_read(3, &limits, buffer, length, nodes, 64, &replies);
 *     const struct resp_node *node = nodes, *end = nodes + replies.nodes;
 *     for (; node < end; node = resp_node_next(node))
 *         ...                                   // a reply; its texts are in the buffer
 *
 * Errors, each about the first byte after those read:
 * - RESP_CAUSE_TRUNCATED: the bytes left are the beginning of a reply. Call again with these and more.
 * - RESP_CAUSE_NO_ROOM: the next reply is whole and plain, and has more nodes than are left. As many
 *   nodes as a third of the bytes of the buffer are enough for each buffer.
 * - RESP_CAUSE_NOT_PLAIN: the next reply is whole, and has a streamed string or a streamed aggregate, a
 *   big number, an integer with a `+`, or more than 16 aggregates inside one another, however many nodes
 *   are left. Read it with a scanner. With limits that don't allow streamed strings, these are RESP_CAUSE_STREAMED.
 * - RESP_CAUSE_BAD_VERSION, RESP_CAUSE_BAD_LIMITS: nothing is written, and `replies` is unchanged.
 * - the error that a scanner returns for the bytes left. */
uint32_t resp_reply_read(uint32_t version, const struct resp_limits *limits, const uint8_t *buffer,
                         size_t length, struct resp_node *nodes, size_t room,
                         struct resp_replies *replies);

/* Returns the `node->length` bytes of a text. `buffer` is the buffer that was read. */
static inline const uint8_t *resp_node_text(const struct resp_node *node, const uint8_t *buffer) {
    return buffer + node->start;
}

/* Returns the node after a value: its next sibling, if it has one. */
static inline const struct resp_node *resp_node_next(const struct resp_node *node) { return node + node->size; }

/* Returns the node of the first member of an aggregate, if `node->length` isn't 0. */
static inline const struct resp_node *resp_node_first(const struct resp_node *node) { return node + 1; }

/* Returns whether a node is a text with these bytes. */
static inline bool resp_node_is(const struct resp_node *node, const uint8_t *buffer, const char *text,
                                size_t length) {
    return node->kind == RESP_TEXT && node->length == length &&
           (length == 0 || memcmp(buffer + node->start, text, length) == 0);
}

/* Returns the value of the first key of a map that is a text with these bytes, or NULL if there is no
 * such key or the node is no map. It looks at each key in turn. */
static inline const struct resp_node *resp_node_value(const struct resp_node *map, const uint8_t *buffer,
                                                      const char *key, size_t length) {
    if (map->kind != RESP_OPEN || map->form != RESP_MAP) return NULL;
    const struct resp_node *member = resp_node_first(map), *end = resp_node_next(map);
    while (member < end) {
        const struct resp_node *value = resp_node_next(member);
        if (resp_node_is(member, buffer, key, length)) return value;
        member = resp_node_next(value);
    }
    return NULL;
}

/* Tracks which command each reply belongs to, and in which version it is read. The caller owns it,
 * initialises it with resp_pairing_init, and changes no field. */
struct resp_pairing {
    /* The version, 2 or 3. */
    uint32_t version;
    /* The version asked for by the HELLO that waits, or 0. */
    uint32_t hello;
    /* The number of commands that wait before that HELLO (all that wait if there is no HELLO), and
     * after it. */
    uint64_t before;
    uint64_t beyond;
    /* The number of complete replies. */
    uint64_t answered;
    /* The state of the value that is being read. */
    uint64_t nested;
    uint32_t refuses;
    uint32_t first;
    /* The number of pushes that are left of the waiting command that pushes answer, or 0; and the
     * number of commands that wait before it. */
    uint64_t pushes;
    uint64_t before_pushes;
};

/* Initialises a pairing: no command waits, and the version is 2. The scanner has to be between two
 * values. */
void resp_pairing_init(struct resp_pairing *pairing);

/* How a command is answered. */
enum resp_command {
    /* By exactly one reply. */
    RESP_COMMAND_ONE_REPLY = 0,
    /* HELLO that asks for version 2 or 3: by exactly one reply, which may change the version. */
    RESP_COMMAND_HELLO_2 = 2,
    RESP_COMMAND_HELLO_3 = 3,
    /* SUBSCRIBE, PSUBSCRIBE, SSUBSCRIBE, UNSUBSCRIBE, PUNSUBSCRIBE, SUNSUBSCRIBE: by a reply for each
     * channel in version 2, and by a push for each channel in version 3. */
    RESP_COMMAND_SUBSCRIBING = 16,
    /* MONITOR, SYNC, PSYNC, RESET, CLIENT REPLY, and a command without a word: by no reply or by
     * several, or the version changes. */
    RESP_COMMAND_NOT_PAIRED = 17
};

/* Returns how a command of `count` words is answered, as an enum resp_command. Only its first two
 * words matter: `name`, and `argument`, which isn't read if there is one word. Their case doesn't
 * matter. */
uint32_t resp_command_kind(size_t count, const uint8_t *name, size_t name_length, const uint8_t *argument,
                           size_t argument_length);

/* Counts a command that is sent, of the kind that resp_command_kind returns. Sets `*number` to the
 * number of the command and of its reply, from 1. resp_pairing_queue_command finds the kind itself.
 *
 * Errors: RESP_CAUSE_UNPAIRED for RESP_COMMAND_SUBSCRIBING and RESP_COMMAND_NOT_PAIRED, since later
 * replies would be paired with the wrong commands; RESP_CAUSE_BAD_VERSION for a number that is no
 * kind; RESP_CAUSE_HELLO_WAITS for a HELLO with a version while another one waits;
 * RESP_CAUSE_TOO_MANY after 2^63 commands. An error changes nothing. */
uint32_t resp_pairing_queue(struct resp_pairing *pairing, uint32_t kind, uint64_t *number);

/* Counts a command that `pushes` pushes answer in version 3, or one error: SUBSCRIBE, PSUBSCRIBE,
 * SSUBSCRIBE and their UN- forms, with one push for each channel. Sets `*number` to its number. Its
 * wait ends after so many pushes that arrive while it waits first, or at a reply, which has its
 * number. Each push has the number 0.
 *
 * Other pushes count too. If messages of channels that were subscribed before arrive meanwhile, the
 * wait ends early: later replies still have the right numbers, unless the server rejects the command.
 *
 * Errors: RESP_CAUSE_UNPAIRED if `pushes` is 0, while the version is 2, and while a HELLO with a
 * version waits; RESP_CAUSE_PUSHES_WAIT while another such command waits; RESP_CAUSE_TOO_MANY. An
 * error changes nothing. */
uint32_t resp_pairing_queue_pushes(struct resp_pairing *pairing, uint64_t pushes, uint64_t *number);

/* Counts a command of `argc` words that is sent, `argvlen` bytes at each `argv`. A command that
 * subscribes or unsubscribes is counted by resp_pairing_queue_pushes, with a push for each word after
 * its name. The errors are those of the calls that count.
 *
 * This function calls resp_command_kind, resp_pairing_queue and resp_pairing_queue_pushes. It is
 * tested, and they are proved. */
static inline uint32_t resp_pairing_queue_command(struct resp_pairing *pairing, size_t argc, const char *const *argv,
                                                  const size_t *argvlen, uint64_t *number) {
    const uint8_t *name = argc > 0 ? (const uint8_t *)argv[0] : NULL;
    const uint8_t *argument = argc > 1 ? (const uint8_t *)argv[1] : NULL;
    uint32_t kind = resp_command_kind(argc, name, argc > 0 ? argvlen[0] : 0, argument, argc > 1 ? argvlen[1] : 0);
    if (kind == RESP_COMMAND_SUBSCRIBING)
        return resp_pairing_queue_pushes(pairing, argc - 1, number);
    return resp_pairing_queue(pairing, kind, number);
}

/* Call this with the first byte of a value, before the scanner reads it. Sets `*version` to the
 * version of the value: the pairing's version, or the version asked for by the HELLO that waits
 * first, if that is greater.
 *
 * Errors: RESP_CAUSE_UNASKED for any byte except `>` while no command waits. It changes nothing. */
uint32_t resp_pairing_first(struct resp_pairing *pairing, uint8_t byte, uint32_t *version);

/* Call this with each event of the value, in order; RESP_WHOLE is accepted. Sets `*number` to the
 * number of the reply that the event belongs to, or to 0 for a push. At RESP_DONE of a reply the
 * first command that waits has its reply. If that command was a HELLO with a version, the pairing's
 * version is now that one, unless the reply is an error (after attributes, if any). */
void resp_pairing_take(struct resp_pairing *pairing, const struct resp_event *event, uint64_t *number);

/* Steps like resp_scanner_step, and pairs the event. Use only this call to step the scanner, which
 * was initialised in any version. With RESP_MORE before the first event of a value, `*number` has
 * no meaning.
 *
 * Errors: as resp_pairing_first; the same byte may be given again once a command is queued. As
 * resp_scanner_step.
 *
 * This function calls resp_pairing_first, resp_scanner_set_version, resp_scanner_step and
 * resp_pairing_take. They are proved, and so is that such calls read values as a client does. This
 * function itself is tested. */
static inline uint32_t resp_pairing_step(struct resp_pairing *pairing, struct resp_scanner *scanner,
                                         const uint8_t *piece, size_t length, struct resp_event *event,
                                         uint64_t *number) {
    uint32_t cause, version = 0;
    if (length > 0 && resp_scanner_taken(scanner) == 0) {
        cause = resp_pairing_first(pairing, piece[0], &version);
        if (cause != RESP_OK)
            return cause;
        /* after an error the scanner keeps its version, and the step returns the error again */
        if (resp_scanner_set_version(scanner, version) != RESP_OK)
            return resp_scanner_step(scanner, piece, length, event);
    }
    cause = resp_scanner_step(scanner, piece, length, event);
    if (cause == RESP_OK)
        resp_pairing_take(pairing, event, number);
    return cause;
}

/* Internal: passes events of resp_scanner_scan to the pairing, and sets `scanned` to those before a value that no
 * command asked for. `length` bytes at `at` belong to the events or to a value that was begun after
 * them. resp_pairing_scan uses this. */
static inline uint32_t resp_internal_take_all(struct resp_pairing *pairing, bool is_begun, const uint8_t *at,
                                              size_t length, const struct resp_event *events, uint64_t *numbers,
                                              struct resp_scanned *scanned) {
    size_t count = 0, used = 0;
    uint32_t version = 0, cause = RESP_OK;
    while (cause == RESP_OK) {
        if (!is_begun && used < length)
            cause = resp_pairing_first(pairing, at[used], &version);
        if (cause != RESP_OK || count == scanned->count)
            break;
        resp_pairing_take(pairing, &events[count], &numbers[count]);
        is_begun = events[count].kind != RESP_DONE;
        used += events[count++].used;
    }
    if (cause != RESP_OK) {
        scanned->count = count;
        scanned->used = used;
    }
    return cause;
}

/* Internal: writes the events of values that are read in the pairing's version. resp_pairing_scan uses this. */
static inline uint32_t resp_internal_scan_values(struct resp_pairing *pairing, struct resp_scanner *scanner,
                                                 const struct resp_limits *limits, const uint8_t *piece, size_t length,
                                                 struct resp_event *events, uint64_t *numbers, size_t room,
                                                 struct resp_scanned *scanned) {
    bool is_begun = resp_scanner_taken(scanner) != 0;
    bool is_right = is_begun || resp_scanner_set_version(scanner, pairing->version) == RESP_OK;
    uint32_t cause = resp_scanner_scan(scanner, piece, length, events, room, scanned);
    /* a full array: the bytes after the last event haven't been read */
    size_t known = scanned->count == room ? scanned->used : length;
    uint32_t paired = is_right ? resp_internal_take_all(pairing, is_begun, piece, known, events, numbers, scanned)
                               : (uint32_t)RESP_OK;
    if (paired == RESP_OK)
        return cause;
    /* The scanner has read the value that no command asked for. It begins before that value again. */
    resp_scanner_init(scanner, pairing->version, limits);
    return paired;
}

/* Writes the events of the piece, as resp_scanner_scan does, and the number of each event, as
 * resp_pairing_step sets it, to arrays of `room` events and numbers. Use only this call and
 * resp_pairing_step to read with the scanner, which was initialised with these limits. While a HELLO
 * with a version waits, this call steps; otherwise it reads many events at once.
 *
 * Errors: as resp_pairing_step. `scanned` is set, and counts the events before the error.
 *
 * This function calls proved functions, and is tested. */
static inline uint32_t resp_pairing_scan(struct resp_pairing *pairing, struct resp_scanner *scanner,
                                         const struct resp_limits *limits, const uint8_t *piece, size_t length,
                                         struct resp_event *events, uint64_t *numbers, size_t room,
                                         struct resp_scanned *scanned) {
    uint32_t cause = RESP_OK;
    bool goes_on = true;
    scanned->count = scanned->used = 0;
    while (cause == RESP_OK && goes_on && scanned->count < room) {
        struct resp_event *event = events + scanned->count;
        uint64_t *number = numbers + scanned->count;
        size_t left = length - scanned->used, most = room - scanned->count;
        const uint8_t *at = left ? piece + scanned->used : piece;
        struct resp_scanned more = {0, 0};
        if (pairing->hello == 0) {
            cause = resp_internal_scan_values(pairing, scanner, limits, at, left, event, number, most, &more);
            goes_on = more.count == most;
        } else {
            cause = resp_pairing_step(pairing, scanner, at, left, event, number);
            goes_on = cause == RESP_OK && event->kind != RESP_MORE;
            more.count = goes_on;
            more.used = goes_on ? event->used : cause == RESP_OK ? left : 0;
        }
        scanned->count += more.count;
        scanned->used += more.used;
    }
    return cause;
}

/* The calls that write put the canonical text at the front of the caller's buffer of `length` bytes
 * at `room`: numbers without plus sign and leading zeros, strings and aggregates with their length
 * or number, never streamed. Each call sets `*size` to the number of bytes of that text. Bytes of
 * the buffer after the text are unchanged.
 *
 * Errors: RESP_CAUSE_NO_ROOM if the buffer is shorter than the text; nothing is written, and
 * `*size` is set, to at most SIZE_MAX. A `count` that no memory has, such as SIZE_MAX, is such an
 * error and reads nothing. The other errors, which are named at each call, change neither the buffer
 * nor `*size`.
 *
 * Only resp_command_size checks limits. The other calls don't know what value they write a part of.
 */

/* Writes the head of an aggregate, RESP_ARRAY to RESP_PUSH, with its number of members, or of pairs
 * in a map or an attribute. Write the members after it; after the pairs of an attribute, write the
 * value that it annotates. Version 2 has only RESP_ARRAY.
 *
 * Errors: RESP_CAUSE_BAD_KIND for another kind. */
uint32_t resp_write_head(uint8_t *room, size_t length, uint32_t kind, uint64_t members, size_t *size);

/* Writes a bulk string of `count` bytes. */
uint32_t resp_write_bulk(uint8_t *room, size_t length, const uint8_t *bytes, size_t count, size_t *size);

/* Writes a bulk error of `count` bytes. Version 2 has no bulk errors. */
uint32_t resp_write_bulk_error(uint8_t *room, size_t length, const uint8_t *bytes, size_t count, size_t *size);

/* Writes a verbatim string: three bytes of format, such as "txt", and `count` bytes of text.
 * Version 2 has no verbatim strings. */
uint32_t resp_write_verbatim(uint8_t *room, size_t length, const uint8_t format[3], const uint8_t *text,
                             size_t count, size_t *size);

/* Writes an integer. */
uint32_t resp_write_int(uint8_t *room, size_t length, int64_t number, size_t *size);

/* Writes the null of version 2 or 3.
 *
 * Errors: RESP_CAUSE_BAD_VERSION for another version. */
uint32_t resp_write_null(uint8_t *room, size_t length, uint32_t version, size_t *size);

/* Writes a boolean. Version 2 has no booleans. */
uint32_t resp_write_bool(uint8_t *room, size_t length, bool truth, size_t *size);

/* Write a simple string, an error, and a double, from a text of `count` bytes. The text of a double
 * is a number such as `-1.5e3`, `inf`, `-inf`, `nan` or `-nan`. Version 2 has no doubles.
 *
 * Errors: RESP_CAUSE_BAD_LINE if the text of a simple string or an error contains CR or LF.
 * RESP_CAUSE_BAD_DIGITS if the text of a double is none of these. */
uint32_t resp_write_simple(uint8_t *room, size_t length, const uint8_t *text, size_t count, size_t *size);
uint32_t resp_write_error(uint8_t *room, size_t length, const uint8_t *text, size_t count, size_t *size);
uint32_t resp_write_double(uint8_t *room, size_t length, const uint8_t *text, size_t count, size_t *size);

/* Writes a big number from its sign and its `count` digits. Version 2 has no big numbers.
 *
 * Errors: RESP_CAUSE_BAD_DIGITS if `digits` is empty, has another byte than digits or a leading
 * zero (except "0"), or is a negative zero. */
uint32_t resp_write_big(uint8_t *room, size_t length, bool is_negative, const uint8_t *digits, size_t count,
                        size_t *size);

/* Sets `*size` to the number of bytes of a command, from the lengths of its `count` words.
 *
 * Errors, which don't change `*size`, in this order: RESP_CAUSE_BAD_LIMITS; RESP_CAUSE_LENGTH if a
 * word is over the limit of length; RESP_CAUSE_ITEMS if there are more words than the limit of
 * items; RESP_CAUSE_TOTAL if the text is over the limit of total. */
uint32_t resp_command_size(const struct resp_limits *limits, const size_t *lengths, size_t count, size_t *size);

/* Writes a command of `argc` words, at least 1, `argvlen` bytes at each `argv`, as an array of bulk
 * strings. An empty command gets no reply, and nothing checks this.
 *
 * Errors: as resp_command_size; RESP_CAUSE_NO_ROOM, with `*size` set.
 *
 * This function calls resp_command_size, resp_write_head and resp_write_bulk. It is tested, and
 * they are proved. */
static inline uint32_t resp_write_command(uint8_t *room, size_t length, const struct resp_limits *limits,
                                          size_t argc, const char *const *argv, const size_t *argvlen,
                                          size_t *size) {
    size_t at = 0, used = 0, word;
    uint32_t cause = resp_command_size(limits, argvlen, argc, size);
    if (cause == RESP_OK && length < *size)
        cause = RESP_CAUSE_NO_ROOM;
    if (cause != RESP_OK)
        return cause;
    cause = resp_write_head(room, length, RESP_ARRAY, argc, &used);
    for (word = 0; cause == RESP_OK && word < argc; word++) {
        at += used;
        cause = resp_write_bulk(room + at, length - at, (const uint8_t *)argv[word], argvlen[word], &used);
    }
    return cause;
}

/* Makes room for `more` bytes at the end of a buffer of the caller. Returns where they begin, or NULL
 * if there is no memory for them. */
typedef uint8_t *(*resp_make_room)(void *buffer, size_t more);

/* Writes a command as resp_write_command does, into the room that `make_room` makes for it. It is
 * called once, with the size of the command, and not at all after an error.
 *
 * Errors: as resp_command_size; RESP_CAUSE_NO_ROOM if `make_room` returns NULL, with `*size` set. */
static inline uint32_t resp_append_command(resp_make_room make_room, void *buffer, const struct resp_limits *limits,
                                           size_t argc, const char *const *argv, const size_t *argvlen,
                                           size_t *size) {
    uint8_t *room;
    uint32_t cause = resp_command_size(limits, argvlen, argc, size);
    if (cause != RESP_OK)
        return cause;
    room = make_room(buffer, *size);
    return room ? resp_write_command(room, *size, limits, argc, argv, argvlen, size) : (uint32_t)RESP_CAUSE_NO_ROOM;
}

#ifdef __cplusplus
}
#endif

#endif
