/* Compares resp_reply_read with nodes that are made here from the events of a scanner, for many streams.
 * tests/bindings runs it; the crate `test_c_events` describes the format of standard input. It prints the
 * number of streams, of replies and of replies that are not plain, or the first difference. */
#include "resp.h"

#include <stdio.h>
#include <stdlib.h>

enum { NODES = 4096, TEXTS = 65536, DEPTH = 128, REPLIES = 4096 };

/* A node, with the text itself in place of its index. */
struct wanted {
    struct resp_node node;
    const uint8_t *text;
};

/* A reply that is whole: the numbers of nodes and of bytes up to its end, and whether it is plain. */
struct reply {
    size_t nodes, used;
    bool is_plain;
};

static struct wanted wanted[NODES];
static uint8_t texts[TEXTS];
static struct reply replies[REPLIES];
static size_t node_count, text_count, reply_count, open[DEPTH], depth;
static unsigned long long streams, whole_replies, others;

static void fail(const char *what) {
    printf("stream %llu: %s\n", streams, what);
    exit(1);
}

/* Counts a value that has ended among the members of the aggregate around it. */
static void end_value(void) {
    if (depth)
        wanted[open[depth - 1]].node.length++;
}

static struct wanted *add_node(uint8_t kind) {
    struct wanted *made = &wanted[node_count++];
    *made = (struct wanted){.node = {.kind = kind, .size = 1}};
    return made;
}

/* Whether the bytes of an event have this byte. */
static bool has(const uint8_t *bytes, size_t count, int byte) { return count && memchr(bytes, byte, count); }

/* Adds an event whose bytes begin at `piece`. Returns whether a plain reply can have it. */
static bool add_event(const struct resp_event *event, const uint8_t *piece) {
    switch (event->kind) {
    case RESP_NULL:
        add_node(RESP_NULL);
        end_value();
        return true;
    case RESP_BOOL:
    case RESP_INT:
        add_node((uint8_t)event->kind)->node.number = event->number;
        end_value();
        return event->kind == RESP_BOOL || !has(piece, event->used, '+');
    case RESP_TEXT: {
        struct wanted *made = add_node(RESP_TEXT);
        made->text = texts + text_count;
        made->node.form = (uint8_t)event->form;
        if (event->form == RESP_TEXT_VERBATIM)
            memcpy(made->node.format, event->format, sizeof event->format);
        return event->form != RESP_TEXT_BIG && !(event->form == RESP_TEXT_BULK && has(piece, event->used, '?'));
    }
    case RESP_PART:
        memcpy(texts + text_count, resp_event_part(event, piece), event->part);
        text_count += event->part;
        wanted[node_count - 1].node.length += event->part;
        return true;
    case RESP_TEXT_END:
        end_value();
        return true;
    case RESP_OPEN:
        add_node(RESP_OPEN)->node.form = (uint8_t)event->form;
        open[depth++] = node_count - 1;
        return event->members != RESP_STREAMED && depth <= 16;
    case RESP_CLOSE:
        depth--;
        wanted[open[depth]].node.size = node_count - open[depth];
        end_value();
        return true;
    }
    return true;
}

/* Makes the nodes of a buffer. Returns RESP_OK or the error of a byte. */
static uint32_t add_events(struct resp_scanner *scanner, const uint8_t *buffer, size_t length) {
    struct resp_event event = {0};
    size_t at = 0;
    bool is_plain = true;
    uint32_t cause = RESP_OK;
    node_count = text_count = reply_count = depth = 0;
    while (cause == RESP_OK && (at == 0 || event.kind != RESP_MORE)) {
        cause = resp_scanner_step(scanner, buffer + at, length - at, &event);
        if (cause != RESP_OK || event.kind == RESP_MORE)
            break;
        is_plain = add_event(&event, buffer + at) && is_plain;
        at += event.used;
        if (event.kind == RESP_DONE) {
            replies[reply_count++] = (struct reply){node_count, at, is_plain};
            is_plain = true;
        }
    }
    return cause;
}

static void compare_node(const struct wanted *one, const struct resp_node *other, const uint8_t *buffer, size_t used) {
    if (one->node.kind != other->kind || one->node.form != other->form || one->node.length != other->length ||
        one->node.size != other->size || one->node.number != other->number ||
        memcmp(one->node.format, other->format, sizeof other->format))
        fail("another node");
    if (other->kind == RESP_TEXT && (other->start > used || used - other->start < other->length ||
                                     (other->length && memcmp(resp_node_text(other, buffer), one->text, other->length))))
        fail("another text");
}

/* Compares a call with `room` nodes. `cause` is the error of a byte, or RESP_OK. */
static void compare(uint32_t version, const struct resp_limits *limits, const uint8_t *buffer, size_t length, size_t room,
                    uint32_t cause) {
    struct resp_node *nodes = malloc(room ? room * sizeof *nodes : 1);
    struct resp_replies told = {99, 99};
    struct reply last = {0, 0, true};
    size_t number = 0;
    if (!nodes)
        exit(3);
    for (; number < reply_count && replies[number].is_plain && replies[number].nodes <= room; number++)
        last = replies[number];
    if (number < reply_count)
        cause = replies[number].is_plain ? RESP_CAUSE_NO_ROOM : RESP_CAUSE_NOT_PLAIN;
    else if (cause == RESP_OK && last.used < length)
        cause = RESP_CAUSE_TRUNCATED;
    if (resp_reply_read(version, limits, buffer, length, room ? nodes : NULL, room, &told) != cause)
        fail("another result");
    if (told.nodes != last.nodes || told.used != last.used)
        fail("another number of nodes or bytes");
    for (size_t at = 0; at < told.nodes; at++)
        compare_node(&wanted[at], &nodes[at], buffer, told.used);
    free(nodes);
}

int main(void) {
    struct resp_scanner scanner = {malloc(resp_scanner_size())};
    uint8_t head[3], lengths[255];
    if (!scanner.memory)
        return 3;
    while (fread(head, 1, sizeof head, stdin) == sizeof head) {
        struct resp_limits limits;
        size_t length = 0;
        resp_limits_standard(&limits);
        if (head[1] & 4)
            limits = (struct resp_limits){4, 64, 256, 16, true, false};
        limits.doubles = head[1] & 1;
        limits.streamed = !(head[1] & 2);
        if (resp_scanner_init(&scanner, head[0], &limits) != RESP_OK || fread(lengths, 1, head[2], stdin) != head[2])
            return 3;
        for (size_t number = 0; number < head[2]; number++)
            length += lengths[number];
        /* The buffer has exactly these bytes, which lets a sanitizer find a read outside it. */
        uint8_t *buffer = malloc(length ? length : 1);
        if (!buffer || fread(buffer, 1, length, stdin) != length)
            return 3;
        streams++;
        uint32_t cause = add_events(&scanner, buffer, length);
        for (size_t number = 0; number < reply_count; number++) {
            whole_replies++;
            others += !replies[number].is_plain;
        }
        static const size_t rooms[] = {0, 1, 2, 5, NODES};
        for (size_t number = 0; number < sizeof rooms / sizeof *rooms; number++)
            compare(head[0], &limits, length ? buffer : NULL, length, rooms[number], cause);
        free(buffer);
    }
    printf("%llu streams, %llu replies, %llu not plain\n", streams, whole_replies, others);
    free(scanner.memory);
    return 0;
}
