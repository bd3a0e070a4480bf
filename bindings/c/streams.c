/* Prints a checksum of the events of each of many streams. tests/bindings compares it with that of the
 * crate `test_c_events`, which uses the scanner itself. That crate describes the format of standard
 * input. With an argument N, it asks for N events at once and splits whole texts into their events. */
#include "resp.h"

#include <inttypes.h>
#include <stdio.h>
#include <stdlib.h>

static uint64_t sum;

/* Adds a number to the checksum of the stream: FNV-1a of 64 bits, one number at a time. */
static void add(uint64_t number) { sum = (sum ^ number) * UINT64_C(1099511628211); }

static void add_bytes(const uint8_t *bytes, size_t count) {
    for (size_t at = 0; at < count; at++)
        add(bytes[at]);
}

/* Adds an event, without the number of bytes used. */
static void add_event(const struct resp_event *event, const uint8_t *piece) {
    if (event->kind != RESP_MORE)
        add(event->kind);
    switch (event->kind) {
    case RESP_BOOL:
        add((uint64_t)event->number);
        break;
    case RESP_INT:
        for (int bits = 0; bits < 64; bits += 8)
            add((uint64_t)event->number >> bits & 255);
        break;
    case RESP_TEXT:
        add(event->form);
        if (event->form == RESP_TEXT_VERBATIM)
            add_bytes(event->format, sizeof event->format);
        if (event->form == RESP_TEXT_BIG)
            add((uint64_t)event->number);
        break;
    case RESP_PART:
        add(event->part);
        add_bytes(resp_event_part(event, piece), event->part);
        break;
    case RESP_OPEN:
        add(event->form);
        add(event->members);
        break;
    }
}

/* Adds a step whose bytes begin at `piece`. */
static void add_step(const struct resp_event *event, const uint8_t *piece) {
    add(event->used);
    add_event(event, piece);
}

/* Adds a whole text as the three steps that it replaces. */
static void add_whole(const struct resp_event *event, const uint8_t *piece) {
    size_t head = event->used - event->part - 2;
    struct resp_event begins = {.kind = RESP_TEXT, .form = event->form, .used = head};
    struct resp_event part = {.kind = RESP_PART, .part = event->part, .used = event->part};
    struct resp_event ends = {.kind = RESP_TEXT_END, .used = 2};
    add_step(&begins, piece);
    if (event->part)
        add_step(&part, resp_event_whole(event, piece));
    add_step(&ends, piece + (event->used - 2));
}

/* Adds the steps of a piece. Returns RESP_OK or the error. */
static uint32_t add_steps(struct resp_scanner *scanner, const uint8_t *piece, size_t length) {
    struct resp_event event;
    uint32_t cause;
    while ((cause = resp_scanner_step(scanner, piece, length, &event)) == RESP_OK) {
        add_step(&event, piece);
        piece += event.used;
        length -= event.used;
        if (event.kind == RESP_MORE)
            break;
    }
    return cause;
}

/* The same with calls that return up to `room` events. */
static uint32_t add_many(struct resp_scanner *scanner, const uint8_t *piece, size_t length, size_t room) {
    for (;;) {
        /* The array has exactly `room` events, which lets valgrind find a write outside it. */
        struct resp_event *events = malloc(room * sizeof *events), more = {.kind = RESP_MORE};
        struct resp_scanned scanned;
        if (!events)
            exit(3);
        uint32_t cause = resp_scanner_scan(scanner, piece, length, events, room, &scanned);
        size_t used = 0;
        for (size_t at = 0; at < scanned.count; at++) {
            (events[at].kind == RESP_WHOLE ? add_whole : add_step)(&events[at], piece + used);
            used += events[at].used;
        }
        free(events);
        more.used = scanned.used - used;
        piece += scanned.used;
        length -= scanned.used;
        if (cause == RESP_OK && scanned.count < room)
            add_step(&more, piece);
        if (cause != RESP_OK || scanned.count < room)
            return cause;
    }
}

/* Adds the steps of a piece, and then the state of the scanner or the error. Returns whether there was
 * no error. The caller gives each piece its own memory, which lets valgrind find a read outside it. */
static bool add_piece(struct resp_scanner *scanner, const uint8_t *piece, size_t length, size_t room) {
    uint32_t cause = room ? add_many(scanner, piece, length, room) : add_steps(scanner, piece, length);
    if (cause == RESP_OK) {
        add(resp_scanner_depth(scanner));
        add(resp_scanner_taken(scanner));
        add(resp_scanner_needed(scanner));
    } else {
        add(cause);
        add(resp_scanner_taken(scanner));
    }
    return cause == RESP_OK;
}

int main(int count, char **words) {
    struct resp_scanner scanner = {malloc(resp_scanner_size())};
    uint8_t head[3], lengths[255];
    size_t room = count > 1 ? strtoul(words[1], NULL, 10) : 0;
    if (!scanner.memory)
        return 3;
    while (fread(head, 1, sizeof head, stdin) == sizeof head) {
        struct resp_limits limits;
        bool goes_on = true;
        resp_limits_standard(&limits);
        if (head[1] & 4)
            limits = (struct resp_limits){4, 64, 256, 16, true, false};
        limits.doubles = head[1] & 1;
        limits.streamed = !(head[1] & 2);
        if (resp_scanner_init(&scanner, head[0], &limits) != RESP_OK || fread(lengths, 1, head[2], stdin) != head[2])
            return 3;
        sum = 0;
        for (size_t number = 0; number < head[2]; number++) {
            uint8_t *piece = malloc(lengths[number] ? lengths[number] : 1);
            if (!piece || fread(piece, 1, lengths[number], stdin) != lengths[number])
                return 3;
            goes_on = goes_on && add_piece(&scanner, piece, lengths[number], room);
            free(piece);
        }
        add(resp_scanner_finish(&scanner));
        printf("%08" PRIx32 "\n", (uint32_t)(sum >> 32));
    }
    free(scanner.memory);
    return 0;
}
