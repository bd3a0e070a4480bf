/* Tests of the library in rows. Each text is read whole, cut in two at each byte, and byte by byte with
 * an empty piece between, event by event and many events at once. The other calls are tested too. */
#include "resp.h"

#include <inttypes.h>
#include <stdarg.h>
#include <stdio.h>
#include <stdlib.h>
#include <string.h>

static unsigned passed, failed;

static void check(bool is_right, const char *what, const char *said) {
    if (is_right) {
        passed++;
        return;
    }
    failed++;
    printf("%s: %s\n", what, said);
}

/* A text and its events: `_`, `#1`, `:7`, the type byte of a text and its bytes in quotes, the type byte
 * of an aggregate with the number of its members, `]` for a close, `.` for done, and `!cause@byte` for
 * an error of a byte or of the end. */
struct row {
    uint32_t version;
    const char *text;
    const char *wanted;
    void (*limit)(struct resp_limits *);
};

static void no_doubles(struct resp_limits *limits) { limits->doubles = false; }
static void unstreamed(struct resp_limits *limits) { limits->streamed = false; }
static void shallow(struct resp_limits *limits) { limits->depth = 4; }
static void short_content(struct resp_limits *limits) { limits->length = 64; }
static void small(struct resp_limits *limits) { limits->total = 256; }
static void few(struct resp_limits *limits) { limits->items = 16; }

static const struct row ROWS[] = {
    {2, "+OK\r\n", "+\"OK\".", 0},
    {2, "+\r\n", "+\"\".", 0},
    {2, "-ERR no\r\n", "-\"ERR no\".", 0},
    {2, ":0\r\n", ":0.", 0},
    {2, ":-9223372036854775808\r\n", ":-9223372036854775808.", 0},
    {2, ":9223372036854775807\r\n", ":9223372036854775807.", 0},
    {2, ":9223372036854775808\r\n", "!5@19", 0},
    {2, "$5\r\nhe\r\no\r\n", "$\"he\r\no\".", 0},
    {2, "$0\r\n\r\n", "$\"\".", 0},
    {2, "$-1\r\n", "_.", 0},
    {2, "*-1\r\n", "_.", 0},
    {2, "*0\r\n", "*0].", 0},
    {2, "*2\r\n*1\r\n+a\r\n:-1\r\n", "*2*1+\"a\"]:-1].", 0},
    {2, "+a\r\n+b\r\n", "+\"a\".+\"b\".", 0},
    {2, "_\r\n", "!3@0", 0},
    {2, "x", "!1@0", 0},
    {2, "$5\r\nhel", "$\"hel!9@7", 0},
    {2, "", "", 0},
    {3, "_\r\n", "_.", 0},
    {3, "#t\r\n#f\r\n", "#1.#0.", 0},
    {3, "(-0012\r\n", "(-\"12\".", 0},
    {3, "(+0\r\n", "(\"\".", 0},
    {3, "(3492890328409238509324850943850943825024385\r\n",
     "(\"3492890328409238509324850943850943825024385\".", 0},
    {3, "!3\r\nE x\r\n", "!\"E x\".", 0},
    {3, "=7\r\ntxt:abc\r\n", "=txt\"abc\".", 0},
    {3, "$?\r\n;4\r\nhell\r\n;1\r\no\r\n;0\r\n", "$\"hello\".", 0},
    {3, "*?\r\n:1\r\n.\r\n", "*?:1].", 0},
    {3, "%1\r\n+k\r\n~1\r\n:1\r\n", "%1+\"k\"~1:1]].", 0},
    {3, "%?\r\n.\r\n", "%?].", 0},
    {3, "|1\r\n+a\r\n:1\r\n+v\r\n", "|1+\"a\":1+\"v\"].", 0},
    {3, ">2\r\n+m\r\n+n\r\n", ">2+\"m\"+\"n\"].", 0},
    {3, "*1\r\n>", "*1!4@4", 0},
    {3, ",1.5\r\n", "!2@0", no_doubles},
    {3, ",1.5\r\n,-inf\r\n", ",\"1.5\".,\"-inf\".", 0},
    {3, ",-1.5E+07\r\n,nan\r\n", ",\"-1.5E+07\".,\"nan\".", 0},
    {3, ",abc\r\n", ",\"!1@1", 0},
    {3, ",.5\r\n", ",\"!1@1", 0},
    {3, ",\r\n", ",\"!1@1", 0},
    {3, ",1.\r\n", ",\"1.!1@3", 0},
    {3, ",0x1p3\r\n", ",\"0!1@2", 0},
    {3, ",nan(1)\r\n", ",\"nan!1@4", 0},
    {2, ",1.5\r\n", "!3@0", 0},
    {3, "*?", "!12@1", unstreamed},
    /* After the fifth `*` a null is still possible. */
    {2, "*1\r\n*1\r\n*1\r\n*1\r\n*1\r\n", "*1*1*1*1!6@17", shallow},
    {2, "$65\r\n", "!7@2", short_content},
    {2, "$300\r\n", "!8@3", small},
    {2, "*17\r\n", "!13@2", few},
};

/* The events of a text so far. */
struct story {
    char said[512];
    size_t length;
};

static void say(struct story *story, const char *format, ...) {
    va_list values;
    va_start(values, format);
    int count = vsnprintf(story->said + story->length, sizeof story->said - story->length, format, values);
    va_end(values);
    if (count > 0 && story->length + (size_t)count < sizeof story->said)
        story->length += (size_t)count;
}

static void say_event(struct story *story, const struct resp_event *event, const uint8_t *piece) {
    switch (event->kind) {
    case RESP_NULL:
        say(story, "_");
        break;
    case RESP_BOOL:
        say(story, "#%" PRId64, event->number);
        break;
    case RESP_INT:
        say(story, ":%" PRId64, event->number);
        break;
    case RESP_TEXT:
        say(story, "%c", "+-,$!=("[event->form]);
        if (event->form == RESP_TEXT_VERBATIM)
            say(story, "%.3s", (const char *)event->format);
        if (event->form == RESP_TEXT_BIG && event->number)
            say(story, "-");
        say(story, "\"");
        break;
    case RESP_PART:
        say(story, "%.*s", (int)event->part, (const char *)resp_event_part(event, piece));
        break;
    case RESP_TEXT_END:
        say(story, "\"");
        break;
    case RESP_WHOLE:
        say(story, "%c\"%.*s\"", "+-,$"[event->form], (int)event->part,
            (const char *)resp_event_whole(event, piece));
        break;
    case RESP_OPEN:
        say(story, "%c", "*~%|>"[event->form]);
        if (event->members == RESP_STREAMED)
            say(story, "?");
        else
            say(story, "%" PRIu64, event->members);
        break;
    case RESP_CLOSE:
        say(story, "]");
        break;
    case RESP_DONE:
        say(story, ".");
        break;
    }
}

/* Adds the events of a piece, one with each call. Returns RESP_OK or the error. */
static uint32_t say_steps(struct story *story, struct resp_scanner *scanner, const uint8_t *piece, size_t length) {
    for (size_t at = 0;;) {
        struct resp_event event;
        uint32_t cause = resp_scanner_step(scanner, piece + at, length - at, &event);
        if (cause != RESP_OK || event.kind == RESP_MORE)
            return cause;
        say_event(story, &event, piece + at);
        at += event.used;
    }
}

/* The same with calls that return up to `room` events. */
static uint32_t say_many(struct story *story, struct resp_scanner *scanner, const uint8_t *piece, size_t length,
                         size_t room) {
    const struct resp_event left = {.kind = 99, .number = 7};
    for (size_t at = 0;;) {
        /* The array has exactly `room` events, which lets valgrind find a write outside it. */
        struct resp_event *events = malloc((room + 1) * sizeof *events);
        struct resp_scanned scanned = {99, 99};
        size_t from = at;
        for (size_t number = 0; number <= room; number++)
            events[number] = left;
        check(resp_scanner_scan(scanner, piece + at, length - at, events, 0, &scanned) == RESP_OK && !scanned.count &&
              !scanned.used && events[0].kind == 99, "scan", "tells an event without room");
        uint32_t cause = resp_scanner_scan(scanner, piece + at, length - at, events, room, &scanned);
        check(scanned.count <= room && scanned.used <= length - at, "scan", "tells too much");
        for (size_t number = 0; number < scanned.count; number++) {
            say_event(story, &events[number], piece + at);
            at += events[number].used;
        }
        for (size_t number = scanned.count; number <= room; number++)
            check(events[number].kind == 99 && events[number].number == 7, "scan", "writes after the events");
        free(events);
        bool is_used_up = cause == RESP_OK && scanned.count < room;
        check(is_used_up ? from + scanned.used == length : from + scanned.used == at, "scan", "uses other bytes");
        if (is_used_up || cause != RESP_OK)
            return cause;
    }
}

/* Adds the events of a piece, by steps if `room` is 0. Returns whether there was no error. The piece has
 * its own memory, which lets valgrind find a read outside it. */
static bool say_piece(struct story *story, struct resp_scanner *scanner, const char *text, size_t length,
                      size_t room) {
    uint8_t *piece = malloc(length ? length : 1);
    memcpy(piece, text, length);
    uint32_t cause = room ? say_many(story, scanner, piece, length, room) : say_steps(story, scanner, piece, length);
    if (cause != RESP_OK) {
        say(story, "!%" PRIu32 "@%" PRIu64, cause, resp_scanner_taken(scanner));
        struct resp_event event;
        struct resp_scanned scanned = {99, 99};
        check(resp_scanner_step(scanner, piece, length, &event) == cause, text, "refused otherwise again");
        check(resp_scanner_scan(scanner, piece, length, &event, 1, &scanned) == cause && !scanned.count &&
              !scanned.used, text, "refused otherwise among many");
        check(resp_scanner_finish(scanner) == cause, text, "the end is refused otherwise");
        check(resp_scanner_set_version(scanner, 3) == RESP_CAUSE_BUSY, text, "changed after a refusal");
    }
    free(piece);
    return cause == RESP_OK;
}

/* Runs a row, cut before the byte `cut`. If `cut` is the length or one more, runs it byte by byte. */
static void run(const struct row *row, size_t cut, size_t room) {
    size_t length = strlen(row->text);
    struct story story = {"", 0};
    struct resp_limits limits;
    struct resp_scanner scanner = {malloc(resp_scanner_size())};
    resp_limits_standard(&limits);
    if (row->limit)
        row->limit(&limits);
    check(resp_scanner_init(&scanner, row->version, &limits) == RESP_OK, row->text, "no scanner");
    bool goes_on = true;
    if (cut <= length) {
        goes_on = say_piece(&story, &scanner, row->text, cut, room) &&
                  say_piece(&story, &scanner, row->text + cut, length - cut, room);
    } else {
        for (size_t at = 0; goes_on && at < length; at++)
            goes_on = say_piece(&story, &scanner, row->text + at, 1, room) &&
                      say_piece(&story, &scanner, "", 0, room);
    }
    if (goes_on) {
        uint32_t cause = resp_scanner_finish(&scanner);
        if (cause != RESP_OK)
            say(&story, "!%" PRIu32 "@%" PRIu64, cause, resp_scanner_taken(&scanner));
    }
    check(strcmp(story.said, row->wanted) == 0, row->text, story.said);
    free(scanner.memory);
}

static void calls(void) {
    struct resp_limits limits;
    struct resp_event event;
    struct resp_scanner scanner = {malloc(resp_scanner_size())};
    const uint8_t *text = (const uint8_t *)"*2\r\n$5\r\nhello\r\n:1\r\n";
    resp_limits_standard(&limits);
    check(limits.depth == 32 && limits.length == 536870912 && limits.total == 1073741824 &&
          limits.items == 1099511627776 && limits.streamed && limits.doubles, "standard", "other limits");
    check(resp_scanner_init(&scanner, 2, &limits) == RESP_OK, "init", "refused");
    check(resp_scanner_needed(&scanner) == 3, "needed between values", "not 3");
    check(resp_scanner_step(&scanner, text, 8, &event) == RESP_OK && event.used == 4, "step", "no open");
    check(resp_scanner_depth(&scanner) == 1, "depth", "not 1");
    check(resp_scanner_set_version(&scanner, 3) == RESP_CAUSE_BUSY, "set_version", "changed inside a value");
    check(resp_scanner_step(&scanner, text + 4, 4, &event) == RESP_OK && event.kind == RESP_TEXT, "step", "no text");
    check(resp_scanner_taken(&scanner) == 8, "taken", "not 8");
    check(resp_scanner_needed(&scanner) == 10, "needed", "not 10");
    check(resp_scanner_finish(&scanner) == RESP_CAUSE_TRUNCATED, "finish", "not truncated");
    check(resp_scanner_init(&scanner, 4, &limits) == RESP_CAUSE_BAD_VERSION, "init", "no bad version");
    limits.depth = 3;
    check(resp_scanner_init(&scanner, 2, &limits) == RESP_CAUSE_BAD_LIMITS, "init", "no bad limits");
    check(resp_scanner_taken(&scanner) == 8, "a refused init", "has changed the scanner");
    limits.depth = 128;
    check(resp_scanner_init(&scanner, 2, &limits) == RESP_OK, "init again", "refused");
    check(resp_scanner_finish(&scanner) == RESP_OK, "finish between values", "refused");
    check(resp_scanner_set_version(&scanner, 1) == RESP_CAUSE_BAD_VERSION, "set_version", "no bad version");
    check(resp_scanner_set_version(&scanner, 3) == RESP_OK, "set_version", "refused between values");
    check(resp_scanner_step(&scanner, (const uint8_t *)"_\r\n", 3, &event) == RESP_OK && event.kind == RESP_NULL,
          "version 3", "not read");
    free(scanner.memory);
}

/* Tests a call that returns events of several values and an error after them. */
static void many(void) {
    struct resp_limits limits;
    struct resp_event events[8];
    struct resp_scanned scanned;
    struct resp_scanner scanner = {malloc(resp_scanner_size())};
    const uint8_t *text = (const uint8_t *)"+OK\r\n$5\r\nhello\r\n:7\r\n$12\r\nhe";
    resp_limits_standard(&limits);
    check(resp_scanner_init(&scanner, 2, &limits) == RESP_OK, "init", "refused");
    check(resp_scanner_scan(&scanner, text, 27, events, 8, &scanned) == RESP_OK, "scan", "refused");
    check(scanned.count == 8 && scanned.used == 27, "scan", "other counts");
    check(events[0].kind == RESP_WHOLE && events[0].form == RESP_TEXT_SIMPLE && events[0].used == 5 &&
          events[0].part == 2 && resp_event_whole(&events[0], text) == text + 1, "scan", "another simple string");
    check(events[1].kind == RESP_DONE && events[1].used == 0, "scan", "another end");
    check(events[2].kind == RESP_WHOLE && events[2].form == RESP_TEXT_BULK && events[2].used == 11 &&
          events[2].part == 5 && resp_event_whole(&events[2], text + 5) == text + 9, "scan", "another bulk string");
    check(events[4].kind == RESP_INT && events[4].number == 7 && events[4].used == 4, "scan", "another integer");
    check(events[6].kind == RESP_TEXT && events[6].used == 5, "scan", "another beginning");
    check(events[7].kind == RESP_PART && events[7].used == 2 && events[7].part == 2, "scan", "another part");
    check(resp_scanner_init(&scanner, 2, &limits) == RESP_OK, "init again", "refused");
    check(resp_scanner_scan(&scanner, (const uint8_t *)":1\r\n+a\nb", 8, events, 8, &scanned) == RESP_CAUSE_SYNTAX,
          "scan", "no refusal");
    check(scanned.count == 4 && scanned.used == 6 && events[3].kind == RESP_PART &&
          resp_scanner_taken(&scanner) == 2, "scan", "other events before a refusal");
    free(scanner.memory);
}

/* The calls that write, each with the arguments of a row. */
static const char *LONG_BYTES;

#define BYTES(text) (const uint8_t *)text, sizeof text - 1
#define WRITES(name, call)                                                     \
    static uint32_t name(uint8_t *room, size_t length, size_t *size) { return call; }

WRITES(write_array, resp_write_head(room, length, RESP_ARRAY, 2, size))
WRITES(write_set, resp_write_head(room, length, RESP_SET, 0, size))
WRITES(write_map, resp_write_head(room, length, RESP_MAP, 10, size))
WRITES(write_attribute, resp_write_head(room, length, RESP_ATTRIBUTE, 123456789, size))
WRITES(write_push, resp_write_head(room, length, RESP_PUSH, UINT64_MAX, size))
WRITES(write_bulk, resp_write_bulk(room, length, BYTES("he\r\no"), size))
WRITES(write_empty, resp_write_bulk(room, length, BYTES(""), size))
WRITES(write_long, resp_write_bulk(room, length, (const uint8_t *)LONG_BYTES, 1000, size))
WRITES(write_bulk_error, resp_write_bulk_error(room, length, BYTES("E x"), size))
WRITES(write_verbatim, resp_write_verbatim(room, length, (const uint8_t *)"txt", BYTES("abc"), size))
WRITES(write_zero, resp_write_int(room, length, 0, size))
WRITES(write_least, resp_write_int(room, length, INT64_MIN, size))
WRITES(write_most, resp_write_int(room, length, INT64_MAX, size))
WRITES(write_null_2, resp_write_null(room, length, 2, size))
WRITES(write_null_3, resp_write_null(room, length, 3, size))
WRITES(write_true, resp_write_bool(room, length, true, size))
WRITES(write_false, resp_write_bool(room, length, false, size))
WRITES(write_simple, resp_write_simple(room, length, BYTES("OK"), size))
WRITES(write_error, resp_write_error(room, length, BYTES("ERR no"), size))
WRITES(write_double, resp_write_double(room, length, BYTES("1.5"), size))
WRITES(write_big, resp_write_big(room, length, true, BYTES("12"), size))
WRITES(write_big_zero, resp_write_big(room, length, false, BYTES("0"), size))
WRITES(write_lf, resp_write_simple(room, length, BYTES("a\n"), size))
WRITES(write_cr, resp_write_error(room, length, BYTES("\ra"), size))
WRITES(write_double_lf, resp_write_double(room, length, BYTES("\n"), size))
WRITES(write_word_as_double, resp_write_double(room, length, BYTES("abc"), size))
WRITES(write_double_without_digits, resp_write_double(room, length, BYTES("1."), size))
WRITES(write_no_digits, resp_write_big(room, length, false, BYTES(""), size))
WRITES(write_no_digit, resp_write_big(room, length, false, BYTES("1a"), size))
WRITES(write_leading_zero, resp_write_big(room, length, false, BYTES("01"), size))
WRITES(write_minus_zero, resp_write_big(room, length, true, BYTES("0"), size))
WRITES(write_version_4, resp_write_null(room, length, 4, size))
WRITES(write_kind_5, resp_write_head(room, length, 5, 1, size))

static const char *const WORDS[] = {"SET", "key", "a\r\nb"};
static const size_t LENGTHS[] = {3, 3, 4};

static uint32_t command(uint8_t *room, size_t length, size_t *size, void (*limit)(struct resp_limits *), size_t count) {
    struct resp_limits limits;
    resp_limits_standard(&limits);
    if (limit)
        limit(&limits);
    return resp_write_command(room, length, &limits, count, WORDS, LENGTHS, size);
}

WRITES(write_command, command(room, length, size, 0, 3))
WRITES(write_no_words, command(room, length, size, 0, 0))

/* A call that writes, and the text that it has to write or its error. */
struct written {
    uint32_t (*write)(uint8_t *room, size_t length, size_t *size);
    const char *text;
    uint32_t cause;
};

static const struct written WRITTEN[] = {
    {write_array, "*2\r\n", RESP_OK},
    {write_set, "~0\r\n", RESP_OK},
    {write_map, "%10\r\n", RESP_OK},
    {write_attribute, "|123456789\r\n", RESP_OK},
    {write_push, ">18446744073709551615\r\n", RESP_OK},
    {write_bulk, "$5\r\nhe\r\no\r\n", RESP_OK},
    {write_empty, "$0\r\n\r\n", RESP_OK},
    {write_bulk_error, "!3\r\nE x\r\n", RESP_OK},
    {write_verbatim, "=7\r\ntxt:abc\r\n", RESP_OK},
    {write_zero, ":0\r\n", RESP_OK},
    {write_least, ":-9223372036854775808\r\n", RESP_OK},
    {write_most, ":9223372036854775807\r\n", RESP_OK},
    {write_null_2, "$-1\r\n", RESP_OK},
    {write_null_3, "_\r\n", RESP_OK},
    {write_true, "#t\r\n", RESP_OK},
    {write_false, "#f\r\n", RESP_OK},
    {write_simple, "+OK\r\n", RESP_OK},
    {write_error, "-ERR no\r\n", RESP_OK},
    {write_double, ",1.5\r\n", RESP_OK},
    {write_big, "(-12\r\n", RESP_OK},
    {write_big_zero, "(0\r\n", RESP_OK},
    {write_command, "*3\r\n$3\r\nSET\r\n$3\r\nkey\r\n$4\r\na\r\nb\r\n", RESP_OK},
    {write_no_words, "*0\r\n", RESP_OK},
    {write_lf, "", RESP_CAUSE_BAD_LINE},
    {write_cr, "", RESP_CAUSE_BAD_LINE},
    {write_double_lf, "", RESP_CAUSE_BAD_DIGITS},
    {write_word_as_double, "", RESP_CAUSE_BAD_DIGITS},
    {write_double_without_digits, "", RESP_CAUSE_BAD_DIGITS},
    {write_no_digits, "", RESP_CAUSE_BAD_DIGITS},
    {write_no_digit, "", RESP_CAUSE_BAD_DIGITS},
    {write_leading_zero, "", RESP_CAUSE_BAD_DIGITS},
    {write_minus_zero, "", RESP_CAUSE_BAD_DIGITS},
    {write_version_4, "", RESP_CAUSE_BAD_VERSION},
    {write_kind_5, "", RESP_CAUSE_BAD_KIND},
};

/* Returns whether each byte still has the value that no text contains. */
static bool is_blank(const uint8_t *room, size_t length) {
    while (length > 0 && room[length - 1] == 0xAA)
        length--;
    return length == 0;
}

/* Writes a row into a buffer of exactly this length, which lets valgrind find a write outside it. */
static void write_into(const struct written *row, size_t length) {
    size_t wanted = strlen(row->text), size = 999;
    uint8_t *room = malloc(length ? length : 1);
    memset(room, 0xAA, length ? length : 1);
    uint32_t cause = row->write(room, length, &size);
    if (row->cause != RESP_OK) {
        check(cause == row->cause && size == 999 && is_blank(room, length), resp_cause_name(row->cause), "written");
    } else if (length < wanted) {
        check(cause == RESP_CAUSE_NO_ROOM, row->text, "written without room");
        check(size == wanted && is_blank(room, length), row->text, "another size, or a byte, without room");
    } else {
        check(cause == RESP_OK && size == wanted, row->text, "not written");
        check(memcmp(room, row->text, wanted) == 0, row->text, "another text");
        check(is_blank(room + wanted, length - wanted), row->text, "more was written");
    }
    free(room);
}

/* The calls that write, each with a count that wraps if something is added to it. */
static size_t GREAT;

WRITES(great_bulk, resp_write_bulk(room, length, (const uint8_t *)"x", GREAT, size))
WRITES(great_bulk_error, resp_write_bulk_error(room, length, (const uint8_t *)"x", GREAT, size))
WRITES(great_verbatim, resp_write_verbatim(room, length, (const uint8_t *)"txt", (const uint8_t *)"x", GREAT, size))
WRITES(great_simple, resp_write_simple(room, length, (const uint8_t *)"x", GREAT, size))
WRITES(great_error, resp_write_error(room, length, (const uint8_t *)"x", GREAT, size))
WRITES(great_double, resp_write_double(room, length, (const uint8_t *)"1", GREAT, size))
WRITES(great_big, resp_write_big(room, length, false, (const uint8_t *)"1", GREAT, size))
WRITES(great_negative, resp_write_big(room, length, true, (const uint8_t *)"1", GREAT, size))

/* Writes with each count near the greatest number, into buffers of several lengths: nothing is written. */
static void great_writes(void) {
    static uint32_t (*const writing[])(uint8_t *, size_t, size_t *) = {
        great_bulk, great_bulk_error, great_verbatim, great_simple, great_error, great_double, great_big, great_negative,
    };
    static const size_t greatest[] = {SIZE_MAX, SIZE_MAX / 2};
    for (size_t at = 0; at < sizeof writing / sizeof *writing; at++)
        for (size_t below = 0; below <= 64; below++)
            for (size_t length = 0; length <= 64; length++) {
                size_t size = 999;
                uint8_t *room = malloc(length ? length : 1);
                memset(room, 0xAA, length ? length : 1);
                GREAT = greatest[below % 2] - below / 2;
                GREAT += below % 2 ? 33 : 0;
                check(writing[at](room, length, &size) == RESP_CAUSE_NO_ROOM && size > SIZE_MAX / 2 &&
                      is_blank(room, length), "a great count", "written");
                free(room);
            }
}

/* A command with a number of words, or with a word, that no memory has. */
static void great_commands(void) {
    struct resp_limits limits;
    uint8_t room[64];
    size_t size = 999;
    resp_limits_standard(&limits);
    for (size_t below = 0; below <= 64; below++) {
        size_t lengths[3] = {3, SIZE_MAX - below, 4};
        uint32_t cause = resp_write_command(room, sizeof room, &limits, 3, WORDS, lengths, &size);
        check(cause == RESP_CAUSE_LENGTH && size == 999, "a great word", "written");
        cause = resp_write_command(room, sizeof room, &limits, SIZE_MAX - below, WORDS, LENGTHS, &size);
        check(cause == RESP_CAUSE_ITEMS && size == 999, "a great number of words", "written");
    }
}

static void writes(void) {
    size_t size = 999;
    struct resp_limits limits;
    uint8_t room[1100];
    char long_bytes[1000];
    for (size_t row = 0; row < sizeof WRITTEN / sizeof *WRITTEN; row++)
        for (size_t length = 0; length <= strlen(WRITTEN[row].text) + 2; length++)
            write_into(&WRITTEN[row], length);
    memset(long_bytes, 'x', sizeof long_bytes);
    LONG_BYTES = long_bytes;
    check(write_long(room, sizeof room, &size) == RESP_OK && size == 1009, "a thousand bytes", "another size");
    check(memcmp(room, "$1000\r\nxx", 9) == 0 && memcmp(room + 1005, "xx\r\n", 4) == 0, "a thousand bytes", "another text");
    size = 999;
    check(command(room, sizeof room, &size, shallow, 3) == RESP_OK && size == 32, "a shallow command", "refused");
    size = 999;
    resp_limits_standard(&limits);
    limits.depth = 0;
    check(resp_command_size(&limits, LENGTHS, 3, &size) == RESP_CAUSE_BAD_LIMITS && size == 999, "command", "bad limits");
    resp_limits_standard(&limits);
    limits.length = 64, limits.total = 256, limits.items = 16;
    size_t lengths[17] = {64, 64, 60};
    check(resp_command_size(&limits, lengths, 3, &size) == RESP_OK && size == 213, "command", "within limits");
    size = 999;
    lengths[3] = 65;
    check(resp_command_size(&limits, lengths, 17, &size) == RESP_CAUSE_LENGTH && size == 999, "command", "over length");
    lengths[3] = SIZE_MAX;
    check(resp_command_size(&limits, lengths, 17, &size) == RESP_CAUSE_LENGTH && size == 999, "command", "far over length");
    lengths[3] = 64;
    check(resp_command_size(&limits, lengths, 17, &size) == RESP_CAUSE_ITEMS && size == 999, "command", "over items");
    check(resp_command_size(&limits, lengths, 16, &size) == RESP_CAUSE_TOTAL && size == 999, "command", "over total");
}

/* A text that a pairing reads after it has queued these commands: each is the version of a HELLO, or 0. The wanted text
 * has the events, before each value's end the number of its reply, and the version then. */
struct paired {
    const char *commands;
    const char *text;
    const char *wanted;
};

static const struct paired PAIRED[] = {
    {"00", "+a\r\n:1\r\n", "+\"a\"=1v2.:1=2v2."},
    {"0", "+a\r\n:1\r\n", "+\"a\"=1v2.!20"},
    {"", "+a\r\n", "!20"},
    {"3", ">1\r\n+m\r\n%0\r\n", ">1+\"m\"]=0v2.%0]=1v3."},
    {"", ">1\r\n+m\r\n", "!3"},
    {"030", "+a\r\n%1\r\n+k\r\n:1\r\n_\r\n>1\r\n+m\r\n+b\r\n",
     "+\"a\"=1v2.%1+\"k\":1]=2v3._=3v3.>1+\"m\"]=0v3.!20"},
    {"030", "_\r\n", "!3"},
    {"30", "-ERR no\r\n_\r\n", "-\"ERR no\"=1v2.!3"},
    {"30", "!3\r\nE x\r\n_\r\n", "!\"E x\"=1v2.!3"},
    {"30", "|1\r\n+a\r\n:1\r\n-ERR no\r\n_\r\n", "|1+\"a\":1-\"ERR no\"]=1v2.!3"},
    {"30", "|1\r\n+a\r\n-b\r\n+OK\r\n_\r\n", "|1+\"a\"-\"b\"+\"OK\"]=1v3._=2v3."},
    {"30", "|1\r\n|1\r\n+a\r\n-b\r\n:1\r\n:2\r\n-no\r\n_\r\n", "|1|1+\"a\"-\"b\":1]:2-\"no\"]=1v2.!3"},
    {"30", "*1\r\n-ERR no\r\n_\r\n", "*1-\"ERR no\"]=1v3._=2v3."},
    {"30", "|1\r\n+a\r\n:1\r\n*1\r\n-no\r\n_\r\n", "|1+\"a\":1*1-\"no\"]]=1v3._=2v3."},
    {"20", "*2\r\n+a\r\n:1\r\n+b\r\n", "*2+\"a\":1]=1v2.+\"b\"=2v2."},
    {"0", "*1\r\n-no\r\n", "*1-\"no\"]=1v2."},
    {"00", ":1\r\n$2\r\nab\r\n+c\r\n:2\r\n", ":1=1v2.$\"ab\"=2v2.!20"},
    {"3000", "%0\r\n>1\r\n:1\r\n#t\r\n>0\r\n_\r\n,1.5\r\n:5\r\n",
     "%0]=1v3.>1:1]=0v3.#1=2v3.>0]=0v3._=3v3.,\"1.5\"=4v3.!20"},
    {"00", ":1\r\n:x", ":1=1v2.!1"},
    {"0", ":1\r\nx", ":1=1v2.!20"},
};

static bool pair_piece(struct story *story, struct resp_pairing *pairing, struct resp_scanner *scanner, const char *text,
                       size_t length) {
    uint8_t *piece = malloc(length ? length : 1);
    uint32_t cause = RESP_OK;
    memcpy(piece, text, length);
    for (size_t at = 0;;) {
        struct resp_event event;
        uint64_t number = 99;
        cause = resp_pairing_step(pairing, scanner, piece + at, length - at, &event, &number);
        if (cause != RESP_OK || event.kind == RESP_MORE)
            break;
        if (event.kind == RESP_DONE)
            say(story, "=%" PRIu64 "v%" PRIu32, number, pairing->version);
        say_event(story, &event, piece + at);
        at += event.used;
    }
    if (cause != RESP_OK)
        say(story, "!%" PRIu32, cause);
    free(piece);
    return cause == RESP_OK;
}

/* Runs a row, cut before the byte `cut`. If `cut` is the length or one more, runs it byte by byte. */
static void pair(const struct paired *row, size_t cut) {
    size_t length = strlen(row->text);
    struct story story = {"", 0};
    struct resp_pairing pairing;
    struct resp_limits limits;
    struct resp_scanner scanner = {malloc(resp_scanner_size())};
    uint64_t number = 0;
    resp_limits_standard(&limits);
    resp_scanner_init(&scanner, 3, &limits);
    resp_pairing_init(&pairing);
    for (const char *command = row->commands; *command; command++) {
        uint32_t cause = resp_pairing_queue(&pairing, (uint32_t)(*command - '0'), &number);
        check(cause == RESP_OK && number == (uint64_t)(command - row->commands) + 1, row->text, "not queued");
    }
    bool goes_on = true;
    if (cut <= length) {
        goes_on = pair_piece(&story, &pairing, &scanner, row->text, cut) &&
                  pair_piece(&story, &pairing, &scanner, row->text + cut, length - cut);
    } else {
        for (size_t at = 0; goes_on && at < length; at++)
            goes_on = pair_piece(&story, &pairing, &scanner, row->text + at, 1) &&
                      pair_piece(&story, &pairing, &scanner, "", 0);
    }
    check(strcmp(story.said, row->wanted) == 0, row->text, story.said);
    free(scanner.memory);
}

/* Adds the events of a piece with their numbers by calls for up to `room` events. Returns whether it goes on. */
static bool scan_piece(struct story *story, struct resp_pairing *pairing, struct resp_scanner *scanner,
                       const struct resp_limits *limits, const char *text, size_t length, size_t room) {
    uint8_t *piece = malloc(length ? length : 1);
    struct resp_event *events = malloc(room * sizeof *events);
    uint64_t *numbers = malloc(room * sizeof *numbers);
    struct resp_scanned scanned;
    uint32_t cause = RESP_OK;
    size_t at = 0;
    memcpy(piece, text, length);
    do {
        size_t from = at;
        cause = resp_pairing_scan(pairing, scanner, limits, piece + at, length - at, events, numbers, room, &scanned);
        check(scanned.count <= room && scanned.used <= length - at, text, "a scan tells too much");
        for (size_t number = 0; number < scanned.count; number++) {
            if (events[number].kind == RESP_DONE)
                say(story, "=%" PRIu64, numbers[number]);
            say_event(story, &events[number], piece + at);
            at += events[number].used;
        }
        bool is_used_up = cause == RESP_OK && scanned.count < room;
        check(from + scanned.used == (is_used_up ? length : at), text, "a scan uses other bytes");
    } while (cause == RESP_OK && scanned.count == room);
    if (cause != RESP_OK)
        say(story, "!%" PRIu32, cause);
    /* A value that no command asked for can be read once a command is queued. */
    if (cause == RESP_CAUSE_UNASKED) {
        struct resp_pairing asked = *pairing;
        struct resp_event event;
        uint64_t number = 0;
        check(resp_scanner_taken(scanner) == 0, text, "the scanner has read an unasked value");
        resp_pairing_queue(&asked, 0, &number);
        check(resp_pairing_step(&asked, scanner, piece + at, length - at, &event, &number) != RESP_CAUSE_UNASKED, text,
              "a value is unasked again");
    }
    free(numbers);
    free(events);
    free(piece);
    return cause == RESP_OK;
}

/* Runs a row by calls for up to `room` events. The versions of the row are left out. */
static void pair_many(const struct paired *row, size_t cut, size_t room) {
    size_t length = strlen(row->text), wanted_length = 0;
    char wanted[512];
    struct story story = {"", 0};
    struct resp_pairing pairing;
    struct resp_limits limits;
    union resp_scanner_memory memory;
    struct resp_scanner scanner;
    uint64_t number;
    resp_limits_standard(&limits);
    resp_scanner_init_in(&scanner, &memory, 3, &limits);
    resp_pairing_init(&pairing);
    for (const char *command = row->commands; *command; command++)
        resp_pairing_queue(&pairing, (uint32_t)(*command - '0'), &number);
    for (const char *at = row->wanted; *at; at++) {
        if (*at == 'v' && (at[1] == '2' || at[1] == '3'))
            at++;
        else
            wanted[wanted_length++] = *at;
    }
    wanted[wanted_length] = '\0';
    bool goes_on = true;
    if (cut <= length) {
        goes_on = scan_piece(&story, &pairing, &scanner, &limits, row->text, cut, room) &&
                  scan_piece(&story, &pairing, &scanner, &limits, row->text + cut, length - cut, room);
    } else {
        for (size_t at = 0; goes_on && at < length; at++)
            goes_on = scan_piece(&story, &pairing, &scanner, &limits, row->text + at, 1, room) &&
                      scan_piece(&story, &pairing, &scanner, &limits, "", 0, room);
    }
    check(strcmp(story.said, wanted) == 0, row->text, story.said);
}

/* Tests the version after a reply to HELLO that is a whole text. */
static void pair_whole(uint32_t form, uint32_t wanted) {
    struct resp_pairing pairing;
    struct resp_event whole = {0}, done = {0};
    uint64_t number = 99;
    uint32_t version = 99;
    resp_pairing_init(&pairing);
    resp_pairing_queue(&pairing, 3, &number);
    resp_pairing_first(&pairing, '+', &version);
    whole.kind = RESP_WHOLE;
    whole.form = form;
    done.kind = RESP_DONE;
    resp_pairing_take(&pairing, &whole, &number);
    resp_pairing_take(&pairing, &done, &number);
    check(number == 1 && pairing.version == wanted, "pairing", "a whole text is taken otherwise");
}

static void pairs(void) {
    struct resp_pairing pairing, before;
    uint64_t number = 99;
    uint32_t version = 99;
    for (size_t row = 0; row < sizeof PAIRED / sizeof *PAIRED; row++)
        for (size_t cut = 0; cut <= strlen(PAIRED[row].text) + 1; cut++)
            pair(&PAIRED[row], cut);
    for (size_t row = 0; row < sizeof PAIRED / sizeof *PAIRED; row++)
        for (size_t cut = 0; cut <= strlen(PAIRED[row].text) + 1; cut++)
            for (size_t room = 1; room <= 40; room += room < 5 ? 1 : 9)
                pair_many(&PAIRED[row], cut, room);
    resp_pairing_init(&pairing);
    check(resp_pairing_queue(&pairing, 4, &number) == RESP_CAUSE_BAD_VERSION && number == 99, "queue", "version 4");
    check(resp_pairing_queue(&pairing, 3, &number) == RESP_OK && number == 1, "queue", "no HELLO");
    before = pairing;
    check(resp_pairing_queue(&pairing, 2, &number) == RESP_CAUSE_HELLO_WAITS && number == 1, "queue", "two HELLOs");
    check(memcmp(&before, &pairing, sizeof pairing) == 0, "queue", "a refusal has changed it");
    check(resp_pairing_queue(&pairing, 0, &number) == RESP_OK && number == 2, "queue", "no command after HELLO");
    check(resp_pairing_first(&pairing, '%', &version) == RESP_OK && version == 3, "first", "not in version 3");
    resp_pairing_init(&pairing);
    check(resp_pairing_first(&pairing, '+', &version) == RESP_CAUSE_UNASKED && version == 3, "first", "asked");
    check(resp_pairing_first(&pairing, '>', &version) == RESP_OK && version == 2, "first", "no push");
    for (uint32_t form = RESP_TEXT_SIMPLE; form <= RESP_TEXT_BULK; form++)
        pair_whole(form, form == RESP_TEXT_ERROR ? 2 : 3);
    resp_pairing_init(&pairing);
    pairing.answered = UINT64_C(1) << 63;
    check(resp_pairing_queue(&pairing, 0, &number) == RESP_CAUSE_TOO_MANY && number == 2, "queue", "too many");
}

/* The commands of a connection in version 3, the text received, and the wanted numbers: of each command `#`, or `!` and
 * the error, and then of each value. */
struct subscribed {
    const char *commands[6];
    const char *text;
    const char *wanted;
};

#define SUBSCRIBED(name) ">3\r\n$9\r\nsubscribe\r\n$1\r\n" name "\r\n:1\r\n"
#define MESSAGE ">3\r\n+message\r\n+a\r\n+hello\r\n"

static const struct subscribed SUBSCRIPTIONS[] = {
    {{"GET a", "SUBSCRIBE a b", "GET b"}, "+1\r\n" SUBSCRIBED("a") SUBSCRIBED("b") "+3\r\n", "#2#3#4=2=0=0=4."},
    {{"GET a", "SUBSCRIBE a b", "GET b"}, MESSAGE "+1\r\n" SUBSCRIBED("a") SUBSCRIBED("b") MESSAGE "+3\r\n",
     "#2#3#4=0=2=0=0=0=4."},
    {{"SUBSCRIBE a", "GET b"}, "-NOPERM no\r\n+3\r\n", "#2#3=2=3."},
    {{"GET a", "SUBSCRIBE a b", "GET b"}, "+1\r\n!4\r\nE no\r\n" MESSAGE "+3\r\n", "#2#3#4=2=3=0=4."},
    {{"SUBSCRIBE a b", "GET b"}, SUBSCRIBED("a") SUBSCRIBED("b") "_\r\n" MESSAGE, "#2#3=0=0=3=0."},
    {{"SUBSCRIBE a", "GET b"}, SUBSCRIBED("a") "_\r\n+a\r\n", "#2#3=0=3!20"},
    {{"SUBSCRIBE a", "UNSUBSCRIBE b", "GET b"}, SUBSCRIBED("a") "_\r\n", "#2!69#3=0=3."},
    {{"UNSUBSCRIBE", "HELLO 2", "SUBSCRIBE a", "GET a"}, "*0\r\n_\r\n", "!68#2!68#3=2!3"},
    {{"SSUBSCRIBE a", "HELLO 3", "GET a"}, SUBSCRIBED("a") "%0\r\n_\r\n", "#2#3#4=0=3=4."},
};

static uint32_t queue_words(struct resp_pairing *pairing, const char *words, uint64_t *number) {
    const char *argv[8];
    size_t argvlen[8], argc = 0;
    while (*words) {
        argv[argc] = words;
        words += argvlen[argc++] = strcspn(words, " ");
        words += *words == ' ';
    }
    return resp_pairing_queue_command(pairing, argc, argv, argvlen, number);
}

/* Reads the text of a row in pieces of this many bytes. */
static void subscribe(const struct subscribed *row, size_t size) {
    union resp_scanner_memory memory;
    struct resp_scanner scanner;
    struct resp_limits limits;
    struct resp_pairing pairing;
    struct story story = {"", 0};
    uint64_t number;
    size_t length = strlen(row->text);
    resp_limits_standard(&limits);
    resp_scanner_init_in(&scanner, &memory, 3, &limits);
    resp_pairing_init(&pairing);
    resp_pairing_queue(&pairing, RESP_COMMAND_HELLO_3, &number);
    pair_piece(&(struct story){"", 0}, &pairing, &scanner, "%0\r\n", 4);
    for (const char *const *words = row->commands; *words; words++) {
        uint32_t cause = queue_words(&pairing, *words, &number);
        cause == RESP_OK ? say(&story, "#%" PRIu64, number) : say(&story, "!%" PRIu32, cause);
    }
    uint32_t cause = RESP_OK;
    for (size_t at = 0; cause == RESP_OK && at < length; at += size) {
        size_t left = size < length - at ? size : length - at;
        const uint8_t *piece = (const uint8_t *)row->text + at;
        struct resp_event event;
        while ((cause = resp_pairing_step(&pairing, &scanner, piece, left, &event, &number)) == RESP_OK && event.kind) {
            if (event.kind == RESP_DONE)
                say(&story, "=%" PRIu64, number);
            piece += event.used;
            left -= event.used;
        }
    }
    cause == RESP_OK ? say(&story, ".") : say(&story, "!%" PRIu32, cause);
    check(!strcmp(story.said, row->wanted), row->text, story.said);
}

static void subscriptions(void) {
    for (size_t row = 0; row < sizeof SUBSCRIPTIONS / sizeof *SUBSCRIPTIONS; row++)
        for (size_t size = 1; size <= strlen(SUBSCRIPTIONS[row].text); size++)
            subscribe(&SUBSCRIPTIONS[row], size);
    struct resp_pairing pairing, before;
    uint64_t number = 99;
    resp_pairing_init(&pairing);
    before = pairing;
    check(resp_pairing_queue_pushes(&pairing, 1, &number) == RESP_CAUSE_UNPAIRED && number == 99 &&
          !memcmp(&before, &pairing, sizeof pairing), "pushes", "queued in version 2");
    check(!strcmp(resp_cause_name(RESP_CAUSE_PUSHES_WAIT), "PushesWait"), "pushes", "another name");
}

/* The words of a command, separated by spaces, and its kind. */
struct kind {
    const char *words;
    uint32_t kind;
};

static const struct kind KINDS[] = {
    {"", RESP_COMMAND_NOT_PAIRED}, {"GET a", RESP_COMMAND_ONE_REPLY}, {"HELLO", RESP_COMMAND_ONE_REPLY},
    {"HELLO 2", RESP_COMMAND_HELLO_2}, {"hello 3 SETNAME a", RESP_COMMAND_HELLO_3}, {"HELLO 4", RESP_COMMAND_ONE_REPLY},
    {"HELLO 33", RESP_COMMAND_ONE_REPLY}, {"SUBSCRIBE a b", RESP_COMMAND_SUBSCRIBING},
    {"subScribe a", RESP_COMMAND_SUBSCRIBING}, {"UNSUBSCRIBE", RESP_COMMAND_SUBSCRIBING},
    {"PSUBSCRIBE a", RESP_COMMAND_SUBSCRIBING}, {"PUNSUBSCRIBE", RESP_COMMAND_SUBSCRIBING},
    {"SSUBSCRIBE a", RESP_COMMAND_SUBSCRIBING}, {"sunsubscribe", RESP_COMMAND_SUBSCRIBING},
    {"MONITOR", RESP_COMMAND_NOT_PAIRED}, {"sync", RESP_COMMAND_NOT_PAIRED}, {"PSYNC ? -1", RESP_COMMAND_NOT_PAIRED},
    {"RESET", RESP_COMMAND_NOT_PAIRED}, {"CLIENT REPLY OFF", RESP_COMMAND_NOT_PAIRED},
    {"client reply", RESP_COMMAND_NOT_PAIRED}, {"CLIENT ID", RESP_COMMAND_ONE_REPLY}, {"CLIENT", RESP_COMMAND_ONE_REPLY},
    {"RESETS", RESP_COMMAND_ONE_REPLY}, {"GET RESET", RESP_COMMAND_ONE_REPLY}, {"PUBSUB CHANNELS", RESP_COMMAND_ONE_REPLY},
};

static void kinds(void) {
    for (size_t row = 0; row < sizeof KINDS / sizeof *KINDS; row++) {
        const char *argv[8], *at = KINDS[row].words;
        size_t argvlen[8], argc = 0;
        while (*at) {
            argvlen[argc] = strcspn(at, " ");
            /* Each word has its own memory, which lets valgrind find a read outside it. */
            argv[argc] = memcpy(malloc(argvlen[argc]), at, argvlen[argc]);
            at += argvlen[argc++];
            at += *at == ' ';
        }
        struct resp_pairing pairing, before;
        uint64_t number = 99;
        uint32_t kind = KINDS[row].kind;
        bool is_paired = kind != RESP_COMMAND_SUBSCRIBING && kind != RESP_COMMAND_NOT_PAIRED;
        resp_pairing_init(&pairing);
        before = pairing;
        uint32_t cause = resp_pairing_queue_command(&pairing, argc, argv, argvlen, &number);
        check(cause == (is_paired ? RESP_OK : RESP_CAUSE_UNPAIRED), KINDS[row].words, "queued otherwise");
        check(is_paired ? number == 1 : number == 99 && !memcmp(&before, &pairing, sizeof pairing), KINDS[row].words,
              "another state");
        check(pairing.hello == (is_paired ? kind : 0), KINDS[row].words, "another version");
        while (argc > 0)
            free((char *)argv[--argc]);
    }
    check(!strcmp(resp_cause_name(RESP_CAUSE_UNPAIRED), "Unpaired"), "unpaired", "another name");
}

/* A buffer that grows up to a limit. */
struct growing {
    uint8_t *start;
    size_t length, most, calls;
};

static uint8_t *make_room(void *buffer, size_t more) {
    struct growing *growing = buffer;
    growing->calls++;
    if (growing->length + more > growing->most)
        return NULL;
    uint8_t *start = realloc(growing->start, growing->length + more);
    growing->start = start;
    growing->length += more;
    return start + growing->length - more;
}

static void appends(void) {
    struct resp_limits limits;
    struct growing growing = {NULL, 0, 70, 0};
    size_t size = 0;
    resp_limits_standard(&limits);
    for (size_t at = 0; at < 2; at++)
        check(resp_append_command(make_room, &growing, &limits, 3, WORDS, LENGTHS, &size) == RESP_OK && size == 32,
              "append", "not written");
    static const char wanted[] = "*3\r\n$3\r\nSET\r\n$3\r\nkey\r\n$4\r\na\r\nb\r\n";
    check(growing.length == 64 && !memcmp(growing.start, wanted, 32) && !memcmp(growing.start + 32, wanted, 32), "append",
          "another text");
    size = 0;
    check(resp_append_command(make_room, &growing, &limits, 3, WORDS, LENGTHS, &size) == RESP_CAUSE_NO_ROOM && size == 32 &&
          growing.length == 64 && growing.calls == 3, "append", "written without room");
    limits.depth = 0;
    check(resp_append_command(make_room, &growing, &limits, 3, WORDS, LENGTHS, &size) == RESP_CAUSE_BAD_LIMITS &&
          growing.calls == 3, "append", "room was made");
    free(growing.start);
}

/* NULL with a length of 0: as a piece, at every byte of a text, and as a room and a text to write. */
static void nulls(void) {
    static const char text[] = "*2\r\n$5\r\nhello\r\n(0012\r\n+a\r\n=5\r\ntxt:a\r\n$?\r\n;1\r\na\r\n;0\r\n";
    union resp_scanner_memory memory, other_memory;
    struct resp_scanner scanner, other;
    struct resp_limits limits;
    struct resp_event event;
    struct resp_scanned scanned;
    size_t size;
    resp_limits_standard(&limits);
    resp_scanner_init_in(&scanner, &memory, 3, &limits);
    resp_scanner_init_in(&other, &other_memory, 3, &limits);
    for (size_t at = 0; at < sizeof text - 1; at++) {
        struct story with = {"", 0}, without = {"", 0};
        check(say_steps(&with, &scanner, (const uint8_t *)text + at, 1) == RESP_OK, "NULL", "refused");
        check(say_steps(&with, &scanner, NULL, 0) == RESP_OK, "NULL", "a step is refused");
        check(say_steps(&without, &other, (const uint8_t *)text + at, 1) == RESP_OK, "NULL", "refused");
        check(!strcmp(with.said, without.said), "NULL", with.said);
        check(resp_scanner_scan(&scanner, NULL, 0, &event, 1, &scanned) == RESP_OK && !scanned.count, "NULL", "a scan");
        check(resp_scanner_scan(&scanner, NULL, 0, NULL, 0, &scanned) == RESP_OK && !scanned.count, "NULL", "no array");
    }
    uint8_t room[16] = {0};
    check(resp_write_bulk(room, 16, NULL, 0, &size) == RESP_OK && size == 6 && !memcmp(room, "$0\r\n\r\n", 6), "NULL", "a bulk");
    check(resp_write_simple(room, 16, NULL, 0, &size) == RESP_OK && size == 3, "NULL", "a simple string");
    check(resp_write_verbatim(room, 16, (const uint8_t *)"txt", NULL, 0, &size) == RESP_OK && size == 10, "NULL", "a verbatim");
    check(resp_write_big(room, 16, false, NULL, 0, &size) == RESP_CAUSE_BAD_DIGITS, "NULL", "a big number");
    check(resp_write_bulk(NULL, 0, NULL, 0, &size) == RESP_CAUSE_NO_ROOM && size == 6, "NULL", "a bulk without room");
    check(resp_write_int(NULL, 0, 7, &size) == RESP_CAUSE_NO_ROOM && size == 4, "NULL", "an integer without room");
    check(resp_write_head(NULL, 0, RESP_ARRAY, 7, &size) == RESP_CAUSE_NO_ROOM && size == 4, "NULL", "a head without room");
    check(resp_command_size(&limits, NULL, 0, &size) == RESP_OK && size == 4, "NULL", "no words");
    check(resp_write_command(room, 16, &limits, 0, NULL, NULL, &size) == RESP_OK && size == 4, "NULL", "a command");
    check(resp_command_kind(0, NULL, 0, NULL, 0) == RESP_COMMAND_NOT_PAIRED, "NULL", "a kind");
    check(resp_command_kind(2, NULL, 0, NULL, 0) == RESP_COMMAND_ONE_REPLY, "NULL", "another kind");
}

/* Whether a call with these bytes and so much room returns this, and reads so many nodes and bytes. */
static bool reads(const char *text, size_t room, uint32_t cause, size_t nodes, size_t used) {
    struct resp_limits limits;
    struct resp_replies replies = {99, 99};
    size_t length = strlen(text);
    /* Both have exactly these sizes, which lets a sanitizer find an access outside them. */
    uint8_t *buffer = malloc(length ? length : 1);
    struct resp_node *made = malloc(room ? room * sizeof *made : 1);
    if (!buffer || !made)
        exit(3);
    memcpy(buffer, text, length);
    resp_limits_standard(&limits);
    uint32_t told = resp_reply_read(3, &limits, length ? buffer : NULL, length, room ? made : NULL, room, &replies);
    free(buffer);
    free(made);
    return told == cause && replies.nodes == nodes && replies.used == used;
}

/* Whole replies as nodes. */
static void flat_replies(void) {
    static const char TEXT[] = "%2\r\n$4\r\nrole\r\n+master\r\n+list\r\n*2\r\n:-7\r\n*1\r\n=7\r\ntxt:a\r\n\r\n#t\r\n";
    const uint8_t *text = (const uint8_t *)TEXT;
    struct resp_limits limits;
    struct resp_node nodes[9];
    struct resp_replies replies;
    resp_limits_standard(&limits);
    check(resp_reply_read(3, &limits, text, strlen(TEXT), nodes, 9, &replies) == RESP_OK && replies.nodes == 9 &&
          replies.used == strlen(TEXT), "nodes", "another result");
    check(nodes[0].kind == RESP_OPEN && nodes[0].form == RESP_MAP && nodes[0].length == 4 && nodes[0].size == 8, "nodes", "no map");
    check(resp_node_next(nodes) == nodes + 8 && nodes[8].kind == RESP_BOOL && nodes[8].number == 1, "nodes", "no boolean");
    const struct resp_node *role = resp_node_value(nodes, text, "role", 4), *list = resp_node_value(nodes, text, "list", 4);
    check(role == nodes + 2 && resp_node_is(role, text, "master", 6) && !resp_node_is(role, text, "maste", 5), "nodes", "no role");
    check(list == nodes + 4 && list->length == 2 && resp_node_first(list)->number == -7, "nodes", "no list");
    const struct resp_node *inner = resp_node_next(resp_node_first(list));
    check(inner->form == RESP_ARRAY && inner->size == 2 && !memcmp(inner[1].format, "txt", 3) && inner[1].length == 3 &&
          !memcmp(resp_node_text(&inner[1], text), "a\r\n", 3), "nodes", "no verbatim string");
    check(!resp_node_value(nodes, text, "", 0) && !resp_node_value(list, text, "role", 4), "nodes", "a value of no key");
    check(reads("", 0, RESP_OK, 0, 0) && reads("+", 0, RESP_CAUSE_TRUNCATED, 0, 0), "nodes", "no bytes");
    check(reads("+\r\n", 0, RESP_CAUSE_NO_ROOM, 0, 0) && reads("+\r\n*1\r\n_\r\n", 2, RESP_CAUSE_NO_ROOM, 1, 3), "nodes", "no room");
    check(reads(":1\r\n$?\r\n;1\r\na\r\n;0\r\n", 9, RESP_CAUSE_NOT_PLAIN, 1, 4), "nodes", "a streamed string");
    check(reads(":1\r\n:+1\r\n", 9, RESP_CAUSE_NOT_PLAIN, 1, 4) && reads("(1\r\n", 9, RESP_CAUSE_NOT_PLAIN, 0, 0), "nodes", "numbers");
    check(reads("*2\r\n:+1\r\n:2\r\n", 0, RESP_CAUSE_NOT_PLAIN, 0, 0), "nodes", "an integer with a sign, and no room");
    check(reads("$30\r\nabcdefghijklmnopqrstuvwxyz0123\r\n", 1, RESP_OK, 1, 37), "nodes", "a text of many bytes and one node");
    check(reads(":1\r\n$4\r\nabcde\r\n", 9, RESP_CAUSE_SYNTAX, 1, 4), "nodes", "a long text");
    check(reads("$18446744073709551615\r\n", 9, RESP_CAUSE_LENGTH, 0, 0), "nodes", "a great length");
    check(reads("*18446744073709551615\r\n", 9, RESP_CAUSE_TOTAL, 0, 0), "nodes", "a great array");
    check(reads("%9223372036854775808\r\n", 9, RESP_CAUSE_TOTAL, 0, 0), "nodes", "a great map");
    check(reads("*999999999\r\n", 9, RESP_CAUSE_TOTAL, 0, 0) && reads("*99999\r\n", 9, RESP_CAUSE_TRUNCATED, 0, 0), "nodes", "members");
    replies = (struct resp_replies){99, 99};
    check(resp_reply_read(4, &limits, text, 3, nodes, 9, &replies) == RESP_CAUSE_BAD_VERSION && replies.used == 99, "nodes", "version 4");
    check(resp_reply_read(2, &limits, text, 3, nodes, 9, &replies) == RESP_CAUSE_VERSION && replies.used == 0, "nodes", "version 2");
    limits.depth = 3;
    replies.used = 99;
    check(resp_reply_read(3, &limits, text, 3, nodes, 9, &replies) == RESP_CAUSE_BAD_LIMITS && replies.used == 99, "nodes", "limits");
    limits.depth = 32, limits.streamed = false;
    check(resp_reply_read(3, &limits, (const uint8_t *)"*?\r\n.\r\n", 7, nodes, 9, &replies) == RESP_CAUSE_STREAMED, "nodes", "a stream");
    check(!strcmp(resp_cause_name(RESP_CAUSE_NOT_PLAIN), "NotPlain"), "nodes", "another name");
}

/* A scanner on the stack, and the names of what it returns. */
static void on_the_stack(void) {
    union resp_scanner_memory memory;
    struct resp_scanner scanner;
    struct resp_limits limits;
    struct resp_event event;
    resp_limits_standard(&limits);
    check(resp_scanner_init_in(&scanner, &memory, 4, &limits) == RESP_CAUSE_BAD_VERSION, "stack", "version 4");
    check(resp_scanner_init_in(&scanner, &memory, 3, &limits) == RESP_OK, "stack", "no room");
    check(resp_scanner_step(&scanner, (const uint8_t *)"*2\r\n", 4, &event) == RESP_OK, "stack", "no step");
    check(resp_event_kind(&event) == RESP_OPEN && resp_event_aggregate(&event) == RESP_ARRAY, "stack", "no array");
    check(!strcmp(resp_kind_name(event.kind), "open") && !strcmp(resp_aggregate_name(event.form), "array"), "names", "other");
    check(resp_scanner_step(&scanner, (const uint8_t *)"+a\r\n", 4, &event) == RESP_OK, "stack", "no second step");
    check(resp_event_kind(&event) == RESP_TEXT && resp_event_text(&event) == RESP_TEXT_SIMPLE, "stack", "no text");
    check(!strcmp(resp_text_name(event.form), "simple string"), "names", "another text");
    for (uint32_t number = 0; number <= 12; number++) {
        check((*resp_kind_name(number) != 0) == (number <= RESP_WHOLE), "names", "of kinds");
        check((*resp_text_name(number) != 0) == (number <= RESP_TEXT_BIG), "names", "of texts");
        check((*resp_aggregate_name(number) != 0) == (number <= RESP_PUSH), "names", "of aggregates");
    }
}

int main(void) {
    check(resp_version() == RESP_VERSION_NUMBER && RESP_VERSION_NUMBER == 0x000300 && !strcmp(RESP_VERSION, "0.3.0"), "version",
          "another one");
    check(sizeof(void *) != 8 || (sizeof(struct resp_event) == 48 && sizeof(struct resp_pairing) == 64 &&
          sizeof(struct resp_limits) == 40 && sizeof(struct resp_scanned) == 16 && sizeof(struct resp_node) == 40), "structs", "have other sizes");
    appends();
    on_the_stack();
    nulls();
    flat_replies();
    writes();
    great_writes();
    great_commands();
    pairs();
    kinds();
    subscriptions();
    for (size_t row = 0; row < sizeof ROWS / sizeof *ROWS; row++)
        for (size_t cut = 0; cut <= strlen(ROWS[row].text) + 1; cut++)
            for (size_t room = 0; room <= 5; room++)
                run(&ROWS[row], cut, room);
    many();
    calls();
    printf("%u passed, %u failed\n", passed, failed);
    return failed != 0;
}
