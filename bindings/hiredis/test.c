/* Tests of the reader in rows. Each text is fed whole, cut in two at each byte, and byte by byte. With -DTHEIRS it tests
 * that hiredis' own reader differs from ours as README.md says. */
#include "read.h"

#include <inttypes.h>
#include <stdbool.h>
#include <stdint.h>
#include <stdio.h>
#include <stdlib.h>
#include <string.h>

#ifdef REDIS_READER_MAX_ARRAY_ELEMENTS
#include "alloc.h"
#endif

static unsigned passed, failed;

/* A reply as a line of text. */
struct object {
    char text[400];
};

/* The number of objects that haven't been freed. */
static int held;

/* Makes a new object for a top-level value. Values inside it are added to that object. */
static void *made(const redisReadTask *task, const char *text) {
    struct object *object = calloc(1, sizeof *object), *parent = task->parent ? task->parent->obj : NULL;
    held += !task->parent;
    if (task->privdata != &held) {
        failed++;
        printf("%s: other private data\n", text);
    }
    snprintf(object->text, sizeof object->text, "%s ", text);
    if (!parent)
        return object;
    if (strlen(parent->text) + strlen(object->text) < sizeof parent->text)
        strcat(parent->text, object->text);
    free(object);
    return parent;
}

static void *on_string(const redisReadTask *task, char *text, size_t length) {
    char line[300];
    snprintf(line, sizeof line, "%d\"%.*s\"", task->type, (int)length, text);
    return made(task, line);
}

#ifdef REDIS_REPLY_DOUBLE
typedef size_t member_count;

static void *on_double(const redisReadTask *task, double number, char *text, size_t length) {
    char line[300];
    snprintf(line, sizeof line, "%d\"%.*s\"=%g", task->type, (int)length, text, number);
    return made(task, line);
}

static void *on_bool(const redisReadTask *task, int truth) {
    char line[20];
    snprintf(line, sizeof line, "%d=%d", task->type, truth);
    return made(task, line);
}
#else
typedef int member_count;
#endif

static void *on_array(const redisReadTask *task, member_count members) {
    char line[40];
    snprintf(line, sizeof line, "%d*%lld@%d", task->type, (long long)members, task->idx);
    return made(task, line);
}

static void *on_integer(const redisReadTask *task, long long number) {
    char line[40];
    snprintf(line, sizeof line, "%d:%lld", task->type, number);
    return made(task, line);
}

static void *on_nil(const redisReadTask *task) {
    char line[20];
    snprintf(line, sizeof line, "%d", task->type);
    return made(task, line);
}

static void on_free(void *object) {
    held--;
    free(object);
}

static redisReplyObjectFunctions functions = {
    .createString = on_string,
    .createArray = on_array,
    .createInteger = on_integer,
    .createNil = on_nil,
    .freeObject = on_free,
#ifdef REDIS_REPLY_DOUBLE
    .createDouble = on_double,
    .createBool = on_bool,
#endif
};

static redisReader *new_reader(void) {
    redisReader *reader = redisReaderCreateWithFunctions(&functions);
    reader->privdata = &held;
    return reader;
}

/* A text and its replies. Each reply begins with the number of its type, and each top-level reply ends with `.`. An
 * error is `!` and its text. */
struct row {
    const char *text, *wanted;
};

static const struct row ROWS[] = {
    {"+OK\r\n", "5\"OK\" ."},
    {"+\r\n", "5\"\" ."},
    {"-ERR no\r\n", "6\"ERR no\" ."},
    {":0\r\n", "3:0 ."},
    {":-9223372036854775808\r\n", "3:-9223372036854775808 ."},
    {":9223372036854775808\r\n", "!Bad integer value"},
    {":x", "!Bad integer value"},
    {"$5\r\nhe\r\no\r\n", "1\"he\r\no\" ."},
    {"$0\r\n\r\n", "1\"\" ."},
    {"$-1\r\n", "4 ."},
    {"*-1\r\n", "4 ."},
    {"$-2\r\n", "!Bulk string length out of range"},
    {"*-2\r\n", "!Multi-bulk length out of range"},
    {"$x", "!Bad bulk string length"},
    {"*x", "!Bad multi-bulk length"},
    {"$1\r\nab", "!Protocol error, Syntax at byte 5 of the reply"},
    {"*0\r\n", "2*0@-1 ."},
    {"*2\r\n*1\r\n+a\r\n:-1\r\n", "2*2@-1 2*1@0 5\"a\" 3:-1 ."},
    {"*2\r\n:1\r\n*1\r\n:2\r\n", "2*2@-1 3:1 2*1@1 3:2 ."},
    {"+a\r\n+b\r\n", "5\"a\" .5\"b\" ."},
    {"@foo\r\n", "!Protocol error, got \"@\" as reply type byte"},
    {"*2\r\n$5\r\nhello\r\n@", "!Protocol error, got \"@\" as reply type byte"},
    {"\x01", "!Protocol error, got \"\\x01\" as reply type byte"},
    {"*?\r\n", "!Protocol error, Streamed at byte 1 of the reply"},
    {"$?\r\n", "!Protocol error, Streamed at byte 1 of the reply"},
    {"*1\r\n>1\r\n", "!Protocol error, NestedPush at byte 4 of the reply"},
    {"$1073741825\r\n", "!Bulk string length out of range"},
    {"_\r\n", "4 ."},
    {"_n", "!Bad nil value"},
    {"#x", "!Bad bool value"},
    {"|1\r\n+a\r\n*1\r\n+b\r\n+c\r\n", "5\"c\" ."},
    {"*2\r\n|1\r\n+a\r\n%1\r\n:1\r\n:2\r\n*1\r\n:7\r\n+d\r\n", "2*2@-1 2*1@0 3:7 5\"d\" ."},
    {"|0\r\n|1\r\n:1\r\n:2\r\n:3\r\n", "3:3 ."},
#ifdef REDIS_REPLY_DOUBLE
    {"#t\r\n#f\r\n", "8=1 .8=0 ."},
    {",1.50\r\n", "7\"1.50\"=1.5 ."},
    {",-inf\r\n", "7\"-inf\"=-inf ."},
    {",nan\r\n", "7\"nan\"=nan ."},
    {",\r\n", "!Bad double value"},
    {",1x\r\n", "!Bad double value"},
    {", 1\r\n", "!Bad double value"},
    {",-nan\r\n", "7\"-nan\"=-nan ."},
    {",+1.5E+2\r\n", "7\"+1.5E+2\"=150 ."},
    {",.5\r\n", "!Bad double value"},
    {",1.\r\n", "!Bad double value"},
    {",1e\r\n", "!Bad double value"},
    {",0x1p3\r\n", "!Bad double value"},
    {",nan(1)\r\n", "!Bad double value"},
    {",+inf\r\n", "!Bad double value"},
    {",infinity\r\n", "!Bad double value"},
    {"%1\r\n+a\r\n:1\r\n", "9*2@-1 5\"a\" 3:1 ."},
    {"~1\r\n+a\r\n", "10*1@-1 5\"a\" ."},
    {"*4294967296\r\n", "!Multi-bulk length out of range"},
#else
    {"#t\r\n#f\r\n", "3:1 .3:0 ."},
    {",1.50\r\n", "1\"1.50\" ."},
    {"%1\r\n+a\r\n:1\r\n", "2*2@-1 5\"a\" 3:1 ."},
    {"~1\r\n+a\r\n", "2*1@-1 5\"a\" ."},
    {"*2147483648\r\n", "!Multi-bulk length out of range"},
#endif
#ifdef REDIS_REPLY_BIGNUM
    {"(-0012\r\n", "13\"-12\" ."},
    {"(000\r\n", "13\"0\" ."},
#else
    {"(-0012\r\n", "1\"-12\" ."},
    {"(000\r\n", "1\"0\" ."},
#endif
#ifdef REDIS_REPLY_VERB
    {"=6\r\ntxt:ab\r\n", "14\"txt:ab\" ."},
#else
    {"=6\r\ntxt:ab\r\n", "1\"ab\" ."},
#endif
#ifdef REDIS_REPLY_PUSH
    {">1\r\n+a\r\n+b\r\n", "12*1@-1 5\"a\" .5\"b\" ."},
#else
    {">1\r\n+a\r\n+b\r\n", "2*1@-1 5\"a\" .5\"b\" ."},
#endif
    {"!5\r\nERR x\r\n", "6\"ERR x\" ."},
};

/* Adds the replies to the bytes fed so far. */
static void hear(redisReader *reader, char *said, size_t room) {
    void *reply;
    size_t length;
    for (;;) {
        length = strlen(said);
        if (redisReaderGetReply(reader, &reply) != REDIS_OK) {
            if (!strchr(said, '!'))
                snprintf(said + length, room - length, "!%s", reader->errstr);
            return;
        }
        if (!reply)
            return;
        snprintf(said + length, room - length, "%s.", ((struct object *)reply)->text);
        on_free(reply);
    }
}

/* Feeds the text in two pieces, cut at `first`, or byte by byte. */
static void check(const struct row *row, size_t first, bool by_bytes) {
    size_t length = strlen(row->text);
    char said[500] = "";
    redisReader *reader = new_reader();
    if (by_bytes) {
        for (size_t at = 0; at < length; at++) {
            redisReaderFeed(reader, row->text + at, 1);
            hear(reader, said, sizeof said);
        }
    } else {
        redisReaderFeed(reader, row->text, first);
        hear(reader, said, sizeof said);
        redisReaderFeed(reader, row->text + first, length - first);
        hear(reader, said, sizeof said);
    }
    redisReaderFree(reader);
    if (!strcmp(said, row->wanted) && !held) {
        passed++;
        return;
    }
    failed++;
    printf("%s cut at %zu: %s, %d held\n", row->text, first, said, held);
    held = 0;
}

/* Checks that a reply is this one, and frees it. */
static void expect(void *reply, const char *wanted, const char *what) {
    if (reply && !strcmp(((struct object *)reply)->text, wanted)) {
        passed++;
    } else {
        failed++;
        printf("%s: %s and not %s\n", what, reply ? ((struct object *)reply)->text : "nothing", wanted);
    }
    if (reply)
        on_free(reply);
}

/* Feeds pieces of this many bytes, asks for one reply after each piece and for the rest at the end, where an error is.
 */
static void read_late(size_t size) {
    static const char *const wanted[] = {"5\"OK\" ", "2*2@-1 3:7 1\"abc\" ", "1\"\" "};
    static const char unit[] = "+OK\r\n*2\r\n:7\r\n$3\r\nabc\r\n$0\r\n\r\n";
    enum { UNITS = 100, LENGTH = UNITS * (sizeof unit - 1) + 1 };
    char text[LENGTH + 1] = "", error[] = "Protocol error, got \"@\" as reply type byte";
    for (size_t at = 0; at + 1 < LENGTH; at += sizeof unit - 1)
        memcpy(text + at, unit, sizeof unit);
    text[LENGTH - 1] = '@';
    redisReader *reader = new_reader();
    void *reply = NULL;
    unsigned count = 0;
    for (size_t at = 0; at < LENGTH; at += size) {
        redisReaderFeed(reader, text + at, size < LENGTH - at ? size : LENGTH - at);
        if (redisReaderGetReply(reader, &reply) == REDIS_OK && reply)
            expect(reply, wanted[count++ % 3], "a late reply");
    }
    while (redisReaderGetReply(reader, &reply) == REDIS_OK && reply)
        expect(reply, wanted[count++ % 3], "a last reply");
    bool is_right = count == 3 * UNITS && reader->err && !strcmp(reader->errstr, error) && !held;
    passed += is_right;
    failed += !is_right;
    if (!is_right)
        printf("by %zu: %u replies, %s\n", size, count, reader->errstr);
    redisReaderFree(reader);
}

/* Reads nested arrays that all end at the same byte, and then one more reply. */
static void read_deep(void) {
    redisReader *reader = new_reader();
    void *reply = NULL;
    for (int depth = 0; depth < 128; depth++)
        redisReaderFeed(reader, "*1\r\n", 4);
    redisReaderFeed(reader, ":7\r\n", 4);
    bool is_right = redisReaderGetReply(reader, &reply) == REDIS_OK && reply &&
                    !strncmp(((struct object *)reply)->text, "2*1@-1 2*1@0 2*1@0 ", 19);
    passed += is_right;
    failed += !is_right;
    if (!is_right)
        printf("128 arrays: %s\n", reply ? ((struct object *)reply)->text : "nothing");
    if (reply)
        on_free(reply);
    redisReaderFeed(reader, "+OK\r\n", 5);
    redisReaderGetReply(reader, &reply);
    expect(reply, "5\"OK\" ", "a reply after 128 arrays");
    redisReaderFree(reader);
}

#ifdef REDIS_READER_MAX_ARRAY_ELEMENTS
/* A text that our reader and hiredis' reader read in different ways. */
struct difference {
    const char *text;
    size_t length;
    const char *ours, *theirs;
};

#define TEXT(text) text, sizeof text - 1

static const struct difference DIFFERENCES[] = {
    {TEXT(":007\r\n"), "3:7 .", "!Bad integer value"},
    {TEXT(":+0\r\n"), "3:0 .", "!Bad integer value"},
    {TEXT("$00\r\n\r\n"), "1\"\" .", "!Bad bulk string length"},
    {TEXT("*02\r\n:1\r\n:2\r\n"), "2*2@-1 3:1 3:2 .", "!Bad multi-bulk length"},
    {TEXT("(+0012\r\n"), "13\"12\" .", "!Bad bignum value"},
    {TEXT("(-0012\r\n"), "13\"-12\" .", "13\"-0012\" ."},
    {TEXT("(\r\n"), "!Bad bignum value", "13\"\" ."},
    {TEXT(", 1\r\n"), "!Bad double value", "7\" 1\"=1 ."},
    {TEXT(",.5\r\n"), "!Bad double value", "7\".5\"=0.5 ."},
    {TEXT(",0x1p3\r\n"), "!Bad double value", "7\"0x1p3\"=8 ."},
    {TEXT(",\r0\r\n"), "!Bad double value", "7\"\r0\"=0 ."},
    {TEXT(",nan\r\n"), "7\"nan\"=nan .", "!Bad double value"},
    {TEXT(",1e999\r\n"), "7\"1e999\"=inf .", "!Bad double value"},
    {TEXT("#\0\r\n"), "!Bad bool value", "8=0 ."},
    {TEXT("#T\r\n"), "!Bad bool value", "8=1 ."},
    {TEXT("=-1\r\n"), "!Bad bulk string length", "14 ."},
    {TEXT(">-1\r\n"), "!Bad multi-bulk length", "12 ."},
    {TEXT("%-1\r\n"), "!Bad multi-bulk length", "9 ."},
    {TEXT("$-1\r\n"), "4 .", "1 ."},
    {TEXT("*-1\r\n"), "4 .", "2 ."},
    {TEXT("$1\r\nabc"), "!Protocol error, Syntax at byte 5 of the reply", "1\"a\" ."},
    {TEXT("*1\r\n>1\r\n+a\r\n"), "!Protocol error, NestedPush at byte 4 of the reply", "2*1@-1 12*1@0 5\"a\" ."},
    {TEXT("!5\r\nERR x\r\n"), "6\"ERR x\" .", "!Protocol error, got \"!\" as reply type byte"},
    {TEXT("|1\r\n+a\r\n:1\r\n+b\r\n"), "5\"b\" .", "!Protocol error, got \"|\" as reply type byte"},
    {TEXT("*?\r\n"), "!Protocol error, Streamed at byte 1 of the reply", "!Bad multi-bulk length"},
    {TEXT("$x"), "!Bad bulk string length", ""},
};

static void differ(const struct difference *row) {
    char said[500] = "";
    redisReader *reader = new_reader();
    redisReaderFeed(reader, row->text, row->length);
    hear(reader, said, sizeof said);
    redisReaderFree(reader);
#ifdef THEIRS
    bool is_right = !strcmp(said, row->theirs);
#else
    bool is_right = !strcmp(said, row->ours);
#endif
    passed += is_right;
    failed += !is_right;
    if (!is_right)
        printf("%.*s: %s\n", (int)row->length, row->text, said);
    held = 0;
}

/* A limit of members counts the pairs of a map. */
static void read_limited(void) {
    static const char *const texts[] = {"%2\r\n", "*2\r\n", "%3\r\n", "*3\r\n"};
    for (size_t at = 0; at < 4; at++) {
        void *reply;
        redisReader *reader = new_reader();
        reader->maxelements = 2;
        redisReaderFeed(reader, texts[at], 4);
        int status = redisReaderGetReply(reader, &reply);
        bool is_right = at < 2 ? status == REDIS_OK && !reply && !reader->err
                               : status == REDIS_ERR && !strcmp(reader->errstr, "Multi-bulk length out of range");
        passed += is_right;
        failed += !is_right;
        if (!is_right)
            printf("%s within 2: %s\n", texts[at], reader->errstr);
        redisReaderFree(reader);
    }
}

/* The bytes that were allocated, and the number of allocations until one is refused. */
static size_t taken;
static long left;

static void *take(size_t size) {
    taken += size;
    return left-- ? malloc(size) : NULL;
}

static void *take_array(size_t count, size_t size) {
    taken += count * size;
    return left-- ? calloc(count, size) : NULL;
}

static void *take_again(void *start, size_t size) {
    taken += size;
    return left-- ? realloc(start, size) : NULL;
}

static char *take_text(const char *text) {
    char *copy = take(strlen(text) + 1);
    return copy ? strcpy(copy, text) : NULL;
}

/* Refuses each allocation in turn: a reader has the error, and everything is freed. An idle reader takes little. */
static void read_refused(void) {
    static const char text[] = "*1\r\n*1\r\n*1\r\n*1\r\n*1\r\n*1\r\n*1\r\n*1\r\n*1\r\n|1\r\n+a\r\n*1\r\n:1\r\n=6\r\ntxt:ab\r\n";
    hiredisAllocFuncs functions = {take, take_array, take_again, take_text, free};
    bool is_whole = false;
    hiredisSetAllocators(&functions);
    for (long at = 0; !is_whole; at++) {
        void *reply = NULL;
        left = at;
        taken = 0;
        redisReader *reader = redisReaderCreateWithFunctions(NULL);
        if (!reader)
            continue;
        size_t idle = taken;
        bool is_read = redisReaderFeed(reader, text, sizeof text - 1) == REDIS_OK &&
                       redisReaderGetReply(reader, &reply) == REDIS_OK;
        bool is_right = (is_read ? reply && !reader->err : !reply && reader->err == REDIS_ERR_OOM) && at > 0 &&
                        idle <= 1536;
        passed += is_right;
        failed += !is_right;
        if (!is_right)
            printf("allocation %ld refused: %d, %zu bytes when idle\n", at, reader->err, idle);
        is_whole = is_read;
        redisReaderFree(reader);
    }
    hiredisResetAllocators();
}
#endif

/* Reads arrays and attributes inside one another: a member's parent is the array around the attribute. */
static void read_annotated(void) {
    redisReader *reader = new_reader();
    void *reply = NULL;
    char wanted[400] = "2*1@-1 ";
    for (int depth = 0; depth < 30; depth++) {
        redisReaderFeed(reader, "*1\r\n|1\r\n+a\r\n*1\r\n+b\r\n", 20);
        if (depth)
            strcat(wanted, "2*1@0 ");
    }
    strcat(wanted, "3:7 ");
    redisReaderFeed(reader, ":7\r\n", 4);
    redisReaderGetReply(reader, &reply);
    expect(reply, wanted, "30 arrays and attributes");
    redisReaderFree(reader);
}

int main(void) {
#ifdef REDIS_READER_MAX_ARRAY_ELEMENTS
    for (size_t at = 0; at < sizeof DIFFERENCES / sizeof *DIFFERENCES; at++)
        differ(&DIFFERENCES[at]);
#endif
#ifdef THEIRS
    printf("%u passed, %u failed\n", passed, failed);
    return failed > 0;
#endif
#ifdef REDIS_READER_MAX_ARRAY_ELEMENTS
    read_limited();
    read_refused();
#endif
    read_annotated();
    for (size_t size = 1; size < 200; size++)
        read_late(size);
    read_deep();
    for (size_t at = 0; at < sizeof ROWS / sizeof *ROWS; at++) {
        for (size_t first = 0; first <= strlen(ROWS[at].text); first++)
            check(&ROWS[at], first, false);
        check(&ROWS[at], 0, true);
    }
    printf("%u passed, %u failed\n", passed, failed);
    return failed > 0;
}
