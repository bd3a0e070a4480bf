/* What programs and libraries over hiredis share with its reader, in both layouts: that of hiredis 0.14, and with
 * -DHIREDIS_LAYOUT=1 that of 1.0, 1.1 and 1.2. The functions of read.c have other names here, so that preload.c can have
 * both readers. */
#ifndef LAYOUTS_READ_H
#define LAYOUTS_READ_H

#include <stddef.h>

#define REDIS_ERR -1
#define REDIS_OK 0
#define REDIS_ERR_PROTOCOL 4
#define REDIS_ERR_OOM 5

#define REDIS_REPLY_STRING 1
#define REDIS_REPLY_ARRAY 2
#define REDIS_REPLY_INTEGER 3
#define REDIS_REPLY_NIL 4
#define REDIS_REPLY_STATUS 5
#define REDIS_REPLY_ERROR 6

#define REDIS_READER_MAX_BUF 16384

#if HIREDIS_LAYOUT == 1
#define REDIS_REPLY_DOUBLE 7
#define REDIS_REPLY_BOOL 8
#define REDIS_REPLY_MAP 9
#define REDIS_REPLY_SET 10
#define REDIS_REPLY_PUSH 12
#define REDIS_REPLY_BIGNUM 13
#define REDIS_REPLY_VERB 14
#define REDIS_READER_MAX_ARRAY_ELEMENTS 4294967295LL
typedef long long hiredis_elements;
typedef size_t hiredis_count;
#define NAMED(name) hiredis_1_##name
#else
typedef int hiredis_elements;
typedef int hiredis_count;
#define NAMED(name) hiredis_0_14_##name
#endif

typedef struct redisReadTask {
    int type;
    hiredis_elements elements;
    int idx;
    void *obj;
    struct redisReadTask *parent;
    void *privdata;
} redisReadTask;

typedef struct redisReplyObjectFunctions {
    void *(*createString)(const redisReadTask *task, char *text, size_t length);
    void *(*createArray)(const redisReadTask *task, hiredis_count members);
    void *(*createInteger)(const redisReadTask *task, long long number);
#if HIREDIS_LAYOUT == 1
    void *(*createDouble)(const redisReadTask *task, double number, char *text, size_t length);
#endif
    void *(*createNil)(const redisReadTask *task);
#if HIREDIS_LAYOUT == 1
    void *(*createBool)(const redisReadTask *task, int truth);
#endif
    void (*freeObject)(void *object);
} redisReplyObjectFunctions;

typedef struct redisReader {
    int err;
    char errstr[128];
    char *buf;
    size_t pos, len, maxbuf;
#if HIREDIS_LAYOUT == 1
    long long maxelements;
    redisReadTask **task;
    int tasks;
#else
    redisReadTask rstack[9];
#endif
    int ridx;
    void *reply;
    redisReplyObjectFunctions *fn;
    void *privdata;
} redisReader;

#define redisReaderCreateWithFunctions NAMED(create)
#define redisReaderFree NAMED(free)
#define redisReaderFeed NAMED(feed)
#define redisReaderGetReply NAMED(get)

redisReader *redisReaderCreateWithFunctions(redisReplyObjectFunctions *functions);
void redisReaderFree(redisReader *reader);
int redisReaderFeed(redisReader *reader, const char *more, size_t length);
int redisReaderGetReply(redisReader *reader, void **reply);

#endif
