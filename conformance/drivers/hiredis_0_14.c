/* hiredis 0.14 (libhiredis-dev): its reader.
 * needs: cc /usr/include/hiredis/hiredis.h
 * make: cc -O1 -o {OUT} {FILE} -lhiredis
 * run: {OUT} */
#include <hiredis/hiredis.h>
#include <stdio.h>
#include <stdlib.h>
#include <string.h>

#ifndef ABOUT
#define ABOUT "{\"parser\": \"hiredis 0.14.1\", \"profiles\": [\"resp2\"], \"same\": [[\"nullbulk\", \"nullarray\"]]}"
#endif

static void text(const char *bytes, size_t length) {
    putchar('"');
    for (size_t at = 0; at < length; at++) {
        unsigned char byte = bytes[at];
        if (byte < 32 || byte > 126 || byte == '"' || byte == '\\')
            printf("\\u%04x", byte);
        else
            putchar(byte);
    }
    putchar('"');
}

static void print(const redisReply *reply) {
    if (reply->type == REDIS_REPLY_INTEGER) {
        printf("[\"integer\", \"%lld\"]", reply->integer);
    } else if (reply->type == REDIS_REPLY_NIL) {
        printf("[\"nullbulk\"]");
    } else if (reply->type == REDIS_REPLY_ARRAY) {
        printf("[\"array\", [");
        for (size_t at = 0; at < reply->elements; at++) {
            printf(at ? ", " : "");
            print(reply->element[at]);
        }
        printf("]]");
    } else {
        printf("[\"%s\", ", reply->type == REDIS_REPLY_ERROR ? "error" : reply->type == REDIS_REPLY_STATUS ? "simple" : "bulk");
        text(reply->str, reply->len);
        printf("]");
    }
}

static int digit(char byte) { return byte < 'a' ? byte - '0' : byte - 'a' + 10; }

static void judge(char *line) {
    char *id = strtok(line, " \n"), *version = strtok(NULL, " \n"), *pieces = strtok(NULL, "\n");
    (void)version;
    redisReader *reader = redisReaderCreate();
    int count = 0, is_wrong = 0;
    printf("{\"id\": \"%s\", \"values\": [", id);
    for (char *piece = pieces ? strtok(pieces, ",") : NULL; piece && !is_wrong; piece = strtok(NULL, ",")) {
        size_t length = strcmp(piece, "end") ? strlen(piece) / 2 : 0;
        char *bytes = malloc(length + 1);
        for (size_t at = 0; at < length; at++)
            bytes[at] = (char)(digit(piece[2 * at]) << 4 | digit(piece[2 * at + 1]));
        redisReaderFeed(reader, bytes, length);
        free(bytes);
        void *reply = NULL;
        while (!(is_wrong = redisReaderGetReply(reader, &reply) != REDIS_OK) && reply) {
            printf(count++ ? ", " : "");
            print(reply);
            freeReplyObject(reply);
        }
    }
    printf("], \"end\": \"%s\"}\n", is_wrong ? "error" : "more");
    fflush(stdout);
    redisReaderFree(reader);
}

int main(int count, char **words) {
    if (count > 1 && !strcmp(words[1], "--about")) {
        puts(ABOUT);
        return 0;
    }
    char *line = NULL;
    size_t room = 0;
    while (getline(&line, &room, stdin) > 0)
        judge(line);
}
