/* A program over hiredis: app PORT WORD.. sends HELLO 3 and the command, and prints the types of both replies. */
#include <hiredis/hiredis.h>

#include <stdio.h>
#include <stdlib.h>

/* Prints a reply. Returns whether there is one. */
static int print(redisContext *context, redisReply *reply) {
    if (!reply)
        printf("failed: %s\n", context->errstr);
    else if (reply->str)
        printf("type %d, %s\n", reply->type, reply->str);
    else
        printf("type %d, %zu members, %lld\n", reply->type, reply->elements, reply->integer);
    if (reply)
        freeReplyObject(reply);
    return reply != NULL;
}

int main(int argc, const char **argv) {
    redisContext *context = argc > 2 ? redisConnect("127.0.0.1", atoi(argv[1])) : NULL;
    int is_well = context && !context->err && print(context, redisCommand(context, "HELLO 3")) &&
                  print(context, redisCommandArgv(context, argc - 2, argv + 2, NULL));
    if (context)
        redisFree(context);
    return !is_well;
}
