/* Tests `resp proxy` in front of redis-server with hiredis: hiredis PORT. Twenty connections have pipelines of commands at
 * the same time, and each reply is compared with its command. */

#include <hiredis/hiredis.h>
#include <stdio.h>
#include <stdlib.h>
#include <string.h>

enum { CONTEXTS = 20, TURNS = 50, PIPELINE = 40, ROOM = 64 };

static void stop(const char *why)
{
	fprintf(stderr, "hiredis: %s\n", why);
	exit(1);
}

static void queue(redisContext *context, const char *key)
{
	if (redisAppendCommand(context, "SET %s %s", key, key) != REDIS_OK ||
	    redisAppendCommand(context, "GET %s", key) != REDIS_OK)
		stop(context->errstr);
}

static void expect(redisContext *context, int type, const char *text)
{
	redisReply *reply = NULL;
	if (redisGetReply(context, (void **)&reply) != REDIS_OK)
		stop(context->errstr);
	if (reply->type != type || strcmp(reply->str, text) != 0)
		stop("another reply");
	freeReplyObject(reply);
}

int main(int argc, char **argv)
{
	redisContext *contexts[CONTEXTS];
	char key[ROOM];
	if (argc != 2)
		stop("usage: hiredis PORT");
	for (int i = 0; i < CONTEXTS; i++) {
		contexts[i] = redisConnect("127.0.0.1", atoi(argv[1]));
		if (!contexts[i] || contexts[i]->err)
			stop("no connection");
	}
	for (int turn = 0; turn < TURNS; turn++) {
		for (int i = 0; i < CONTEXTS; i++) {
			for (int part = 0; part < PIPELINE; part++) {
				snprintf(key, ROOM, "hiredis:%d:%d:%d", i, turn, part);
				queue(contexts[i], key);
			}
			int done = 0;
			while (!done)
				if (redisBufferWrite(contexts[i], &done) != REDIS_OK)
					stop(contexts[i]->errstr);
		}
		for (int i = 0; i < CONTEXTS; i++) {
			for (int part = 0; part < PIPELINE; part++) {
				snprintf(key, ROOM, "hiredis:%d:%d:%d", i, turn, part);
				expect(contexts[i], REDIS_REPLY_STATUS, "OK");
				expect(contexts[i], REDIS_REPLY_STRING, key);
			}
		}
	}
	for (int i = 0; i < CONTEXTS; i++)
		redisFree(contexts[i]);
	return 0;
}
