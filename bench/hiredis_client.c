/* Measures how long hiredis needs to queue commands and to return their replies, with bytes from memory.
 *
 * It prints the line of bench client, for the same commands in the same pipelines: one pipeline without an argument,
 * 10,000 with `times`, which also prints microseconds, and one in the format of `times` with `once`. */

#include <hiredis/hiredis.h>
#include <hiredis/sds.h>
#include <stdio.h>
#include <stdlib.h>
#include <string.h>
#include <time.h>

#if HIREDIS_MAJOR < 1
#define hi_sdslen sdslen
#define hi_sdsfree sdsfree
#define hi_sdsempty sdsempty
#endif

enum { PIPELINE = 100, ROUNDS = 10000, KEY_ROOM = 16 };

static struct {
	unsigned long long queued, replies, content;
} tally;

static char keys[PIPELINE][KEY_ROOM];

static void stop(const char *why)
{
	fprintf(stderr, "hiredis: %s\n", why);
	exit(1);
}

/* Queues the commands, and drops their texts as the library does after writing them. */
static void queue(redisContext *context)
{
	for (int i = 0; i < PIPELINE; i++) {
		const char *words[] = {"GET", keys[i]};
		size_t lengths[] = {3, 11};
		if (redisAppendCommandArgv(context, 2, words, lengths) != REDIS_OK)
			stop(context->errstr);
	}
	tally.queued += hi_sdslen(context->obuf);
	hi_sdsfree(context->obuf);
	context->obuf = hi_sdsempty();
}

/* Reads all replies of the text. */
static void hear(redisContext *context, const char *text, size_t length)
{
	void *answer;
	if (redisReaderFeed(context->reader, text, length) != REDIS_OK)
		stop(context->reader->errstr);
	for (int i = 0; i < PIPELINE; i++) {
		if (redisGetReply(context, &answer) != REDIS_OK)
			stop(context->errstr);
		redisReply *reply = answer;
		tally.replies++;
		if (reply->type == REDIS_REPLY_STRING)
			tally.content += reply->len;
		freeReplyObject(reply);
	}
}

__attribute__((noinline)) static void converse(redisContext *context, const char *text, size_t length, int rounds)
{
	for (int round = 0; round < rounds; round++) {
		queue(context);
		hear(context, text, length);
	}
}

int main(int argc, char **argv)
{
	int timed = argc > 1 && (strcmp(argv[1], "times") == 0 || strcmp(argv[1], "once") == 0);
	int rounds = argc > 1 && strcmp(argv[1], "times") == 0 ? ROUNDS : 1;
	static char text[PIPELINE * 32];
	for (int i = 0; i < PIPELINE; i++) {
		snprintf(keys[i], KEY_ROOM, "key:%07d", i);
		strcat(text, "$16\r\nxxxxxxxxxxxxxxxx\r\n");
	}
	redisContext *context = redisConnectFd(-1);
	if (context == NULL)
		stop("no memory");
	size_t length = strlen(text);
	clock_t start = clock();
	converse(context, text, length, rounds);
	clock_t end = clock();
	printf("GET in pipelines: %llu bytes queued, %llu replies, %llu bytes;", tally.queued, tally.replies,
	       tally.content);
	if (timed)
		printf(" %lld us", (long long)(end - start) * 1000000 / CLOCKS_PER_SEC);
	printf("\n");
	return 0;
}
