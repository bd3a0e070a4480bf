/* Measures hiredis' reader on the texts of bench scan. Its object functions build nothing; with the argument `trees`
 * hiredis' own functions build replies, and each reply is freed. With `walk` all values of each reply are counted before.
 *
 * It prints the lines of bench scan, for the same texts in the same pieces. Without another argument it reads short
 * texts. With `times` it reads 32 MiB of each text and prints microseconds; with `once` it reads the text of `times` a
 * single time. If the counts differ from those of bench scan, the two did not read the same. With `peak` it reads one
 * array of a million bulk strings. With `stdin` and a number it reads standard input in pieces of that many bytes, and
 * prints the number of replies. */

#include <hiredis/hiredis.h>
#include <stdio.h>
#include <stdlib.h>
#include <string.h>
#include <time.h>
#include <unistd.h>

#if HIREDIS_MAJOR >= 1
typedef size_t member_count;
#else
typedef int member_count;
#endif

/* A hiredis without RESP3 reads an array in place of a map; its head has the same length. */
#ifdef REDIS_REPLY_MAP
#define MAP_HEAD "%10\r\n"
#else
#define MAP_HEAD "*20\r\n"
#endif

enum { SHORT_TEXT = 4096, LONG_TEXT = 262144, ROUNDS = 128, UNIT_ROOM = 70000 };

/* In this order the compiler does not combine two additions into one wider instruction, which would slow the next. */
static struct {
	unsigned long long values, replies, content;
	long long sum;
} tally;

/* The object of every reply. */
static char built;

static void *on_string(const redisReadTask *task, char *text, size_t length)
{
	(void)task;
	(void)text;
	tally.values++;
	tally.content += length;
	return &built;
}

static void *on_array(const redisReadTask *task, member_count members)
{
	(void)task;
	(void)members;
	tally.values++;
	return &built;
}

static void *on_integer(const redisReadTask *task, long long number)
{
	(void)task;
	tally.values++;
	tally.sum += number;
	return &built;
}

static void *on_nil(const redisReadTask *task)
{
	(void)task;
	tally.values++;
	return &built;
}

static void on_free(void *object)
{
	(void)object;
}

static redisReplyObjectFunctions functions = {
	.createString = on_string,
	.createArray = on_array,
	.createInteger = on_integer,
	.createNil = on_nil,
	.freeObject = on_free,
};

static void stop(const char *why)
{
	fprintf(stderr, "hiredis: %s\n", why);
	exit(1);
}

/* Whether replies are built. */
static int trees;

/* Whether all values of a reply are counted. */
static int walks;

/* Counts all values of a reply. */
static void walk(const redisReply *reply)
{
	tally.values++;
	tally.content += reply->len;
	tally.sum += reply->integer;
	for (size_t i = 0; i < reply->elements; i++)
		walk(reply->element[i]);
}

/* Counts a reply and its members, without the content of members, or all its values, and frees it. */
static void count_built(redisReply *reply)
{
	if (walks) {
		walk(reply);
	} else {
		tally.values += 1 + reply->elements;
		tally.content += reply->len;
		tally.sum += reply->integer;
	}
	freeReplyObject(reply);
}

static redisReader *new_reader(void)
{
	redisReader *reader = trees ? redisReaderCreate() : redisReaderCreateWithFunctions(&functions);
	if (reader == NULL)
		stop("no memory");
	return reader;
}

static void read_piece(redisReader *reader, const char *piece, size_t length)
{
	void *reply;
	if (redisReaderFeed(reader, piece, length) != REDIS_OK)
		stop(reader->errstr);
	do {
		if (redisReaderGetReply(reader, &reply) != REDIS_OK)
			stop(reader->errstr);
		if (reply != NULL)
			tally.replies++;
		if (reply != NULL && trees)
			count_built(reply);
	} while (reply != NULL);
}

__attribute__((noinline)) static void read_text(redisReader *reader, const char *text, size_t length, size_t size)
{
	while (length > 0) {
		size_t taken = size < length ? size : length;
		read_piece(reader, text, taken);
		text += taken;
		length -= taken;
	}
}

/* Reads the text `rounds` times in pieces of `size` bytes, and prints the counts. */
static void count(const char *name, const char *text, size_t length, size_t size, int rounds)
{
	redisReader *reader = new_reader();
	memset(&tally, 0, sizeof tally);
	clock_t start = clock();
	for (int round = 0; round < (rounds > 0 ? rounds : 1); round++)
		read_text(reader, text, length, size);
	clock_t end = clock();
	redisReaderFree(reader);
	printf("%s by %zu: %llu replies, %llu values, %llu bytes, sum %lld;", name, size, tally.replies, tally.values,
	       tally.content, tally.sum);
	if (rounds > 0)
		printf(" %lld us", (long long)(end - start) * 1000000 / CLOCKS_PER_SEC);
	printf("\n");
}

/* Reads repetitions of this text, in pieces of each size. */
static void run(const char *name, const char *unit, size_t length, int rounds)
{
	static const size_t sizes[] = {1, 7, 1000, 4096, 16384};
	size_t least = rounds > 0 ? LONG_TEXT : SHORT_TEXT;
	char *all = malloc(least + length);
	size_t filled = 0;
	if (all == NULL)
		stop("no memory");
	while (filled < least) {
		memcpy(all + filled, unit, length);
		filled += length;
	}
	for (size_t i = rounds > 0 ? 3 : 0; i < 5; i++)
		count(name, all, filled, sizes[i], rounds);
	free(all);
}

/* Reads texts with this head and so many bytes of content. */
static void run_filled(const char *name, const char *head, size_t length, int rounds)
{
	static char unit[UNIT_ROOM];
	size_t used = strlen(head);
	memcpy(unit, head, used);
	memset(unit + used, 'x', length);
	memcpy(unit + used + length, "\r\n", 2);
	run(name, unit, used + length + 2, rounds);
}

/* Reads texts with this head and so many equal members. */
static void run_members(const char *name, const char *head, const char *member, int members, int rounds)
{
	static char unit[UNIT_ROOM];
	strcpy(unit, head);
	for (int i = 0; i < members; i++)
		strcat(unit, member);
	run(name, unit, strlen(unit), rounds);
}

/* Reads one array of a million bulk strings of eight bytes, in pieces of a thousand members. */
static void read_million(void)
{
	static char piece[UNIT_ROOM];
	redisReader *reader = new_reader();
	for (int i = 0; i < 1000; i++)
		strcat(piece, "$8\r\nxxxxxxxx\r\n");
	read_text(reader, "*1000000\r\n", 10, UNIT_ROOM);
	for (int i = 0; i < 1000; i++)
		read_text(reader, piece, strlen(piece), UNIT_ROOM);
	redisReaderFree(reader);
	printf("%llu replies, %llu values\n", tally.replies, tally.values);
}

/* Reads standard input in pieces of this size. */
static void read_input(size_t size)
{
	static char piece[UNIT_ROOM];
	redisReader *reader = new_reader();
	ssize_t count;
	while ((count = read(0, piece, size < UNIT_ROOM ? size : UNIT_ROOM)) > 0)
		read_piece(reader, piece, (size_t)count);
	redisReaderFree(reader);
	printf("%llu replies\n", tally.replies);
}

int main(int argc, char **argv)
{
	int rounds = 0;
	for (int i = 1; i < argc; i++) {
		if (strcmp(argv[i], "times") == 0)
			rounds = ROUNDS;
		if (strcmp(argv[i], "once") == 0)
			rounds = 1;
		if (strcmp(argv[i], "trees") == 0)
			trees = 1;
		if (strcmp(argv[i], "walk") == 0)
			trees = walks = 1;
	}
	if (argc > 1 && strcmp(argv[1], "peak") == 0) {
		read_million();
		return 0;
	}
	if (argc > 2 && strcmp(argv[1], "stdin") == 0) {
		read_input(strtoul(argv[2], NULL, 10));
		return 0;
	}
	run("simple OK", "+OK\r\n", 5, rounds);
	run("integers", ":123456\r\n", 9, rounds);
	run_filled("80-byte lines", "+", 80, rounds);
	run_filled("16-byte bulks", "$16\r\n", 16, rounds);
	run_filled("1 KiB bulks", "$1024\r\n", 1024, rounds);
	run_filled("64 KiB bulks", "$65536\r\n", 65536, rounds);
	run_members("arrays of three bulks", "*3\r\n", "$3\r\nxxx\r\n", 3, rounds);
	run_members("maps of ten pairs", MAP_HEAD, "$8\r\nxxxxxxxx\r\n:7\r\n", 10, rounds);
	return 0;
}
