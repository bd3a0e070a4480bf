/* Measures resp_reply_read on the texts of bench replies: fills at most 1,024 nodes a call from a buffer that has the
 * whole text, and then visits all nodes. It prints the lines of bench replies. With the argument `times` each text is
 * read 128 times, otherwise once. */
#include "resp.h"

#include <stdio.h>
#include <stdlib.h>
#include <string.h>
#include <time.h>

enum { LEAST = 262144, ROUNDS = 128, UNIT_ROOM = 70000, NODES = 1024 };

static struct {
	unsigned long long values, replies, content;
	long long sum;
} tally;

static void stop(const char *why)
{
	fprintf(stderr, "flat: %s\n", why);
	exit(1);
}

/* Visits the replies, and all values in them. */
static void walk(const struct resp_node *nodes, size_t count)
{
	for (const struct resp_node *node = nodes; node < nodes + count; node = resp_node_next(node))
		tally.replies++;
	for (const struct resp_node *node = nodes; node < nodes + count; node++) {
		tally.values++;
		if (node->kind == RESP_INT)
			tally.sum += node->number;
		else if (node->kind == RESP_TEXT)
			tally.content += node->length;
	}
}

__attribute__((noinline, noclone)) static void read_text(const struct resp_limits *limits, const uint8_t *text, size_t length,
						struct resp_node *nodes)
{
	while (length > 0) {
		struct resp_replies replies;
		resp_reply_read(3, limits, text, length, nodes, NODES, &replies);
		if (replies.used == 0)
			stop("nothing was read");
		walk(nodes, replies.nodes);
		text += replies.used;
		length -= replies.used;
	}
}

static void run(const char *name, const char *unit, size_t length, int rounds)
{
	static struct resp_node nodes[NODES];
	struct resp_limits limits;
	resp_limits_standard(&limits);
	uint8_t *all = malloc(LEAST + length);
	size_t filled = 0;
	if (all == NULL)
		stop("no memory");
	while (filled < LEAST) {
		memcpy(all + filled, unit, length);
		filled += length;
	}
	memset(&tally, 0, sizeof tally);
	clock_t start = clock();
	for (int round = 0; round < rounds; round++)
		read_text(&limits, all, filled, nodes);
	clock_t end = clock();
	printf("%s by 16384: %llu replies, %llu values, %llu bytes, sum %lld; %lld us\n", name, tally.replies, tally.values,
	       tally.content, tally.sum, (long long)(end - start) * 1000000 / CLOCKS_PER_SEC);
	free(all);
}

/* Reads texts with this head and so many bytes of content. */
static void run_filled(const char *name, const char *head, size_t length, int rounds)
{
	static char unit[UNIT_ROOM];
	size_t used = strlen(head);
	memcpy(unit, head, used);
	memset(unit + used, 'x', length);
	memcpy(unit + used + length, "\r\n", 2);
	run(name, unit, used + length + 2, rounds);
}

/* Reads texts with this head and so many equal members. */
static void run_members(const char *name, const char *head, const char *member, int count, int rounds)
{
	static char unit[UNIT_ROOM];
	strcpy(unit, head);
	for (int i = 0; i < count; i++)
		strcat(unit, member);
	run(name, unit, strlen(unit), rounds);
}

int main(int argc, char **argv)
{
	int rounds = argc > 1 && strcmp(argv[1], "times") == 0 ? ROUNDS : 1;
	run("simple OK", "+OK\r\n", 5, rounds);
	run("integers", ":123456\r\n", 9, rounds);
	run_filled("80-byte lines", "+", 80, rounds);
	run_filled("16-byte bulks", "$16\r\n", 16, rounds);
	run_filled("1 KiB bulks", "$1024\r\n", 1024, rounds);
	run_filled("64 KiB bulks", "$65536\r\n", 65536, rounds);
	run_members("arrays of three bulks", "*3\r\n", "$3\r\nxxx\r\n", 3, rounds);
	run_members("maps of ten pairs", "%10\r\n", "$8\r\nxxxxxxxx\r\n:7\r\n", 10, rounds);
	return 0;
}
