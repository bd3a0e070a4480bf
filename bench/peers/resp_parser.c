/* Measures redis' own resp_parser.c: reads all of standard input, parses it reply by reply with callbacks that build
 * nothing, and prints the number of replies. */
#include "resp_parser.h"
#include <stdio.h>
#include <stdlib.h>
#include <string.h>

static void on_text(void *context, const char *text, size_t length, const char *proto, size_t proto_length)
{
	(void)context, (void)text, (void)length, (void)proto, (void)proto_length;
}

static void on_number(void *context, long long number, const char *proto, size_t proto_length)
{
	(void)context, (void)number, (void)proto, (void)proto_length;
}

static void on_members(struct ReplyParser *parser, void *context, size_t members, const char *proto)
{
	(void)proto;
	while (members--)
		parseReply(parser, context);
}

static void on_pairs(struct ReplyParser *parser, void *context, size_t pairs, const char *proto)
{
	on_members(parser, context, 2 * pairs, proto);
}

/* Returns the number of replies in a text, or -1 after a bad reply. It is no part of main, so that its instructions can
 * be counted. */
__attribute__((noinline)) long parse_all(ReplyParser *parser, const char *end)
{
	long replies = 0;
	while (parser->curr_location < end) {
		if (parseReply(parser, NULL))
			return -1;
		replies++;
	}
	return replies;
}

int main(void)
{
	size_t room = 1 << 28, size = 0, count;
	char *text = malloc(room);
	if (!text)
		return 1;
	while (size < room - 1 && (count = fread(text + size, 1, room - 1 - size, stdin)) > 0)
		size += count;
	text[size] = 0;
	ReplyParser parser;
	memset(&parser, 0, sizeof parser);
	parser.curr_location = text;
	parser.callbacks.simple_str_callback = on_text;
	parser.callbacks.error_callback = on_text;
	parser.callbacks.bulk_string_callback = on_text;
	parser.callbacks.long_callback = on_number;
	parser.callbacks.array_callback = on_members;
	parser.callbacks.set_callback = on_members;
	parser.callbacks.map_callback = on_pairs;
	long replies = parse_all(&parser, text + size);
	if (replies < 0)
		return 1;
	printf("%ld\n", replies);
	return 0;
}
