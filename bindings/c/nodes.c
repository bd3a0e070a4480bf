/* Reads standard input as whole replies of version 3, and prints for each reply that is a map the text of
 * its field `role`, as a reply to HELLO 3 has it. */
#include "resp.h"

#include <stdio.h>

enum { NODES = 256, BUFFER = 4096 };

/* Prints the text of a field of a map, if it has one. */
static void print_field(const struct resp_node *map, const uint8_t *buffer, const char *key) {
    const struct resp_node *value = resp_node_value(map, buffer, key, strlen(key));
    if (value && value->kind == RESP_TEXT)
        printf("%s: %.*s\n", key, (int)value->length, (const char *)resp_node_text(value, buffer));
}

int main(void) {
    static uint8_t buffer[BUFFER];
    static struct resp_node nodes[NODES];
    struct resp_limits limits;
    struct resp_replies replies;
    size_t length = fread(buffer, 1, BUFFER, stdin);

    resp_limits_standard(&limits);
    uint32_t cause = resp_reply_read(3, &limits, buffer, length, nodes, NODES, &replies);
    const struct resp_node *node = nodes, *end = nodes + replies.nodes;
    for (; node < end; node = resp_node_next(node))
        print_field(node, buffer, "role");
    if (cause != RESP_OK)
        printf("%s at byte %zu\n", resp_cause_name(cause), replies.used);
    return cause != RESP_OK;
}
