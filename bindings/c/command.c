/* Prints the command made of its arguments, as a client sends it. */
#include "resp.h"

#include <inttypes.h>
#include <stdio.h>
#include <stdlib.h>
#include <string.h>

int main(int argc, char **argv) {
    const char *const *words = (const char *const *)argv + 1;
    size_t count = argc > 0 ? (size_t)argc - 1 : 0, size = 0;
    size_t *lengths = malloc((count + 1) * sizeof *lengths);
    uint8_t *room = NULL;
    struct resp_limits limits;
    if (!lengths)
        return 3;
    for (size_t word = 0; word < count; word++)
        lengths[word] = strlen(words[word]);
    resp_limits_standard(&limits);
    uint32_t cause = resp_command_size(&limits, lengths, count, &size);
    if (cause == RESP_OK && (room = malloc(size)))
        cause = resp_write_command(room, size, &limits, count, words, lengths, &size);
    if (room && cause == RESP_OK)
        fwrite(room, 1, size, stdout);
    else
        fprintf(stderr, "refused for cause %" PRIu32 "\n", cause);
    free(room);
    free(lengths);
    return cause != RESP_OK;
}
