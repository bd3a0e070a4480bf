/* Prints the events of the RESP3 values on standard input, one event a line. */
#include "resp.h"

#include <inttypes.h>
#include <stdio.h>
#include <stdlib.h>

static const char *const TEXTS[] = {"simple", "error", "double", "bulk", "bulkerror", "verbatim", "big"};
static const char *const AGGREGATES[] = {"array", "set", "map", "attribute", "push"};

static void print(const struct resp_event *event, const uint8_t *piece) {
    switch (event->kind) {
    case RESP_NULL:
        puts("null");
        break;
    case RESP_BOOL:
        puts(event->number ? "true" : "false");
        break;
    case RESP_INT:
        printf("integer %" PRId64 "\n", event->number);
        break;
    case RESP_TEXT:
        printf("%s ", TEXTS[event->form]);
        break;
    case RESP_PART:
        fwrite(resp_event_part(event, piece), 1, event->part, stdout);
        break;
    case RESP_TEXT_END:
        puts("");
        break;
    case RESP_OPEN:
        if (event->members == RESP_STREAMED)
            printf("%s streamed\n", AGGREGATES[event->form]);
        else
            printf("%s %" PRIu64 "\n", AGGREGATES[event->form], event->members);
        break;
    case RESP_CLOSE:
        puts("end");
        break;
    }
}

/* Prints the events of a piece. Returns RESP_OK or the error. */
static uint32_t scan(struct resp_scanner *scanner, const uint8_t *piece, size_t length) {
    struct resp_event event;
    uint32_t cause;
    while ((cause = resp_scanner_step(scanner, piece, length, &event)) == RESP_OK) {
        print(&event, piece);
        if (event.kind == RESP_MORE)
            break;
        piece += event.used;
        length -= event.used;
    }
    return cause;
}

int main(void) {
    struct resp_limits limits;
    resp_limits_standard(&limits);
    struct resp_scanner scanner = {malloc(resp_scanner_size())};
    if (!scanner.memory)
        return 3;
    uint32_t cause = resp_scanner_init(&scanner, 3, &limits);
    uint8_t piece[16384];
    size_t length;
    while (cause == RESP_OK && (length = fread(piece, 1, sizeof piece, stdin)) > 0)
        cause = scan(&scanner, piece, length);
    if (cause == RESP_OK)
        cause = resp_scanner_finish(&scanner);
    if (cause != RESP_OK)
        fprintf(stderr, "refused for cause %" PRIu32 " at byte %" PRIu64 " of the value\n", cause,
                resp_scanner_taken(&scanner));
    free(scanner.memory);
    return cause != RESP_OK;
}
