/* This project's library for C: resp_scanner_step.
 * ours
 * needs: cc {C}/lib/libresp.a
 * make: cc -O1 -I{C}/include -o {OUT} {FILE} {C}/lib/libresp.a
 * run: {OUT} */
#include "resp.h"

#include <inttypes.h>
#include <stdio.h>
#include <stdlib.h>
#include <string.h>

static const char *const TEXTS[] = {"simple", "error", "double", "bulk", "bulkerror", "verbatim", "big"};
static const char *const AGGREGATES[] = {"array", "set", "map", "attribute", "push"};

struct frame { uint32_t form; uint64_t count, members; };
static struct frame frames[129];
static int depth;
/* Whether a big number is read, and no digit of it was. */
static int is_zero;

/* Separates a value from the one before: pairs of a map and of an attribute are lists of two. */
static void begin(FILE *out) {
    if (depth == 0)
        return;
    struct frame *top = &frames[depth - 1];
    int is_map = top->form == RESP_MAP || top->form == RESP_ATTRIBUTE;
    if (top->form == RESP_ATTRIBUTE && top->count == 2 * top->members)
        fputs(top->members ? "]], " : "], ", out);
    else
        fputs(!is_map || top->count % 2 ? (top->count ? ", " : "") : top->count ? "], [" : "[", out);
    top->count++;
}

static void print(FILE *out, const struct resp_event *event, const uint8_t *piece) {
    const uint8_t *part = resp_event_part(event, piece);
    switch (resp_event_kind(event)) {
    case RESP_NULL: begin(out); fputs("[\"null\"]", out); break;
    case RESP_BOOL: begin(out); fprintf(out, "[\"boolean\", %s]", event->number ? "true" : "false"); break;
    case RESP_INT: begin(out); fprintf(out, "[\"integer\", \"%" PRId64 "\"]", event->number); break;
    case RESP_TEXT:
        begin(out);
        fprintf(out, "[\"%s\", \"", TEXTS[event->form]);
        if (event->form == RESP_TEXT_VERBATIM)
            fprintf(out, "%.3s\", \"", (const char *)event->format);
        if (event->form == RESP_TEXT_BIG)
            fputs(event->number ? "-" : "", out);
        is_zero = event->form == RESP_TEXT_BIG;
        break;
    case RESP_PART:
        is_zero = 0;
        for (size_t at = 0; at < event->part; at++)
            fprintf(out, part[at] < 32 || part[at] > 126 || strchr("\"\\", part[at]) ? "\\u%04x" : "%c", part[at]);
        break;
    case RESP_TEXT_END: fputs(is_zero ? "0\"]" : "\"]", out); break;
    case RESP_OPEN:
        begin(out);
        fprintf(out, "[\"%s\", [", AGGREGATES[event->form]);
        frames[depth++] = (struct frame){event->form, 0, event->members};
        break;
    case RESP_CLOSE:
        depth--;
        fputs(frames[depth].form == RESP_ATTRIBUTE ? "]" : frames[depth].form == RESP_MAP && frames[depth].count ? "]]]" : "]]", out);
        break;
    default: break;
    }
}

static int digit(char byte) { return byte < 'a' ? byte - '0' : byte - 'a' + 10; }

static void judge(char *line) {
    char *id = strtok(line, " \n"), *version = strtok(NULL, " \n"), *pieces = strtok(NULL, "\n");
    struct resp_limits limits;
    resp_limits_standard(&limits);
    static union resp_scanner_memory memory;
    struct resp_scanner scanner;
    uint32_t cause = resp_scanner_init_in(&scanner, &memory, version[0] == '3' ? 3 : 2, &limits);
    char *text = NULL;
    size_t size = 0, whole = 0;
    FILE *out = open_memstream(&text, &size);
    depth = 0;
    for (char *piece = pieces ? strtok(pieces, ",") : NULL; piece && cause == RESP_OK && strcmp(piece, "end"); piece = strtok(NULL, ",")) {
        size_t length = strlen(piece) / 2;
        uint8_t *bytes = malloc(length + 1), *rest = bytes;
        for (size_t at = 0; at < length; at++)
            bytes[at] = digit(piece[2 * at]) << 4 | digit(piece[2 * at + 1]);
        struct resp_event event;
        while ((cause = resp_scanner_step(&scanner, rest, length, &event)) == RESP_OK && event.kind != RESP_MORE) {
            print(out, &event, rest);
            rest += event.used;
            length -= event.used;
            if (event.kind == RESP_DONE) {
                fputs(", ", out);
                fflush(out);
                whole = size - 2;
            }
        }
        free(bytes);
    }
    fclose(out);
    printf("{\"id\": \"%s\", \"values\": [%.*s], \"end\": \"%s\"}\n", id, (int)whole, text, cause == RESP_OK ? "more" : "error");
    fflush(stdout);
    free(text);
}

int main(int count, char **words) {
    if (count > 1 && !strcmp(words[1], "--about")) {
        puts("{\"parser\": \"resp, C\", \"profiles\": [\"resp2\", \"resp3\", \"streamed\"], \"same\": [[\"null\", \"nullbulk\", \"nullarray\"]]}");
        return 0;
    }
    char *line = NULL;
    size_t room = 0;
    while (getline(&line, &room, stdin) > 0)
        judge(line);
}
