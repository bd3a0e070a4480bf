/* A blocking client: blocking PORT WORD.. says HELLO 3, sends the command, and prints its reply, a value on each line. */
#include "resp.h"

#include <arpa/inet.h>
#include <stdio.h>
#include <stdlib.h>
#include <string.h>
#include <sys/socket.h>

static struct resp_limits limits;

/* Counts a command and sends it. Returns whether that worked. */
static bool send_command(int fd, struct resp_pairing *pairing, size_t count, const char *const *words) {
    size_t lengths[64], size;
    uint64_t number;
    uint8_t *room = NULL;
    for (size_t at = 0; count <= 64 && at < count; at++)
        lengths[at] = strlen(words[at]);
    bool is_sent = count <= 64 && resp_pairing_queue_command(pairing, count, words, lengths, &number) == RESP_OK &&
                   resp_command_size(&limits, lengths, count, &size) == RESP_OK && (room = malloc(size)) &&
                   !resp_write_command(room, size, &limits, count, words, lengths, &size) && send(fd, room, size, 0) == (ssize_t)size;
    free(room);
    return is_sent;
}

static void print(const struct resp_event *event, const uint8_t *piece) {
    if (event->kind == RESP_PART)
        fwrite(resp_event_part(event, piece), 1, event->part, stdout);
    else if (event->kind == RESP_INT)
        printf("%lld\n", (long long)event->number);
    else if (event->kind == RESP_TEXT_END || event->kind == RESP_NULL)
        puts(event->kind == RESP_NULL ? "null" : "");
}

int main(int argc, const char *const *argv) {
    const char *const hello[] = {"HELLO", "3"};
    struct sockaddr_in server = {.sin_family = AF_INET, .sin_addr.s_addr = htonl(INADDR_LOOPBACK)};
    union resp_scanner_memory memory;
    struct resp_scanner scanner;
    struct resp_pairing pairing;
    server.sin_port = htons((uint16_t)(argc > 2 ? atoi(argv[1]) : 0));
    resp_limits_standard(&limits);
    resp_pairing_init(&pairing);
    int fd = socket(AF_INET, SOCK_STREAM, 0);
    if (resp_scanner_init_in(&scanner, &memory, 2, &limits) || connect(fd, (struct sockaddr *)&server, sizeof server) ||
        !send_command(fd, &pairing, 2, hello) || !send_command(fd, &pairing, argc - 2, argv + 2))
        return 1;
    uint8_t room[65536];
    for (ssize_t length; pairing.answered < 2 && (length = recv(fd, room, sizeof room, 0)) > 0;) {
        struct resp_event event = {.kind = RESP_DONE};
        uint64_t number = 0;
        for (uint8_t *piece = room, *end = room + length; event.kind != RESP_MORE; piece += event.used) {
            if (resp_pairing_step(&pairing, &scanner, piece, (size_t)(end - piece), &event, &number) != RESP_OK)
                return 1;
            if (number == 2)
                print(&event, piece);
        }
    }
    return pairing.answered < 2;
}
