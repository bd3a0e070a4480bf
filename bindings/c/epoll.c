/* Many clients in one thread: epoll PORT COUNT sends HELLO 3 and PING on up to 1,000 connections, and counts the replies. */
#include "resp.h"

#include <arpa/inet.h>
#include <stdio.h>
#include <stdlib.h>
#include <sys/epoll.h>
#include <sys/socket.h>

struct client {
    int fd;
    union resp_scanner_memory memory;
    struct resp_scanner scanner;
    struct resp_pairing pairing;
};

/* Connects a client, which counts and sends its commands. Returns whether that worked. */
static bool begin(struct client *client, int poll, const struct sockaddr_in *server) {
    static const char commands[] = "*2\r\n$5\r\nHELLO\r\n$1\r\n3\r\n*1\r\n$4\r\nPING\r\n";
    struct epoll_event event = {.events = EPOLLIN, .data.ptr = client};
    struct resp_limits limits;
    uint64_t number;
    resp_limits_standard(&limits);
    resp_pairing_init(&client->pairing);
    client->fd = socket(AF_INET, SOCK_STREAM, 0);
    return resp_scanner_init_in(&client->scanner, &client->memory, 2, &limits) == RESP_OK &&
           connect(client->fd, (const struct sockaddr *)server, sizeof *server) == 0 &&
           resp_pairing_queue(&client->pairing, RESP_COMMAND_HELLO_3, &number) == RESP_OK &&
           resp_pairing_queue(&client->pairing, RESP_COMMAND_ONE_REPLY, &number) == RESP_OK &&
           send(client->fd, commands, sizeof commands - 1, 0) == (ssize_t)sizeof commands - 1 &&
           epoll_ctl(poll, EPOLL_CTL_ADD, client->fd, &event) == 0;
}

/* Reads a piece. Returns false at the end of the connection, and at a wrong byte. */
static bool read_piece(struct client *client) {
    uint8_t room[64];
    struct resp_event event = {.kind = RESP_DONE};
    uint64_t number;
    ssize_t length = recv(client->fd, room, sizeof room, MSG_DONTWAIT);
    for (uint8_t *piece = room; length > 0 && event.kind != RESP_MORE; piece += event.used)
        if (resp_pairing_step(&client->pairing, &client->scanner, piece, (size_t)(room + length - piece), &event, &number))
            return false;
    return length > 0;
}

int main(int argc, char **argv) {
    struct sockaddr_in server = {.sin_family = AF_INET, .sin_addr.s_addr = htonl(INADDR_LOOPBACK)};
    size_t count = argc > 2 ? (size_t)atoi(argv[2]) : 0, done = 0;
    static struct client clients[1000];
    int poll = epoll_create1(0);
    server.sin_port = htons((uint16_t)(argc > 1 ? atoi(argv[1]) : 0));
    for (size_t at = 0; at < count; at++)
        if (count > 1000 || !begin(&clients[at], poll, &server))
            return 1;
    struct epoll_event event;
    while (done < count && epoll_wait(poll, &event, 1, -1) == 1 && read_piece(event.data.ptr))
        done += ((struct client *)event.data.ptr)->pairing.answered == 2;
    printf("%zu clients have %zu replies\n", done, 2 * done);
    return done < count;
}
