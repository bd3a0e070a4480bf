/* Sends HELLO 3 and GET KEY in one write, and prints which command each reply answers: pipeline ADDRESS PORT KEY */
#define _POSIX_C_SOURCE 200112L
#include "resp.h"

#include <arpa/inet.h>
#include <inttypes.h>
#include <stdio.h>
#include <stdlib.h>
#include <string.h>
#include <sys/socket.h>
#include <unistd.h>

/* Returns a socket that is connected to an IPv4 address and a port, or -1. */
static int connected(const char *address, const char *port) {
    struct sockaddr_in server = {0};
    server.sin_family = AF_INET;
    server.sin_port = htons((uint16_t)atoi(port));
    if (inet_pton(AF_INET, address, &server.sin_addr) != 1)
        return -1;
    int fd = socket(AF_INET, SOCK_STREAM, 0);
    if (fd >= 0 && connect(fd, (struct sockaddr *)&server, sizeof server) != 0) {
        close(fd);
        return -1;
    }
    return fd;
}

/* Writes HELLO 3 and GET KEY into the room, and counts them. Returns RESP_OK or the error. */
static uint32_t queue_commands(struct resp_pairing *pairing, const char *key, uint8_t *room, size_t length, size_t *size) {
    const char *const words[] = {"HELLO", "3", "GET", key};
    const size_t lengths[] = {5, 1, 3, strlen(key)};
    size_t first, second;
    uint64_t number;
    struct resp_limits limits;
    resp_limits_standard(&limits);
    uint32_t cause = resp_write_command(room, length, &limits, 2, words, lengths, &first);
    if (cause == RESP_OK)
        cause = resp_write_command(room + first, length - first, &limits, 2, words + 2, lengths + 2, &second);
    if (cause == RESP_OK)
        cause = resp_pairing_queue_command(pairing, 2, words, lengths, &number);
    if (cause == RESP_OK)
        cause = resp_pairing_queue_command(pairing, 2, words + 2, lengths + 2, &number);
    if (cause == RESP_OK)
        *size = first + second;
    return cause;
}

/* Reads until both commands have their replies. Returns RESP_OK or the error. */
static uint32_t read_replies(int fd, struct resp_pairing *pairing, struct resp_scanner *scanner) {
    uint8_t buffer[4096];
    uint32_t cause = RESP_OK;
    while (cause == RESP_OK && pairing->answered < 2) {
        const uint8_t *piece = buffer;
        ssize_t length = read(fd, buffer, sizeof buffer);
        if (length <= 0)
            return RESP_CAUSE_TRUNCATED;
        struct resp_event event;
        uint64_t number;
        while ((cause = resp_pairing_step(pairing, scanner, piece, (size_t)length, &event, &number)) == RESP_OK) {
            if (event.kind == RESP_MORE)
                break;
            if (event.kind == RESP_DONE && number > 0)
                printf("command %" PRIu64 " has its reply\n", number);
            piece += event.used;
            length -= (ssize_t)event.used;
        }
    }
    return cause;
}

int main(int argc, char **argv) {
    uint8_t commands[1024];
    size_t size = 0;
    struct resp_pairing pairing;
    struct resp_limits limits;
    resp_limits_standard(&limits);
    struct resp_scanner scanner = {malloc(resp_scanner_size())};
    int fd = argc == 4 ? connected(argv[1], argv[2]) : -1;
    if (fd < 0 || !scanner.memory || resp_scanner_init(&scanner, 2, &limits) != RESP_OK)
        return 3;
    resp_pairing_init(&pairing);
    uint32_t cause = queue_commands(&pairing, argv[3], commands, sizeof commands, &size);
    if (cause == RESP_OK && write(fd, commands, size) != (ssize_t)size)
        return 3;
    if (cause == RESP_OK)
        cause = read_replies(fd, &pairing, &scanner);
    if (cause != RESP_OK)
        fprintf(stderr, "failed for cause %" PRIu32 "\n", cause);
    close(fd);
    free(scanner.memory);
    return cause != RESP_OK;
}
