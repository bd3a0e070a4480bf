"""Tests `resp serve --max-clients MOST` with many connections at once: many_clients.py PORT PID MOST

It fails if a reply is wrong, if one client waits for another, or if the server keeps memory or descriptors of closed
connections.
"""

import os
import socket
import struct
import sys
import threading
import time

PORT, PID, MOST = (int(word) for word in sys.argv[1:])
PING, PONG = b"*1\r\n$4\r\nPING\r\n", b"+PONG\r\n"
TOO_MANY = b"-ERR max number of clients reached\r\n"
LIMIT = 20


def command(*words):
    return b"*%d\r\n" % len(words) + b"".join(b"$%d\r\n%s\r\n" % (len(word), word) for word in words)


def connect():
    stream = socket.create_connection(("127.0.0.1", PORT), timeout=LIMIT)
    stream.setsockopt(socket.IPPROTO_TCP, socket.TCP_NODELAY, 1)
    return stream


def hear(stream, text):
    """Reads as many bytes as the text has, and compares them with it."""
    heard = b""
    while len(heard) < len(text):
        piece = stream.recv(len(text) - len(heard))
        assert piece, f"the end of the stream after {heard[-100:]}"
        heard += piece
    assert heard == text, (heard[:100], text[:100])


def hear_end(stream):
    """Reads to the end of the stream."""
    heard = b""
    while piece := stream.recv(65_536):
        heard += piece
    return heard


def held():
    """Returns the kilobytes that the server holds, and the number of its open descriptors."""
    with open(f"/proc/{PID}/status", encoding="ascii") as file:
        size = next(int(line.split()[1]) for line in file if line.startswith("VmRSS:"))
    return size, len(os.listdir(f"/proc/{PID}/fd"))


def until(holds, what):
    end = time.monotonic() + LIMIT
    while not holds():
        assert time.monotonic() < end, what
        time.sleep(0.01)


def send_slowly(answers):
    """Sends one byte a second while all other tests run."""
    with connect() as slow:
        for byte in PING:
            slow.sendall(bytes([byte]))
            time.sleep(1)
        hear(slow, PONG)
    answers.append(PONG)


def half_are_silent(count):
    """Opens this many connections, every second one of which sends nothing."""
    streams = [connect() for _ in range(count)]
    talking = streams[::2]
    for turn in range(5):
        for number, stream in enumerate(talking):
            stream.sendall(command(b"SET", b"key:%d" % number, b"%d" % turn) + command(b"GET", b"key:%d" % number))
        for stream in talking:
            hear(stream, b"+OK\r\n$1\r\n%d\r\n" % turn)
    return streams


def over_the_most(streams):
    """A connection over the maximum is rejected, and a new one is served after another was closed."""
    with connect() as one_more:
        assert hear_end(one_more) == TOO_MANY
    for stream in streams[1::2]:
        stream.sendall(PING)
        hear(stream, PONG)
    streams.pop().close()

    def serves():
        with connect() as stream:
            try:
                stream.sendall(PING)
                hear(stream, PONG)
            except (AssertionError, ConnectionError):
                return False
            return True

    until(serves, "no connection is served once one has gone")
    for stream in streams:
        stream.close()


def one_never_reads():
    """One client sends commands and never reads, while another gets 100,000 replies."""
    size = 16_384
    with connect() as greedy, connect() as other:
        other.sendall(command(b"SET", b"great", bytes(size)))
        hear(other, b"+OK\r\n")
        before, _ = held()
        asked = command(b"GET", b"great") * 1_000
        greedy.setblocking(False)
        sent, begun = 0, time.monotonic()
        for _ in range(1_000):
            # Sends as much as the socket accepts: nothing, after the server has stopped reading.
            try:
                sent += greedy.send(asked[sent % len(asked) :])
            except BlockingIOError:
                pass
            other.sendall(command(b"GET", b"nothing") * 100)
            hear(other, b"$-1\r\n" * 100)
        assert time.monotonic() - begun < LIMIT, "100,000 commands took too long"
        after, _ = held()
        # A piece of 16,384 bytes has 655 commands, whose replies are 10 MB; the buffer may have grown to twice that.
        assert after - before < 48_000, f"{after - before} kB for a client that doesn't read"


def cut_in_mid_command(count):
    """Closes connections in the middle of a command, some of them by a reset."""
    text = b"*3\r\n$3\r\nSET\r\n$3\r\nkey\r\n$100000\r\n" + bytes(10_000)
    streams = [connect() for _ in range(count)]
    for number, stream in enumerate(streams):
        stream.sendall(text[: 1 + number * 37 % len(text)])
    for number, stream in enumerate(streams):
        if number % 2:
            stream.setsockopt(socket.SOL_SOCKET, socket.SO_LINGER, struct.pack("ii", 1, 0))
        stream.close()


def nothing_is_kept(count, descriptors):
    """The server keeps nothing of connections that were closed.

    The memory of a process varies. A server that kept 128 bytes of each connection would grow by more than 100 kB in
    each of these turns.
    """
    grown = []
    for _ in range(12):
        before, _ = held()
        for _ in range(4):
            cut_in_mid_command(count)
            until(lambda: held()[1] == descriptors, "descriptors of connections that have gone are open")
        after, _ = held()
        grown.append(after - before)
        if grown[-1] < 100:
            return
    raise AssertionError(f"{grown} kB more after {4 * count} connections each")


def refused_byte():
    """A session with an error sends its error line, and the connection is closed, whatever else was received."""
    with connect() as stream:
        stream.sendall(PING + b"?" + PING * 1_000)
        heard = hear_end(stream)
        assert heard.startswith(PONG + b"-ERR ") and heard.endswith(b"\r\n") and heard.count(b"\r\n") == 2, heard[:200]


def halves_of_a_close():
    """A client that has closed its sending side still gets its replies."""
    with connect() as stream:
        stream.sendall(PING * 10_000)
        stream.shutdown(socket.SHUT_WR)
        assert hear_end(stream) == PONG * 10_000


def main():
    answers = []
    slow = threading.Thread(target=send_slowly, args=[answers], daemon=True)
    slow.start()
    time.sleep(0.5)
    _, descriptors = held()
    over_the_most(half_are_silent(MOST - 1))
    one_never_reads()
    nothing_is_kept(200, descriptors)
    refused_byte()
    halves_of_a_close()
    slow.join(LIMIT + len(PING))
    assert answers == [PONG], "a byte a second isn't answered"


main()
