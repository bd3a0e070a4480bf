"""Tests that `resp proxy` reads lines as redis-server does: lines_of_redis.py REDIS_PORT PROXY_PORT

Each line is sent to both, in pieces that are cut at random. The command of a line returns its words, so the replies show
them. A line with a quote that is not closed, or with a byte behind a closing quote, gets the same error from both.
"""
import contextlib
import random
import socket
import sys

LIMIT = 10
SHOW = b'EVAL "return ARGV" 0 '
PARTS = [b" ", b" ", b"\t", b"\r", b'"', b'"', b"'", b"'", b"\\", b"\\x41", b"\\x4", b"\\xZZ", b"\\n", b"\\r", b"\\t", b"\\b",
         b"\\a", b"\\\\", b'\\"', b"\\'", b"a", b"b", b"*", b"$1", b"\xff", b"\x01", b"key", b"\x0b", b"\x0c",
         b'"a b"', b"'a b'", b'""', b"''"]
FIXED = [b"", b" ", b"\t \r", b"*0\r", b"*-1\r", b"\r", b"ping", b"PING  \t", b"$4", b"+OK", b"-1", b":1", b"ECHO a\rb", b'""',
         b"\x0bPING", b"\x0c\x0b", b"ECHO a\x0bb", b'ECHO "a"\x0b', b'"ECHO"\x0c\x0b"a"',
         b"''  x", b'ECHO "a', b"ECHO 'a", b'ECHO "a"b', b"ECHO 'a'b", b'ECHO "a\\', b"ECHO a\"b c\"", b"ECHO a'b c'"]


def answer(port, text, source):
    """Sends a text, which is cut at random, and ends. Returns everything that comes."""
    with socket.create_connection(("127.0.0.1", port), LIMIT) as stream:
        heard = b""
        with contextlib.suppress(ConnectionResetError, BrokenPipeError):
            while text:
                size = source.randint(1, len(text))
                stream.sendall(text[:size])
                text = text[size:]
            # The system refuses this if the other side has closed the connection.
            with contextlib.suppress(OSError):
                stream.shutdown(socket.SHUT_WR)
            while piece := stream.recv(65536):
                heard += piece
        return heard


def main():
    redis, proxy = int(sys.argv[1]), int(sys.argv[2])
    source = random.Random(7)
    lines = FIXED + [SHOW + b"".join(source.choices(PARTS, k=source.randint(0, 12))) for _ in range(400)]
    errors = 0
    for line in lines:
        text = line + (b"\n" if line.startswith(b"*") or source.random() < 0.5 else b"\r\n")
        wanted, given = answer(redis, text, source), answer(proxy, text, source)
        # Redis adds the arguments to the error of an unknown command.
        if wanted.startswith(b"-ERR unknown command"):
            wanted = wanted.partition(b", with args")[0] + b"\r\n"
        assert given == wanted, (line, given, wanted)
        errors += wanted == b"-ERR Protocol error: unbalanced quotes in request\r\n"
    assert 50 < errors < 400, errors
    for request in (b"POST / HTTP/1.1\r\nHost: localhost\r\n\r\nPING\r\n", b"hOsT: localhost\r\nPING\r\n"):
        assert answer(proxy, request, source) == answer(redis, request, source) == b"", request


if __name__ == "__main__":
    main()
