"""Tests `resp serve --test-server` over TCP.

The functions of TESTS test that

- lines, arrays and empty lines are served in turn, at any cut of their bytes;
- each client has a database, a name and a version of its own, and all clients share 16 databases;
- FLUSHDB removes the keys of one database and FLUSHALL of all;
- EXISTS counts a key as often as it is named;
- QUIT is replied to before the connection closes, and nothing after it is done;
- a protocol error is named, and the connection closes;
- without --test-server a line is a protocol error, and the further commands are unknown;
- a client that does not read its replies, or sends without end, delays no other.
"""
import contextlib
import time

from tcp_programs import (PING, PONG, ask, busy_clients_delay_none, command, connect, hear, hear_end, peak, running)


def serving(*words):
    return running("serve", "--test-server", *words, "127.0.0.1:0")


def lines():
    """Lines, arrays and empty lines in turn, cut before each byte and into single bytes."""
    asked = b'\r\nSET k "a\\x20b"\r\n' + PING + b"\nGET k\nDEL k k\r\n\r\n*0\r\n" + command(b"ECHO", b"\r\n")
    replies = b"+OK\r\n" + PONG + b"$3\r\na b\r\n:1\r\n$2\r\n\r\n\r\n"
    with serving() as serve, connect(serve.port) as client:
        ask(client, asked, replies)
        for cut in range(1, len(asked)):
            client.sendall(asked[:cut])
            time.sleep(0.002)
            client.sendall(asked[cut:])
            hear(client, replies)
        for at in range(len(asked)):
            client.sendall(asked[at : at + 1])
            time.sleep(0.001)
        hear(client, replies)
        # A line that has not ended has no reply.
        client.sendall(b"PI")
        ask(client, b"NG\n", PONG)


def databases():
    """SELECT is of one client, and the databases are shared."""
    with serving() as serve, contextlib.ExitStack() as streams:
        first, second = (streams.enter_context(connect(serve.port)) for _ in range(2))
        for index in range(16):
            ask(first, b"SELECT %d\r\nSET key %d\r\n" % (index, index), b"+OK\r\n+OK\r\n")
        ask(second, b"GET key\r\n", b"$1\r\n0\r\n")
        for index in range(16):
            text = b"%d" % index
            ask(second, b"SELECT %d\r\nGET key\r\nDBSIZE\r\n" % index, b"+OK\r\n$%d\r\n%s\r\n:1\r\n" % (len(text), text))
        ask(second, b"SELECT 16\r\nSELECT x\r\nGET key\r\n",
            b"-ERR DB index is out of range\r\n-ERR value is not an integer or out of range\r\n$2\r\n15\r\n")
        # The keys of one database, and then of all.
        ask(second, b"SELECT 3\r\nFLUSHDB\r\nEXISTS key\r\nSELECT 4\r\nEXISTS key\r\n", b"+OK\r\n+OK\r\n:0\r\n+OK\r\n:1\r\n")
        ask(first, b"GET key\r\n", b"$2\r\n15\r\n")
        ask(second, b"FLUSHALL\r\n", b"+OK\r\n")
        ask(first, b"GET key\r\n", b"$-1\r\n")
        for index in range(16):
            ask(first, b"SELECT %d\r\nDBSIZE\r\n" % index, b"+OK\r\n:0\r\n")


def keys_that_are_named_twice():
    """EXISTS counts a key as often as it is named, and DEL once."""
    with serving() as serve, connect(serve.port) as client:
        ask(client, b"SET a 1\r\nSET b 2\r\nEXISTS a b c a a\r\nDEL a a\r\nEXISTS a b\r\n", b"+OK\r\n+OK\r\n:4\r\n:1\r\n:1\r\n")
        ask(client, b"EXISTS\r\n", b"-ERR wrong number of arguments for 'exists' command\r\n")


def names_of_clients():
    """Names, ids and versions belong to a client."""
    with serving() as serve, contextlib.ExitStack() as streams:
        first, second = (streams.enter_context(connect(serve.port)) for _ in range(2))
        ask(first, b"CLIENT ID\r\nCLIENT GETNAME\r\nCLIENT SETNAME one\r\nCLIENT GETNAME\r\n", b":1\r\n$-1\r\n+OK\r\n$3\r\none\r\n")
        ask(second, b"CLIENT ID\r\nCLIENT GETNAME\r\nCLIENT SETINFO lib-name x\r\n", b":2\r\n$-1\r\n+OK\r\n")
        ask(first, b"CLIENT SETNAME 'a b'\r\nCLIENT GETNAME\r\n",
            b"-ERR Client names cannot contain spaces, newlines or special characters.\r\n$3\r\none\r\n")
        second.sendall(b"HELLO 3\r\nGET none\r\nECHO end\r\n")
        heard = b""
        while not heard.endswith(b"end\r\n"):
            heard += second.recv(4_096)
        assert heard.startswith(b"%7\r\n") and b"$2\r\nid\r\n:2\r\n" in heard and heard.endswith(b"_\r\n$3\r\nend\r\n"), heard
        ask(first, b"GET none\r\n", b"$-1\r\n")
    # A client that comes later has another id and no name.
    with serving() as serve:
        for number in range(1, 4):
            with connect(serve.port) as client:
                ask(client, b"CLIENT ID\r\nCLIENT GETNAME\r\nCLIENT SETNAME x\r\n", b":%d\r\n$-1\r\n+OK\r\n" % number)


def ends_of_connections():
    """QUIT and protocol errors are replied to, then the connection closes. Nothing after them is done."""
    with serving() as serve:
        for asked, replies in [
                (b"SET a 1\r\nQUIT\r\nSET a 2\r\n", b"+OK\r\n+OK\r\n"),
                (command(b"QUIT") + PING, b"+OK\r\n"),
                (b"PING\r\n*x\r\nSET a 2\r\n", PONG + b"-ERR Protocol error: Syntax at byte 1\r\n"),
                (b"*1\r\n:1\r\nSET a 2\r\n", b"-ERR Protocol error: NotCommand at byte 0\r\n"),
                (b'GET "a\r\nSET a 2\r\n', b"-ERR Protocol error: unbalanced quotes in request\r\n"),
                (b"GET " + b"x" * 70_000, b"-ERR Protocol error: too big inline request\r\n"),
        ]:
            with connect(serve.port) as client:
                client.sendall(asked)
                heard = hear_end(client)
                assert heard == replies, (asked[:40], heard)
        with connect(serve.port) as client:
            ask(client, b"GET a\r\n", b"$1\r\n1\r\n")


def without_the_option():
    """Without --test-server nothing of it is served."""
    with running("serve", "127.0.0.1:0") as serve:
        for asked in (b"PING\r\n", b"\r\n"):
            with connect(serve.port) as client:
                client.sendall(asked)
                assert hear_end(client) == b"-ERR Protocol error: Syntax at byte 0\r\n"
        with connect(serve.port) as client:
            names = [[b"QUIT"], [b"SELECT", b"0"], [b"EXISTS", b"a"], [b"DBSIZE"], [b"FLUSHDB"], [b"FLUSHALL"], [b"CLIENT", b"ID"]]
            for words in names:
                ask(client, command(*words), b"-ERR unknown command\r\n")
            ask(client, PING, PONG)


def long_pipelines():
    """Replies come in order, however many commands are sent at once, and no more than may be held wait."""
    count = 20_000
    asked = b"".join(b"SET key:%d %d\r\n" % (n, n) for n in range(count)) + b"".join(
        command(b"GET", b"key:%d" % n) for n in range(count))
    with serving() as serve, connect(serve.port) as client:
        client.sendall(asked[: len(asked) // 2])
        hear(client, b"+OK\r\n" * (count // 2))
        client.sendall(asked[len(asked) // 2 :])
        hear(client, b"+OK\r\n" * (count - count // 2))
        hear(client, b"".join(b"$%d\r\n%d\r\n" % (len(str(n)), n) for n in range(count)))
        ask(client, b"DBSIZE\r\nFLUSHDB\r\nDBSIZE\r\n", b":%d\r\n+OK\r\n:0\r\n" % count)


def replies_that_wait():
    """Commands of a client that does not read are not run while more bytes wait than --client-buffer says."""
    value = bytes(range(256)) * 4_096
    reply = b"$%d\r\n%s\r\n" % (len(value), value)
    with serving() as serve, contextlib.ExitStack() as streams:
        greedy, other = (streams.enter_context(connect(serve.port)) for _ in range(2))
        ask(other, command(b"SET", b"key", value), b"+OK\r\n")
        greedy.sendall(b"GET key\r\n" * 300 + b"ECHO last\r\nQUIT\r\n")
        ask(other, PING, PONG)
        time.sleep(0.3)
        serve.is_idle()
        assert peak(serve.process) < 40_000_000, f"{peak(serve.process)} bytes for replies that nobody reads"
        for _ in range(300):
            hear(greedy, reply)
        assert hear_end(greedy) == b"$4\r\nlast\r\n+OK\r\n"


def busy_clients():
    """A client that sends without end delays no other."""
    with serving() as serve:
        busy_clients_delay_none(serve.port, 3, 10)


TESTS = [lines, databases, keys_that_are_named_twice, names_of_clients, ends_of_connections, without_the_option, long_pipelines,
         replies_that_wait, busy_clients]
