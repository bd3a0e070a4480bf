"""Tests `resp proxy` over TCP on this machine, with Python alone; tests/over_tcp runs them.

Most tests have a server of their own, which reads and replies step by step. They test that

- each client gets the replies to its own commands, in order, however the bytes of both sides are cut;
- the replies to the commands of a client that has gone are given to nobody;
- after the connection to the server is lost, each command of which a byte was sent gets an error, each other command is
  sent over the next connection, and nothing is sent twice;
- a reply that no command waits for, or a wrong byte, ends the connection to the server;
- without a server each command gets an error at once, and the server is tried again;
- a client with a protocol error is closed after its earlier replies, and the others are not;
- a client that does not read its replies is not read either, and delays no other;
- --pipeline and --max-clients limit what they say, and nothing is busy without work;
- with a password AUTH is sent first, and commands only after its reply;
- lines are commands, and with --no-inline they are not;
- --also, --local-ping, --report and --drain do what they say, and INFO proxy;
- clients wait while no descriptor is left, and the connection to the server is opened again even then.
"""
import contextlib
import os
import random
import re
import socket
import struct
import subprocess
import threading
import time
import unittest.mock

from tcp_programs import (LIMIT, PING, PONG, PROGRAM, TOO_MANY, Peer, ask, busy_clients_delay_none, command, connect,
                          has_reply, hear, hear_end, peak, running, until)

LOST = b"-ERR connection to server lost; the command may have run\r\n"
OUT_OF_STEP = b"-ERR connection to server out of step; the command may have run\r\n"
NOT_CONNECTED = b"-ERR cannot connect to server: "


def bulk(text):
    return b"$%d\r\n%s\r\n" % (len(text), text)


def commands_of(text):
    """Returns the whole commands at the beginning of a text, and the rest of the text."""
    found, begin = [], 0
    while True:
        at = text.find(b"\r\n", begin)
        if at < 0:
            return found, text[begin:]
        count, at, words = int(text[begin + 1 : at]), at + 2, []
        while len(words) < count:
            end = text.find(b"\r\n", at)
            length = int(text[at + 1 : end]) if end >= 0 else 0
            if end < 0 or len(text) < end + length + 4:
                return found, text[begin:]
            words.append(text[end + 2 : end + 2 + length])
            at = end + length + 4
        found.append(words)
        begin = at


def cut(text, source):
    """Returns the pieces of a text, which is cut at random."""
    pieces = []
    while text:
        length = source.choice((1, 2, 7, 30, 1000, 100_000))
        pieces.append(text[:length])
        text = text[length:]
    return pieces


class Answering(Peer):
    """A server that answers each command by its reply, as this function of the words returns it, until it is closed."""

    def __init__(self, reply, source=None):
        super().__init__()
        self.listener.settimeout(None)
        self.reply, self.source, self.count = reply, source, 0
        threading.Thread(target=self.serve, daemon=True).start()

    def serve(self):
        with contextlib.suppress(OSError):
            while True:
                stream, _ = self.listener.accept()
                threading.Thread(target=self.answer, args=(stream,), daemon=True).start()

    def answer(self, stream):
        rest = b""
        with stream, contextlib.suppress(OSError):
            while piece := stream.recv(65_536):
                found, rest = commands_of(rest + piece)
                self.count += len(found)
                text = b"".join(self.reply(words) for words in found)
                for part in cut(text, self.source) if self.source else [text]:
                    stream.sendall(part)


@contextlib.contextmanager
def proxied(*words):
    """A proxy in front of a server of the test's own, with the first connection to it. It has much patience, since a test
    may be slow."""
    if "--server-timeout" not in words:
        words = (*words, "--server-timeout", "1m")
    peer = Peer()
    with running("proxy", "127.0.0.1:0", peer.address, *words) as proxy, peer.accept() as server:
        is_connected(proxy)
        yield proxy, peer, server


def is_connected(proxy):
    """Waits for the line of the connection to the server."""
    until(lambda: b"\nserver connected\n" in proxy.printed(), "the connection to the server has no line")


def is_settled(proxy):
    """Waits until the proxy has read all that it reads for now, and uses no processor."""
    end = time.monotonic() + LIMIT
    while True:
        before = proxy.ticks()
        time.sleep(0.3)
        if proxy.ticks() == before:
            return
        assert time.monotonic() < end, "the proxy is busy without work"


def get(key):
    return command(b"GET", key)


def pipelines_cut_at_random():
    """Clients whose keys name them get the values of their own keys, in order, at any cut of the bytes."""
    for seed in range(3):
        source = random.Random(seed)
        peer = Answering(lambda words: bulk(b"value of " + words[-1]), random.Random(seed + 100))
        with running("proxy", "127.0.0.1:0", peer.address) as proxy:
            is_connected(proxy)
            before = proxy.descriptors()

            def talk(name, pieces, asked, wrong):
                with connect(proxy.port) as stream:
                    threading.Thread(target=lambda: [stream.sendall(piece) for piece in pieces], daemon=True).start()
                    try:
                        for key in asked:
                            hear(stream, bulk(b"value of " + key))
                    except (AssertionError, OSError) as error:
                        wrong.append((name, error))

            threads, wrong = [], []
            for name in (b"anna", b"bob"):
                asked = [b"%s %d %s" % (name, number, b"." * source.choice((0, 1, 50, 3000))) for number in range(400)]
                pieces = cut(b"".join(map(get, asked)), source)
                threads.append(threading.Thread(target=talk, args=(name, pieces, asked, wrong)))
            for thread in threads:
                thread.start()
            for thread in threads:
                thread.join()
            assert not wrong, (seed, wrong)
            until(lambda: proxy.descriptors() == before, "descriptors of clients that have gone are open")
        peer.close()


def client_that_goes():
    """Nobody gets the replies to the commands of a client that has gone, and half a command is not sent."""
    with proxied() as (proxy, _, server):
        before = proxy.descriptors()
        gone, reset, half, other = (connect(proxy.port) for _ in range(4))
        for stream in (gone, reset):
            stream.sendall(get(b"a") + get(b"b"))
            hear(server, get(b"a") + get(b"b"))
        half.sendall(get(b"half")[:-4])
        until(lambda: proxy.descriptors() == before + 4, "clients are not accepted")
        gone.close()
        half.close()
        reset.setsockopt(socket.SOL_SOCKET, socket.SO_LINGER, struct.pack("ii", 1, 0))
        reset.close()
        # A client that has closed can't be told from one that has ended its sending side, so it is owed its replies.
        until(lambda: proxy.descriptors() == before + 2, "clients that have gone are open")
        other.sendall(get(b"c"))
        hear(server, get(b"c"))
        with connect(proxy.port) as late:
            late.sendall(get(b"d"))
            hear(server, get(b"d"))
            server.sendall((bulk(b"A") + bulk(b"B")) * 2 + bulk(b"C") + bulk(b"D"))
            hear(other, bulk(b"C"))
            hear(late, bulk(b"D"))
            assert not has_reply(other) and not has_reply(late)
        other.close()
        until(lambda: proxy.descriptors() == before, "clients that have gone are open")


def end_of_input():
    """A client that has ended its sending side gets the replies to its commands, and then the end."""
    with proxied() as (proxy, _, server), connect(proxy.port) as client:
        client.sendall(PING + get(b"a") + PING[:7])
        client.shutdown(socket.SHUT_WR)
        hear(server, PING + get(b"a"))
        assert not has_reply(client)
        server.sendall(PONG + bulk(b"A"))
        assert hear_end(client) == PONG + bulk(b"A")
        with connect(proxy.port) as other:
            other.sendall(PING)
            hear(server, PING)
            server.sendall(PONG)
            hear(other, PONG)


def server_that_closes():
    """A command of which a byte was sent gets an error, and any other one is sent over the next connection."""
    large = command(b"SET", b"key", bytes(16_000_000))
    for words in ([], ["--server-buffer", "100000000"]):
        with proxied(*words) as (proxy, peer, server), contextlib.ExitStack() as streams:
            first, second, third, fourth = (streams.enter_context(connect(proxy.port)) for _ in range(4))
            first.sendall(PING + PING)
            hear(server, PING + PING)
            server.sendall(PONG + PONG[:3])
            hear(first, PONG)
            # The server reads no more than the beginning of this command, and the system holds no whole one.
            second.sendall(large)
            hear(server, large[:1000])
            third.sendall(get(b"third"))
            fourth.sendall(get(b"fourth") + get(b"fifth"))
            is_settled(proxy)
            assert not has_reply(third), "a command is answered before it was sent"
            server.close()
            hear(first, LOST)
            hear(second, LOST)
            with peer.accept() as server:
                # They are sent once each, and in the order of each client.
                heard = b""
                while len(heard) < len(get(b"third") + get(b"fourth") + get(b"fifth")):
                    heard += server.recv(65_536)
                found, rest = commands_of(heard)
                keys = [words[1] for words in found]
                assert rest == b"" and sorted(keys) == [b"fifth", b"fourth", b"third"], heard[:200]
                assert keys.index(b"fourth") < keys.index(b"fifth"), keys
                assert not has_reply(server), "more is sent than the commands that wait"
                server.sendall(b"".join(map(bulk, keys)))
                hear(third, bulk(b"third"))
                hear(fourth, bulk(b"fourth") + bulk(b"fifth"))
                second.sendall(PING)
                hear(server, PING)
                server.sendall(PONG)
                hear(second, PONG)
                assert not any(has_reply(stream) for stream in (first, second, third, fourth))
                lines = re.findall(rb"server (connected|lost: .+)\n", proxy.printed())
                assert len(lines) == 3 and lines[::2] == [b"connected"] * 2, lines


def server_that_ends_inside_a_reply():
    """What has come of a reply is not given to the client, and the next connection begins with a new reply."""
    with proxied() as (proxy, peer, server), connect(proxy.port) as client:
        client.sendall(get(b"a"))
        hear(server, get(b"a"))
        server.sendall(bulk(b"A" * 1000)[:500])
        assert not has_reply(client), "half a reply is given"
        server.shutdown(socket.SHUT_WR)
        hear(client, LOST)
        server.close()
        with peer.accept() as server:
            client.sendall(get(b"b"))
            hear(server, get(b"b"))
            server.sendall(bulk(b"B"))
            hear(client, bulk(b"B"))
            assert not has_reply(client)


def reply_that_nobody_waits_for():
    """It ends the connection to the server, since replies and commands can't be paired any more; so does a wrong byte."""
    for text, given in ((PONG + bulk(b"B"), PONG), (PONG + b"@\r\n", PONG), (b"@\r\n", LOST), (b">1\r\n+push\r\n", LOST)):
        with proxied() as (proxy, peer, server), connect(proxy.port) as client, connect(proxy.port) as other:
            client.sendall(PING)
            hear(server, PING)
            server.sendall(text)
            hear(client, given)
            assert hear_end(server) == b"", text
            server.close()
            with peer.accept() as server:
                other.sendall(PING)
                hear(server, PING)
                assert not has_reply(client) and not has_reply(other), text
                server.sendall(PONG)
                hear(other, PONG)
            assert b"server lost: " in proxy.printed(), proxy.printed()
    # Nobody waits for a reply at all.
    with proxied() as (proxy, peer, server), connect(proxy.port) as client:
        server.sendall(PONG)
        with contextlib.suppress(ConnectionError):
            assert hear_end(server) == b""
        with peer.accept() as server:
            client.sendall(get(b"a"))
            hear(server, get(b"a"))
            server.sendall(bulk(b"A"))
            hear(client, bulk(b"A"))
        assert b"\nserver lost: no command waits for this reply\n" in proxy.printed(), proxy.printed()


def numbers_of(client):
    """Returns the numbers that the proxy replies with to INFO proxy."""
    client.sendall(command(b"INFO", b"proxy"))
    return {name: int(number) for name, number in re.findall(rb"(\w+):(\d+)\r\n", hear_section(client))}


def line_of(stream):
    """Reads one line."""
    heard = b""
    while not heard.endswith(b"\r\n"):
        piece = stream.recv(1)
        assert piece, heard
        heard += piece
    return heard


def server_that_is_not_there():
    """Commands get an error at once; the server is tried again, and its clients stay connected."""
    with socket.create_server(("127.0.0.1", 0)) as free:
        port = free.getsockname()[1]
    with running("proxy", "127.0.0.1:0", f"127.0.0.1:{port}") as proxy, connect(proxy.port) as client:
        for _ in range(3):
            begun = time.monotonic()
            client.sendall(PING + get(b"a"))
            for _ in range(2):
                line = line_of(client)
                assert line.startswith(NOT_CONNECTED + b"connection refused"), line
            assert time.monotonic() - begun < 5, "the error comes late"
            time.sleep(0.5)
        proxy.is_idle()
        told = b"cannot connect to 127.0.0.1:%d: connection refused\n" % port
        assert proxy.printed().count(told) == 1 and proxy.printed().count(b"\n") == 2, proxy.printed()
        with socket.create_server(("127.0.0.1", port)) as listener:
            listener.settimeout(LIMIT)
            with listener.accept()[0] as server:
                server.settimeout(LIMIT)
                until(lambda: proxy.printed().endswith(told + b"server connected\n"), "the connection has no line")
                client.sendall(PING)
                hear(server, PING)
                server.sendall(PONG)
                hear(client, PONG)


def protocol_error():
    """The client gets its earlier replies, then the error, then the end; the others go on."""
    for wrong in (b"*1\r\n:1\r\n", b"*1\r\n$4\r\nPINGx", b'ECHO "a\r\n'):
        with proxied() as (proxy, _, server), connect(proxy.port) as client, connect(proxy.port) as other:
            client.sendall(PING + wrong)
            hear(server, PING)
            assert not has_reply(client), "the error comes before the replies"
            other.sendall(get(b"a"))
            hear(server, get(b"a"))
            server.sendall(PONG + bulk(b"A"))
            hear(client, PONG)
            line = hear_end(client)
            assert re.fullmatch(rb"-ERR Protocol error: [^\r\n]+\r\n", line), (wrong, line)
            hear(other, bulk(b"A"))
            other.sendall(PING)
            hear(server, PING)
            server.sendall(PONG)
            hear(other, PONG)


def lines():
    """A line is sent as an array, at any cut. A line of more than 65,536 bytes, and HTTP, end the connection."""
    echo = b"*2\r\n$4\r\necho\r\n"
    source = random.Random(3)
    with proxied() as (proxy, _, server), connect(proxy.port) as client:
        for _ in range(20):
            for piece in cut(b"PING\r\n\r\n*0\r\n \n" + PING + b"*-1\r\necho 'a b'\n", source):
                client.sendall(piece)
            hear(server, PING + PING + echo + b"$3\r\na b\r\n")
            server.sendall(PONG + PONG + bulk(b"a b"))
            hear(client, PONG + PONG + bulk(b"a b"))
        most = 65536 - len(b"echo ")
        for size in (most - 1, most):
            client.sendall(b"echo " + b"a" * size)
            assert not has_reply(server), "the line has not ended"
            client.sendall(b"\n")
            hear(server, echo + bulk(b"a" * size))
            server.sendall(PONG)
            hear(client, PONG)
        client.sendall(PING + b"echo " + b"a" * (most + 1))
        hear(server, PING)
        server.sendall(PONG)
        assert hear_end(client) == PONG + b"-ERR Protocol error: too big inline request\r\n"
        with connect(proxy.port) as browser:
            browser.sendall(b"PING\r\nPOST / HTTP/1.1\r\nHost: 127.0.0.1\r\n\r\nFLUSHALL\r\n")
            hear(server, PING)
            server.sendall(PONG)
            assert hear_end(browser) == PONG
    with proxied("--no-inline") as (proxy, _, server), connect(proxy.port) as client:
        client.sendall(b"*0\r\n" + PING)
        hear(server, PING)
        server.sendall(PONG)
        hear(client, PONG)
        client.sendall(b"PING\r\n")
        assert hear_end(client) == b"-ERR Protocol error: Syntax at byte 0 of the value\r\n"
        assert not has_reply(server), "a line is sent in spite of --no-inline"


def own_replies():
    """The proxy replies to some commands itself, in their place, and refuses others by their name."""
    with proxied("--max-dedicated", "0") as (proxy, _, server), connect(proxy.port) as client, connect(proxy.port) as other:
        client.sendall(PING + command(b"SELECT", b"0") + command(b"SHUTDOWN") + command(b"NOSUCH") + get(b"a"))
        hear(server, PING)
        assert not has_reply(client), "a reply of the proxy comes before that of the server"
        server.sendall(PONG)
        hear(client, PONG + b"+OK\r\n")
        for name in (b"SHUTDOWN", b"NOSUCH"):
            line = line_of(client)
            assert line.startswith(b"-ERR ") and b"'" + name + b"'" in line, line
        hear(server, get(b"a"))
        server.sendall(bulk(b"A"))
        hear(client, bulk(b"A"))
        # The name of a client is its own.
        ask(client, command(b"CLIENT", b"SETNAME", b"anna"), b"+OK\r\n")
        ask(other, command(b"CLIENT", b"GETNAME"), b"$-1\r\n")
        ask(client, command(b"CLIENT", b"GETNAME"), bulk(b"anna"))
        client.sendall(command(b"QUIT"))
        assert hear_end(client) == b"+OK\r\n"
        assert not has_reply(server), "the server gets a command that the proxy replies to"


def client_that_does_not_read():
    """It is not read while too much waits for it, delays no other, and gets all replies once it reads."""
    value = bytes(range(256)) * 400
    peer = Answering(lambda words: bulk(value if words[-1] == b"large" else words[-1]))
    words = ["--pipeline", "10", "--client-buffer", "1000000"]
    with running("proxy", "127.0.0.1:0", peer.address, *words) as proxy, connect(proxy.port) as greedy:
        greedy.sendall(get(b"large") * 400)
        with connect(proxy.port) as other:
            for number in range(200):
                ask(other, get(b"%d" % number), bulk(b"%d" % number))
            time.sleep(0.5)
            count = peer.count - 200
            # The system holds some replies, of 102,400 bytes each.
            assert count < 250, f"{count} commands of a client that does not read were sent"
            proxy.is_idle()
            assert peer.count - 200 == count, "more commands of a client that does not read are sent"
            # All replies have 40,960,000 bytes.
            assert peak(proxy.process) < 35_000_000, f"{peak(proxy.process)} bytes for replies that nobody reads"
            for _ in range(400):
                hear(greedy, bulk(value))
            ask(greedy, get(b"small"), bulk(b"small"))
            assert peak(proxy.process) < 35_000_000, f"{peak(proxy.process)} bytes while the replies are read"
            ask(other, get(b"last"), bulk(b"last"))
    peer.close()


def client_that_never_reads():
    """A client for which more bytes wait than --client-buffer-limit says is closed, and no other one."""
    value = b"v" * 102_400
    peer = Answering(lambda words: bulk(value if words[-1] == b"large" else words[-1]))
    with running("proxy", "127.0.0.1:0", peer.address, "--client-buffer-limit", "10M") as proxy, connect(proxy.port) as other:
        with connect(proxy.port) as slow, connect(proxy.port) as greedy:
            # (102 replies are less than 10 MiB)
            slow.sendall(get(b"large") * 102)
            greedy.sendall(get(b"large") * 400)
            until(lambda: numbers_of(other)[b"clients_unread"] == 1, "a client that never reads is not closed")
            assert numbers_of(other)[b"clients"] == 2
            for _ in range(102):
                hear(slow, bulk(value))
            ask(slow, get(b"small"), bulk(b"small"))
    peer.close()


def server_that_does_not_read():
    """No client is read while more bytes wait for the server than --server-buffer says, and nothing is lost by that."""
    with proxied("--server-buffer", "100000") as (proxy, _, server), contextlib.ExitStack() as streams:
        clients = [streams.enter_context(connect(proxy.port)) for _ in range(4)]
        value = bytes(50_000)
        asked = [command(b"SET", b"%d" % number, value) for number in range(4)]
        for client, text in zip(clients, asked):
            client.setblocking(False)
            sent = 0
            with contextlib.suppress(BlockingIOError):
                while sent < 60_000_000:
                    sent += client.send((text * 20)[sent % len(text) :])
            client.settimeout(LIMIT)
        time.sleep(0.5)
        proxy.is_idle()
        # The clients try to send 240,000,000 bytes.
        assert peak(proxy.process) < 60_000_000, f"{peak(proxy.process)} bytes for a server that does not read"
        rest, count = b"", 0
        server.settimeout(1)
        with contextlib.suppress(TimeoutError):
            while True:
                piece = server.recv(1_000_000)
                found, rest = commands_of(rest + piece)
                count += len(found)
                assert all(words[0] == b"SET" and words[2] == value for words in found)
                server.sendall(b"+OK\r\n" * len(found))
        assert count > 100, f"{count} commands"
        for client in clients:
            client.settimeout(0.5)
            replies = b""
            with contextlib.suppress(TimeoutError):
                while True:
                    replies += client.recv(65_536)
            count -= len(replies) // 5
            assert replies == b"+OK\r\n" * (len(replies) // 5), replies[:100]
        assert count == 0, f"{count} replies are missing"


def one_command_at_a_time():
    """With --pipeline 1 the next command of a client is sent after the reply to the one before."""
    with proxied("--pipeline", "1") as (proxy, _, server), connect(proxy.port) as client, connect(proxy.port) as other:
        client.sendall(get(b"a") + get(b"b") + get(b"c"))
        hear(server, get(b"a"))
        other.sendall(get(b"x"))
        hear(server, get(b"x"))
        assert not has_reply(server), "a second command of a client is sent"
        server.sendall(bulk(b"A"))
        hear(client, bulk(b"A"))
        hear(server, get(b"b"))
        server.sendall(bulk(b"X") + bulk(b"B"))
        hear(other, bulk(b"X"))
        hear(client, bulk(b"B"))
        hear(server, get(b"c"))
        server.sendall(bulk(b"C"))
        hear(client, bulk(b"C"))


def login():
    """With a password AUTH is sent first, and nothing else before its reply is there; any other reply than +OK ends the
    connection, and so does a byte after it."""
    peer = Peer()
    auth = command(b"AUTH", b"open sesame")
    with (unittest.mock.patch.dict(os.environ, RESP_PASSWORD="open sesame"),
          running("proxy", "127.0.0.1:0", peer.address) as proxy, connect(proxy.port) as client):
        for wrong in [b"-WRONGPASS invalid username-password pair or user is disabled.\r\n", b"+OK\r\n+PONG\r\n", b"+QUEUED\r\n"]:
            with peer.accept() as server:
                client.sendall(PING)
                hear(server, auth)
                assert heard_in_a_moment(server) == b""
                server.sendall(wrong)
                line = line_of(client)
                # The words of the server, if it replied by an error.
                why = wrong[1:] if wrong.startswith(b"-") else b"the server rejected AUTH\r\n"
                assert line == NOT_CONNECTED + why, (wrong, line)
                assert hear_end(server) == b""
        assert b"server connected\n" not in proxy.printed(), proxy.printed()
        with peer.accept() as server:
            client.sendall(PING)
            hear(server, auth)
            for byte in b"+OK\r\n":
                assert heard_in_a_moment(server) == b""
                server.sendall(bytes([byte]))
            hear(server, PING)
            server.sendall(PONG)
            hear(client, PONG)


def admitted_commands():
    """With --also the commands of these names are sent, and no other that the table does not have or that is refused."""
    with proxied("--also", "JSON.GET,config") as (proxy, _, server), connect(proxy.port) as client:
        ask(client, b"JSON.SET a\r\n", b"-ERR unknown command 'JSON.SET'\r\n")
        ask(client, b"CONFIG SET save ''\r\n", b"-ERR 'CONFIG SET' is not served by this proxy\r\n")
        sent = command(b"json.Get", b"a")
        client.sendall(sent)
        hear(server, sent)
        server.sendall(PONG)
        hear(client, PONG)


def ping_of_the_proxy():
    """With --local-ping the proxy replies to PING without a server, and to INFO proxy always."""
    with socket.create_server(("127.0.0.1", 0)) as free:
        port = free.getsockname()[1]
    with running("proxy", "127.0.0.1:0", f"127.0.0.1:{port}", "--local-ping") as proxy, connect(proxy.port) as client:
        ask(client, PING, PONG)
        ask(client, command(b"PING", b"word"), bulk(b"word"))
        counted = {"clients": 1, "clients_accepted": 1, "clients_rejected": 0, "clients_unread": 0, "clients_own": 0, "commands": 0,
                   "commands_waiting": 0, "commands_failed": 0, "bytes_unsent": 0, "server_connections": 0, "server_lines": 1,
                   "reply_us_p50": 0, "reply_us_p99": 0, "reply_us_max": 0}
        lines = "".join(f"{name}:{number}\r\n" for name, number in counted.items())
        ask(client, command(b"INFO", b"proxy"), bulk(b"# Proxy\r\n" + lines.encode() + b"cmdstat_info:calls=1\r\ncmdstat_ping:calls=2\r\n"))
        client.sendall(get(b"a"))
        assert line_of(client).startswith(NOT_CONNECTED)


def reports():
    """A line with numbers is printed each second."""
    with proxied("--report", "1s") as (proxy, peer, server), connect(proxy.port) as client:
        client.sendall(PING + PING)
        hear(server, PING + PING)
        server.sendall(PONG)
        hear(client, PONG)
        wanted = b"\nclients 1 accepted 1 rejected 0 unread 0 own 0 commands 2 waiting 1 failed 0 unsent 0 connections 1 lines 1 p50 "
        until(lambda: wanted in proxy.printed(), "no line has the numbers")
        server.close()
        hear(client, LOST)
        wanted = b"\nclients 1 accepted 1 rejected 0 unread 0 own 0 commands 2 waiting 0 failed 1 unsent 0 connections 2 lines 1 p50 "
        until(lambda: wanted in proxy.printed(), "no line has the numbers after the loss")
        before = proxy.printed().count(b"\nclients ")
        time.sleep(2.5)
        assert 1 <= proxy.printed().count(b"\nclients ") - before <= 4, proxy.printed()


def times_of_replies():
    """`INFO proxy` has the median, the 99th percentile and the most of the times that replies took."""
    with proxied() as (proxy, _, server), connect(proxy.port) as client, connect(proxy.port) as other:
        for pause, count in ((0, 196), (0.2, 3), (0.6, 1)):
            for _ in range(count):
                client.sendall(PING)
                hear(server, PING)
                time.sleep(pause)
                server.sendall(PONG)
                hear(client, PONG)
        found = numbers_of(client)
        assert found[b"commands"] == 200 and found[b"commands_waiting"] == 0, found
        # 98 of 100 replies take no time, and the proxy reads the clock at each turn.
        assert found[b"reply_us_p50"] < 150_000, found
        assert 200_000 <= found[b"reply_us_p99"] < 500_000, found
        assert 600_000 <= found[b"reply_us_max"] < 2_000_000, found
        # A command whose connection is lost takes no time, and the next one is counted alone.
        other.sendall(PING)
        hear(server, PING)
        server.close()
        hear(other, LOST)


def errors_by_word():
    """`INFO proxy` counts commands by name, and the server's errors by their first words, also one that comes in two pieces."""
    with proxied() as (proxy, _, server), connect(proxy.port) as client:
        client.sendall(PING * 5)
        hear(server, PING * 5)
        server.sendall(b"-WRONGTYPE no\r\n+-ERR\r\n-ERR no\r\n-lower no\r\n-WRONG")
        hear(client, b"-WRONGTYPE no\r\n+-ERR\r\n-ERR no\r\n-lower no\r\n")
        server.sendall(b"TYPE no\r\n")
        hear(client, b"-WRONGTYPE no\r\n")
        client.sendall(command(b"INFO", b"proxy"))
        wanted = b"\r\nerrorstat_ERR:count=1\r\nerrorstat_WRONGTYPE:count=2\r\nerrorstat_other:count=1\r\n\r\n"
        found = hear_section(client)
        assert found.endswith(wanted) and b"\r\ncmdstat_info:calls=1\r\ncmdstat_ping:calls=5\r\n" in found, found


def end_of_standard_input():
    """With --drain the proxy ends with standard input, after the replies to the commands that it has read."""
    for as_file in (False, True):
        peer = Peer()
        words = [PROGRAM, "proxy", "127.0.0.1:0", peer.address, "--drain", "--server-timeout", "1m"]
        source = subprocess.DEVNULL if as_file else subprocess.PIPE
        with subprocess.Popen(words, stdin=source, stdout=subprocess.PIPE, stderr=subprocess.DEVNULL) as ran:
            port = int(ran.stdout.readline().rpartition(b":")[2])
            if as_file:
                assert ran.wait(LIMIT) == 0
                continue
            with peer.accept() as server, connect(port) as client, connect(port) as idle:
                client.sendall(PING + get(b"a"))
                hear(server, PING + get(b"a"))
                server.sendall(PONG)
                hear(client, PONG)
                ran.stdin.write(b"some bytes\n")
                ran.stdin.flush()
                assert ran.poll() is None and not has_reply(idle)
                ran.stdin.close()
                assert hear_end(idle) == b""
                until(lambda: not accepts(port), "it still accepts")
                assert ran.poll() is None
                server.sendall(bulk(b"last"))
                assert hear_end(client) == bulk(b"last")
                assert ran.wait(LIMIT) == 0


def accepts(port):
    try:
        connect(port).close()
        return True
    except OSError:
        return False


def most_of_proxy():
    """Clients over the maximum are rejected, and a new one is served after another has gone."""
    peer = Answering(lambda words: PONG)
    with running("proxy", "127.0.0.1:0", peer.address, "--max-clients", "3") as proxy:
        is_connected(proxy)
        streams = [connect(proxy.port) for _ in range(3)]
        for stream in streams:
            ask(stream, PING, PONG)
        with connect(proxy.port) as one_more:
            assert hear_end(one_more) == TOO_MANY
        before = proxy.descriptors()
        streams.pop().close()
        until(lambda: proxy.descriptors() < before, "a client that has gone is open")
        streams.append(connect(proxy.port))
        for stream in streams:
            ask(stream, PING, PONG)
            stream.close()
    peer.close()


def heard_in_a_moment(stream):
    """Reads until nothing comes for a moment."""
    heard = b""
    while has_reply(stream):
        heard += stream.recv(65_536)
    return heard


def descriptors_of_proxy():
    """While no descriptor is left clients wait, and a lost connection to the server is still opened again."""
    peer = Peer()
    words = ["proxy", "127.0.0.1:0", peer.address, "--server-timeout", "1m", "--max-clients", "1000"]
    with running(*words, descriptors=32) as proxy, contextlib.ExitStack() as closing:
        server = peer.accept()
        is_connected(proxy)
        streams = [closing.enter_context(connect(proxy.port)) for _ in range(40)]
        for stream in streams:
            stream.sendall(PING)
        heard = heard_in_a_moment(server)
        count = len(heard) // len(PING)
        assert heard == PING * count and 10 < count < 32, heard[:100]
        server.sendall(PONG * count)
        for stream in streams[:count]:
            hear(stream, PONG)
        proxy.is_idle()
        for _ in range(2):
            server.close()
            server = closing.enter_context(peer.accept())
            streams[0].sendall(PING)
            # A client that waited may have got the descriptor of the old connection.
            heard = heard_in_a_moment(server)
            assert heard in (PING, PING + PING), heard
            server.sendall(PONG * (len(heard) // len(PING)))
            hear(streams[0], PONG)
            if heard != PING:
                hear(streams[count], PONG)
                count += 1
        assert not has_reply(streams[count]), "a client is served without a descriptor"
        streams[1].close()
        hear(server, PING)
        server.sendall(PONG)
        hear(streams[count], PONG)


def busy_clients():
    """Clients that send without end delay no other, and many clients share one connection."""
    with running("serve", "127.0.0.1:0") as serve:
        idle = serve.descriptors()
        words = ["127.0.0.1:0", f"127.0.0.1:{serve.port}", "--server-timeout", "1m"]
        with running("proxy", *words) as proxy:
            is_connected(proxy)
            until(lambda: serve.descriptors() == idle + 1, "the connection is not accepted")
            before = proxy.descriptors()
            busy_clients_delay_none(proxy.port, 2, 5)
            streams = [connect(proxy.port) for _ in range(300)]
            for number, stream in enumerate(streams):
                stream.sendall(command(b"ECHO", b"client %d" % number) * 3)
            for number, stream in enumerate(streams):
                hear(stream, bulk(b"client %d" % number) * 3)
                stream.close()
            assert serve.descriptors() == idle + 1, "clients don't share one connection"
            until(lambda: proxy.descriptors() == before, "descriptors of clients that have gone are open")
            proxy.is_idle()


def own_address_of_proxy():
    """`proxy` does not listen on the address of its server."""
    with socket.create_server(("127.0.0.1", 0)) as free:
        port = free.getsockname()[1]
    for listen, server in (("127.0.0.1", "127.0.0.1"), ("0.0.0.0", "127.0.0.1"), ("[::]", "127.0.0.1")):
        words = [PROGRAM, "proxy", f"{listen}:{port}", f"{server}:{port}"]
        ran = subprocess.run(words, stdin=subprocess.DEVNULL, capture_output=True, timeout=LIMIT)
        why = f"open failed: {listen}:{port}: connections to the server would come back to this address\n".encode()
        assert (ran.returncode, ran.stdout, ran.stderr) == (3, b"", why), (words, ran)


def hear_section(stream):
    """Reads a bulk string."""
    length = int(line_of(stream)[1:])
    heard = b""
    while len(heard) < length + 2:
        piece = stream.recv(length + 2 - len(heard))
        assert piece, heard
        heard += piece
    return heard


TESTS = [pipelines_cut_at_random, client_that_goes, end_of_input, server_that_closes,
         server_that_ends_inside_a_reply, reply_that_nobody_waits_for, server_that_is_not_there, protocol_error,
         own_replies, lines, client_that_does_not_read, client_that_never_reads, server_that_does_not_read,
         one_command_at_a_time, login, admitted_commands, ping_of_the_proxy, reports, times_of_replies,
         errors_by_word, end_of_standard_input, most_of_proxy, descriptors_of_proxy, busy_clients,
         own_address_of_proxy]
