"""Tests the connections of `resp proxy` that one client has for itself, with Python alone; tests/over_tcp runs them.

The servers are of the tests' own. They test that

- a client gets a connection of its own at its first command that needs one, once the commands before it have their
  replies, and the bytes from that command on reach the server unchanged, at any cut and in any number;
- its bytes and those of the server are forwarded until both sides end, and no other client gets any of them;
- with a password AUTH is sent first over each of these connections, and its reply is given to nobody;
- a client whose connection can't be opened gets an error with the reason, and is closed;
- --max-dedicated limits how many clients have one, and a client over the limit gets an error and is closed;
- at the end of standard input these connections end too.
"""
import os
import random
import socket
import subprocess
import threading
import unittest.mock

from proxy_over_tcp import NOT_CONNECTED, Answering, bulk, cut, get, is_connected, line_of, proxied
from tcp_programs import LIMIT, PING, PONG, PROGRAM, Peer, ask, command, connect, has_reply, hear, hear_end, running, until

MULTI = command(b"MULTI")
NEED_OWN = [MULTI, command(b"BLPOP", b"list", b"0"), command(b"SUBSCRIBE", b"news"), command(b"WATCH", b"key"),
            command(b"MONITOR"), command(b"XREAD", b"BLOCK", b"0", b"STREAMS", b"s", b"$"),
            command(b"client", b"TRACKING", b"on"), command(b"CONFIG", b"GET", b"save"), command(b"client", b"list"),
            command(b"CLIENT", b"REPLY", b"OFF"), command(b"SLOWLOG", b"GET"), command(b"ACL", b"list")]
# With --max-shared 1 these do too.
SETTINGS = [command(b"HELLO", b"3"), command(b"SELECT", b"1"), command(b"AUTH", b"anna", b"secret"), command(b"RESET"),
            command(b"HELLO", b"4")]


def own_connection():
    """The commands before go over the shared connection, and the connection is opened after their replies."""
    for words, firsts in (((), NEED_OWN), (("--max-shared", "1"), NEED_OWN + SETTINGS)):
        own_connection_of(words, firsts)


def own_connection_of(words, firsts):
    with proxied(*words) as (proxy, peer, server), connect(proxy.port) as other:
        for first in firsts:
            is_slow = first == MULTI
            with connect(proxy.port) as client:
                after = get(b"own") + command(b"EXEC")
                client.sendall(PING + get(b"a") + first + after)
                hear(server, PING + get(b"a"))
                server.sendall(PONG)
                hear(client, PONG)
                assert not is_slow or not has_reply(Listening(peer.listener)), "it is opened before the replies"
                other.sendall(get(b"b"))
                hear(server, get(b"b"))
                server.sendall(bulk(b"A") + bulk(b"B"))
                hear(client, bulk(b"A"))
                hear(other, bulk(b"B"))
                with peer.accept_own() as own:
                    hear(own, first + after)
                    own.sendall(b"anything, and >1\r\n+pushes\r\n")
                    hear(client, b"anything, and >1\r\n+pushes\r\n")
                    client.sendall(b"also no commands")
                    hear(own, b"also no commands")
                    assert not is_slow or not has_reply(other) and not has_reply(server), first
                    ask(other, command(b"SELECT", b"0"), b"+OK\r\n")


class Listening:
    """A listener as `has_reply` expects a stream: it has a reply if a connection waits."""

    def __init__(self, listener):
        self.listener = listener

    def settimeout(self, seconds):
        self.listener.settimeout(seconds)

    def recv(self, *_):
        self.listener.accept()
        return True


def own_connection_at_any_cut():
    """The bytes from the command on reach the server as they are, however they are cut."""
    source = random.Random(1)
    text = PING + MULTI + b"".join(get(b"%d" % number + b"." * source.choice((0, 5, 20_000))) for number in range(40))
    for turn in range(len(PING + MULTI) + 20):
        with proxied() as (proxy, peer, server), connect(proxy.port) as client:
            pieces = [text[:turn], text[turn:]] if turn <= len(PING + MULTI) else cut(text, source)

            def send(pieces=pieces, client=client):
                for piece in pieces:
                    client.sendall(piece)

            sending = threading.Thread(target=send)
            sending.start()
            hear(server, PING)
            server.sendall(PONG)
            hear(client, PONG)
            with peer.accept_own() as own:
                hear(own, text[len(PING) :])
                sending.join()
                own.sendall(b"+OK\r\n")
                hear(client, b"+OK\r\n")


def ends_of_own_connections():
    """Each side is told that the other has ended, and what is on the way arrives before."""
    with proxied() as (proxy, peer, server):
        before = proxy.descriptors()
        with connect(proxy.port) as client, connect(proxy.port) as second, connect(proxy.port) as third:
            client.sendall(MULTI + get(b"a"))
            client.shutdown(socket.SHUT_WR)
            with peer.accept_own() as own:
                assert hear_end(own) == MULTI + get(b"a")
                own.sendall(b"+OK\r\n+QUEUED\r\n")
            assert hear_end(client) == b"+OK\r\n+QUEUED\r\n"
            second.sendall(MULTI)
            with peer.accept_own() as own:
                hear(own, MULTI)
                own.sendall(b"+OK\r\n")
                own.shutdown(socket.SHUT_WR)
                assert hear_end(second) == b"+OK\r\n"
                second.sendall(get(b"late"))
                hear(own, get(b"late"))
                second.shutdown(socket.SHUT_WR)
                assert hear_end(own) == b""
            third.sendall(PING)
            hear(server, PING)
            server.sendall(PONG)
            hear(third, PONG)
        until(lambda: proxy.descriptors() == before, "descriptors of connections that have gone are open")
        proxy.is_idle()


def password_of_own_connections():
    """AUTH is sent first, and its reply is given to nobody; if it is rejected the client is told so and closed."""
    auth = command(b"AUTH", b"secret")
    peer = Peer()
    with (unittest.mock.patch.dict(os.environ, RESP_PASSWORD="secret"),
          running("proxy", "127.0.0.1:0", peer.address, "--server-timeout", "1m") as proxy, peer.accept() as server):
        hear(server, auth)
        server.sendall(b"+OK\r\n")
        is_connected(proxy)
        with connect(proxy.port) as client, connect(proxy.port) as rejected:
            client.sendall(MULTI)
            with peer.accept() as own:
                hear(own, auth)
                assert not has_reply(own), "a command is sent before the reply to AUTH"
                own.sendall(b"+O")
                assert not has_reply(own)
                own.sendall(b"K\r\n")
                hear(own, MULTI)
                own.sendall(b"+OK\r\n")
                hear(client, b"+OK\r\n")
                assert not has_reply(client)
            rejected.sendall(MULTI)
            with peer.accept() as own:
                hear(own, auth)
                own.sendall(b"-WRONGPASS no\r\n")
                assert hear_end(rejected) == NOT_CONNECTED + b"WRONGPASS no\r\n"
                assert hear_end(own) == b""


def own_connection_that_is_refused():
    """The client gets the reason and is closed; the others go on."""
    with proxied() as (proxy, peer, server), connect(proxy.port) as client, connect(proxy.port) as other:
        peer.close()
        client.sendall(MULTI)
        assert line_of(client).startswith(NOT_CONNECTED + b"connection refused")
        assert hear_end(client) == b""
        other.sendall(PING)
        hear(server, PING)
        server.sendall(PONG)
        hear(other, PONG)


def most_of_own():
    """A client over --max-dedicated gets an error with the name of its command and is closed; a place is free once another ends."""
    with proxied("--max-dedicated", "1") as (proxy, peer, server), connect(proxy.port) as other:
        with connect(proxy.port) as client:
            client.sendall(MULTI)
            with peer.accept_own() as own:
                hear(own, MULTI)
                for name in (b"MULTI", b"BLPOP"):
                    with connect(proxy.port) as refused:
                        refused.sendall(command(name, b"a", b"0") + command(b"INCR", b"counter"))
                        wanted = b"-ERR '%s' needs a connection of its own, and no more are allowed\r\n" % name
                        assert hear_end(refused) == wanted, name
                assert not has_reply(server), "a command after a refused one is sent"
                client.close()
                assert hear_end(own) == b""
        before = proxy.descriptors()
        until(lambda: proxy.descriptors() <= before, "the first client is open")
        other.sendall(MULTI)
        with peer.accept_own() as own:
            hear(own, MULTI)


def none_of_own():
    """With --max-dedicated 0 the error names the command, and its subcommand if it has one."""
    names = ((b"CONFIG GET", b"CONFIG GET save\r\n"), (b"client list", command(b"client", b"list")),
             (b"MULTI", MULTI), (b"BLPOP", command(b"BLPOP", b"a", b"0")), (b"XREAD", b"XREAD BLOCK 0 STREAMS a $\r\n"))
    for shared in ("1", "16"):
        with proxied("--max-dedicated", "0", "--max-shared", shared) as (proxy, _, server):
            for name, sent in names:
                # With one shared connection the name is that of the table, in upper case.
                shown = name.upper() if shared == "1" else name
                with connect(proxy.port) as client:
                    client.sendall(sent + command(b"INCR", b"counter"))
                    wanted = b"-ERR '%s' needs a connection of its own, and no more are allowed\r\n" % shown
                    assert hear_end(client) == wanted, (shared, name)
            assert not has_reply(server), "a command after a refused one is sent"


def drain_of_own_connections():
    """At the end of standard input the server is told the end, and the client gets what the server still sends."""
    peer = Peer()
    words = [PROGRAM, "proxy", "127.0.0.1:0", peer.address, "--drain", "--server-timeout", "1m"]
    with subprocess.Popen(words, stdin=subprocess.PIPE, stdout=subprocess.PIPE, stderr=subprocess.DEVNULL) as ran:
        port = int(ran.stdout.readline().rpartition(b":")[2])
        with peer.accept(), connect(port) as client:
            client.sendall(MULTI)
            with peer.accept_own() as own:
                hear(own, MULTI)
                ran.stdin.close()
                assert hear_end(own) == b""
                assert ran.poll() is None
                own.sendall(b"+OK\r\n")
            assert hear_end(client) == b"+OK\r\n"
        assert ran.wait(LIMIT) == 0


def many_own_connections():
    """Clients with and without their own connections get their own replies, at any cut."""
    source = random.Random(3)
    peer = Answering(lambda words: b"+OK\r\n" if words[0] == b"MULTI" else bulk(b"value of " + words[-1]), random.Random(4))
    with running("proxy", "127.0.0.1:0", peer.address) as proxy:
        is_connected(proxy)
        before = proxy.descriptors()
        wrong = []

        def talk(name, with_own):
            with connect(proxy.port) as stream:
                keys = [b"%s %d %s" % (name, number, b"." * source.choice((0, 1, 50, 3000))) for number in range(200)]
                asked = b"".join(map(get, keys))
                pieces = cut((MULTI if with_own else b"") + asked, random.Random(len(name)))
                threading.Thread(target=lambda: [stream.sendall(piece) for piece in pieces], daemon=True).start()
                try:
                    hear(stream, (b"+OK\r\n" if with_own else b"") + b"".join(bulk(b"value of " + key) for key in keys))
                except (AssertionError, OSError) as error:
                    wrong.append((name, error))

        threads = [threading.Thread(target=talk, args=(b"client %d" % number, number % 2 == 0)) for number in range(12)]
        for thread in threads:
            thread.start()
        for thread in threads:
            thread.join()
        assert not wrong, wrong
        until(lambda: proxy.descriptors() == before, "descriptors of clients that have gone are open")
    peer.close()


TESTS = [own_connection, own_connection_at_any_cut, ends_of_own_connections, password_of_own_connections,
         own_connection_that_is_refused, most_of_own, none_of_own, drain_of_own_connections, many_own_connections]
