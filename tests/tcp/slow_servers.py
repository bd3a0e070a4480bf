"""Tests of `resp proxy` before servers that reply late. tests/over_tcp runs them.

They test that

- a server that does not reply is asked by PING over a second connection, in its setting, after half of
  --server-timeout;
- it is not given up while it replies BUSY there, and standard error has its words;
- it is given up in time after any other reply, without one, and if it accepts no second connection, but not if no
  command waits;
- a server whose replies go on is not asked;
- with --learn the commands of the server that read or write are sent, and no others;
- with --learn the server is asked each time that the proxy has connected to it.
"""
import contextlib
import threading
import time

from proxy_over_tcp import LOST, bulk, get, is_connected, proxied
from settings_over_tcp import OK, select
from tcp_programs import PING, PONG, Peer, ask, at_once, command, connect, has_reply, hear, hear_end, running, until

BUSY = b"-BUSY Redis is busy running a script.\r\n"
# The --server-timeout of these tests, and how much later an error may come on a machine that is busy, in seconds. The
# server is asked after half of the timeout, and an error after twice the timeout is too late.
PATIENCE, LATE = 4, 3.0
IMPATIENT = ("--server-timeout", f"{PATIENCE}s")


def busy_server():
    """While the server replies BUSY to the second connection, a command waits for longer than --server-timeout."""
    with proxied(*IMPATIENT) as (proxy, peer, server), connect(proxy.port) as client:
        client.sendall(get(b"a"))
        hear(server, get(b"a"))
        begun = time.monotonic()
        for _ in range(4):
            with peer.accept() as second:
                hear(second, PING)
                second.sendall(BUSY)
                assert hear_end(second) == b""
        assert time.monotonic() - begun > 1.5 * PATIENCE, "the server is asked too often"
        assert not has_reply(client)
        server.sendall(bulk(b"1"))
        hear(client, bulk(b"1"))
        message = b"\nserver busy: " + BUSY[1:-2] + b"\n"
        until(lambda: message in b"\n" + proxy.printed(), "standard error has no line")


def busy_server_of_a_setting():
    """The second connection enters the setting: BUSY may be the reply to SELECT."""
    with proxied(*IMPATIENT) as (proxy, peer, _), connect(proxy.port) as client:
        client.sendall(select(b"3") + get(b"a"))
        with peer.accept() as server:
            hear(server, select(b"3"))
            server.sendall(OK)
            hear(client, OK)
            hear(server, get(b"a"))
            for reply in (BUSY, OK + BUSY, OK + BUSY):
                with peer.accept() as second:
                    hear(second, select(b"3") + PING)
                    second.sendall(reply)
                    assert hear_end(second) == b""
            server.sendall(bulk(b"1"))
            hear(client, bulk(b"1"))


def silent_server():
    """Without BUSY the server is given up after --server-timeout: if it sends another reply over the second connection,
    no reply, or accepts none."""

    def given_up(reply):
        with proxied(*IMPATIENT) as (proxy, peer, server), connect(proxy.port) as client:
            begun = time.monotonic()
            client.sendall(get(b"a"))
            hear(server, get(b"a"))
            if reply is None:
                peer.close()
                hear(client, LOST)
            else:
                with peer.accept() as second:
                    hear(second, PING)
                    second.sendall(reply)
                    hear(client, LOST)
            took = time.monotonic() - begun
            assert PATIENCE - 0.2 < took < PATIENCE + LATE, f"{reply}: the error comes after {took:.1f} s"

    at_once(given_up, [PONG, b"-LOADING Redis is loading the dataset in memory\r\n", b"", None])


def server_that_goes_on():
    """A server that replies now and then is not asked, however long its last reply takes."""
    with proxied(*IMPATIENT) as (proxy, peer, server), connect(proxy.port) as client:
        client.sendall(get(b"a") * 8)
        hear(server, get(b"a") * 8)
        for _ in range(8):
            time.sleep(1.5 * PATIENCE / 8)
            server.sendall(bulk(b"1"))
            hear(client, bulk(b"1"))
        peer.listener.settimeout(0.1)
        with contextlib.suppress(TimeoutError):
            peer.accept()
            raise AssertionError("a server that replies is asked")


def server_without_replies():
    """A server that sends no reply for that time while a command waits is given up."""
    with proxied(*IMPATIENT) as (proxy, peer, server), connect(proxy.port) as client:
        # Without a command that waits, the connection stands.
        time.sleep(1.2 * PATIENCE)
        # Each reply comes within the time, and all of them do not.
        client.sendall(PING * 6)
        hear(server, PING * 6)
        for _ in range(6):
            time.sleep(PATIENCE / 4)
            server.sendall(PONG)
            hear(client, PONG)
        assert proxy.printed().count(b"server connected\n") == 1, proxy.printed()
        begun = time.monotonic()
        client.sendall(PING + get(b"a"))
        hear(server, PING + get(b"a"))
        with peer.accept() as asked:
            hear(asked, PING)
            hear(client, LOST + LOST)
        took = time.monotonic() - begun
        assert PATIENCE - 0.2 < took < PATIENCE + LATE, f"given up after {took:.1f} s"
        assert b"\nserver lost: no reply in time\n" in proxy.printed(), proxy.printed()
        with peer.accept() as second:
            # A reply that comes late over the first connection is given to nobody.
            with contextlib.suppress(ConnectionError):
                server.sendall(PONG + bulk(b"late"))
            client.sendall(get(b"b"))
            hear(second, get(b"b"))
            second.sendall(bulk(b"B"))
            hear(client, bulk(b"B"))
        server.close()


def slow_replies():
    """The tests above, at the same time: each of them waits for longer than --server-timeout."""

    def named(test):
        try:
            test()
        except Exception as error:
            raise AssertionError(f"{test.__name__}: {type(error).__name__}: {error}") from error

    at_once(named, [busy_server, busy_server_of_a_setting, silent_server, server_that_goes_on, server_without_replies])


def listed(name, *flags, subcommands=()):
    """An entry of the reply to COMMAND."""
    parts = [bulk(name), b":-2\r\n", b"*%d\r\n" % len(flags) + b"".join(b"+%s\r\n" % flag for flag in flags)]
    parts += [b":1\r\n"] * 3 + [b"*0\r\n"] * 3
    parts.append(b"*%d\r\n" % len(subcommands) + b"".join(subcommands))
    return b"*%d\r\n" % len(parts) + b"".join(parts)


COMMANDS = [
    listed(b"get", b"readonly", b"fast"),
    listed(b"json.get", b"readonly"),
    listed(b"json.set", b"write", b"denyoom"),
    listed(b"json.wait", b"write", b"blocking"),
    listed(b"json.listen", b"readonly", b"pubsub"),
    listed(b"json.reset", b"write", b"admin"),
    listed(b"json.eval", b"write", b"noscript"),
    listed(b"json.other", b"fast"),
    listed(b"both", subcommands=[listed(b"both|read", b"readonly"), listed(b"both|write", b"write")]),
    listed(b"mixed", subcommands=[listed(b"mixed|read", b"readonly"), listed(b"mixed|stop", b"write", b"admin")]),
]


def teaches(peer, reply):
    """Replies to COMMAND over the first connection of the proxy."""
    with peer.accept() as first:
        hear(first, command(b"COMMAND"))
        first.sendall(reply)
        with contextlib.suppress(OSError):
            hear_end(first)


@contextlib.contextmanager
def learning(reply):
    """A proxy that asks for the commands of a server which sends this reply."""
    peer = Peer()
    thread = threading.Thread(target=teaches, args=(peer, reply))
    thread.start()
    with running("proxy", "127.0.0.1:0", peer.address, "--learn", "--server-timeout", "1m") as proxy:
        thread.join()
        with peer.accept() as server:
            is_connected(proxy)
            yield proxy, server
    peer.close()


def learned_commands():
    """With --learn a command is sent that the server says reads or writes, and neither waits nor administers."""
    with learning(b"*%d\r\n" % len(COMMANDS) + b"".join(COMMANDS)) as (proxy, server), connect(proxy.port) as client:
        names = b": BOTH JSON.GET JSON.SET\n"
        until(lambda: b"learned from 127.0.0.1" in proxy.printed() and names in proxy.printed(), "nothing is learned")
        for sent in (command(b"JSON.GET", b"a"), command(b"json.set", b"a", b"1"), command(b"both", b"write", b"a")):
            client.sendall(sent)
            hear(server, sent)
            server.sendall(PONG)
            hear(client, PONG)
        for name in (b"JSON.WAIT", b"JSON.LISTEN", b"JSON.RESET", b"JSON.EVAL", b"JSON.OTHER", b"MIXED"):
            ask(client, command(name, b"read"), b"-ERR unknown command '%s'\r\n" % name)


def learned_at_each_connection():
    """A server that is down at the start is asked once it is connected. After the connection was lost, the server is asked
    again, and what it has named before is still sent."""
    peer = Peer()
    address = peer.address
    peer.close()
    with running("proxy", "127.0.0.1:0", address, "--learn") as proxy, connect(proxy.port) as client:
        until(lambda: b"learned nothing from " + address.encode() in proxy.printed(), "the proxy does not say why")
        ask(client, command(b"JSON.GET", b"a"), b"-ERR unknown command 'JSON.GET'\r\n")
        peer = Peer(int(address.rpartition(":")[2]))
        for name in (b"JSON.GET", b"JSON.SET"):
            with peer.accept() as server:
                teaches(peer, b"*1\r\n" + listed(name.lower(), b"readonly"))
                line = b"\nlearned from " + address.encode() + b": " + name + b"\n"
                until(lambda line=line: line in proxy.printed(), "nothing is learned")
                for sent in (b"JSON.GET", name):
                    client.sendall(command(sent, b"a"))
                    hear(server, command(sent, b"a"))
                    server.sendall(PONG)
                    hear(client, PONG)
        peer.close()


def nothing_is_learned():
    """A server that does not say its commands is served like any other, and standard error says why."""
    for reply, why in ((b"-NOPERM no\r\n", b"NOPERM no"), (OK, b"the reply to COMMAND is not a list of commands"),
                       (b"*0\r\n", None)):
        with learning(reply) as (proxy, server), connect(proxy.port) as client:
            line = b": no command\n" if why is None else b": " + why + b"\n"
            until(lambda line=line: line in proxy.printed(), "standard error has no line")
            client.sendall(get(b"a"))
            hear(server, get(b"a"))
            server.sendall(bulk(b"1"))
            hear(client, bulk(b"1"))


TESTS = [slow_replies, learned_commands, learned_at_each_connection, nothing_is_learned]
