"""Tests that no client of `resp proxy` waits for another connection longer than --server-timeout, with Python alone.
tests/over_tcp runs them. They test that

- SELECT, HELLO and AUTH get their error after that time and not after twice that time, also behind a command that gets
  no reply, and after a lost connection;
- so do MULTI, SUBSCRIBE, BLPOP and WATCH, which need a connection of the client's own;
- over an open connection of its own a client waits for longer.
"""
import contextlib
import os
import socket
import time
import unittest.mock

from proxy_faults import HELLO, MULTI, OK, incr, reply_of, select
from proxy_over_tcp import LOST, NOT_CONNECTED, Answering, bulk, get, is_connected, line_of
from small_redis import small_redis
from tcp_programs import LIMIT, PING, PONG, ask, at_once, command, connect, has_reply, hear_end, running, until

# The --server-timeout of the proxy, and how much later an error may come on a machine that is busy, in seconds. An error
# after twice the timeout is later than that.
PATIENCE, LATE = 4, 3.0
TIMED_OUT = NOT_CONNECTED + b"timed out\r\n"


def is_told_in_time(client, asked, *replies):
    """Asserts that a command gets one of these replies once the patience is over, and not much later."""
    client.settimeout(3 * PATIENCE)
    begun = time.monotonic()
    client.sendall(asked)
    try:
        line = line_of(client)
    except TimeoutError:
        raise AssertionError(f"no reply to {asked} after three times the patience") from None
    took = time.monotonic() - begun
    assert line in replies, (asked, line)
    assert took < PATIENCE + LATE, f"{asked} got {line} after {took:.1f} s, with a patience of {PATIENCE} s"


@contextlib.contextmanager
def impatient(server, *words):
    """A proxy with little patience."""
    with running("proxy", "127.0.0.1:0", server, "--server-timeout", "%dms" % (1_000 * PATIENCE), *words) as proxy:
        yield proxy


def settings_while_the_server_is_stopped():
    """SELECT, HELLO and AUTH get an error after the patience, while the server accepts connections and sends no
    reply. After HELLO without a user the client goes on. After the others it is closed: what it has sent behind them
    is for another database or another user, and the server gets none of it."""

    def refused(asked):
        with small_redis() as redis, impatient(redis.address) as proxy, connect(proxy.port) as client:
            ask(client, incr(b"count"), b":1\r\n")
            redis.stop()
            is_told_in_time(client, asked + incr(b"count"), TIMED_OUT)
            redis.go_on()
            if asked == HELLO:
                ask(client, incr(b"count"), b":2\r\n:3\r\n")
                return
            assert hear_end(client) == b"", f"after a failed {asked} the client goes on"
            with connect(proxy.port) as other:
                ask(other, get(b"count"), bulk(b"1"))

    at_once(refused, [select(b"1"), HELLO, command(b"AUTH", b"anna", b"secret")])


def setting_after_a_loss():
    """A SELECT after a lost connection waits for the patience once, not twice."""

    def lost(first):
        with small_redis() as redis, impatient(redis.address) as proxy, connect(proxy.port) as client:
            ask(client, first + PING, OK + PONG)
            redis.stop()
            is_told_in_time(client, PING, LOST)
            time.sleep(0.2)
            is_told_in_time(client, select(b"2"), TIMED_OUT)
            assert hear_end(client) == b""
            redis.go_on()
            until(lambda: reply_of_new(proxy.port) == PONG, "a client gets no reply after the server goes on")

    at_once(lost, [select(b"1"), select(b"0")])


def reply_of_new(port):
    """Returns the reply to the PING of a new client, which may be an error."""
    with connect(port) as client:
        return reply_of(client)


def setting_behind_a_command():
    """A SELECT in a pipeline behind a command that gets no reply gets its error together with it, not after another
    patience."""
    with small_redis() as redis, impatient(redis.address) as proxy, connect(proxy.port) as client:
        ask(client, PING, PONG)
        redis.stop()
        begun = time.monotonic()
        client.settimeout(3 * PATIENCE + LIMIT)
        client.sendall(PING + select(b"2"))
        lines = [line_of(client), line_of(client)]
        took = time.monotonic() - begun
        assert lines[0] == LOST and lines[1].startswith(NOT_CONNECTED), lines
        assert took < PATIENCE + LATE, f"SELECT got {lines[1]} after {took:.1f} s, with a patience of {PATIENCE} s"


def fill_backlog(listener, stack):
    """Fills the queue of connections of a listener, so that further ones are not opened."""
    for _ in range(4):
        stream = stack.enter_context(socket.socket())
        stream.setblocking(False)
        stream.connect_ex(listener.getsockname())


@contextlib.contextmanager
def full_backlog():
    """A listener that accepts nothing, and whose queue of connections is full."""
    with socket.create_server(("127.0.0.1", 0), backlog=0) as listener, contextlib.ExitStack() as stack:
        fill_backlog(listener, stack)
        yield "127.0.0.1:%d" % listener.getsockname()[1]


def settings_in_another_order():
    """A client whose wait began earlier gets its error earlier, also if another client asked for a connection before
    it: its SELECT is behind a command that got no reply."""
    with socket.create_server(("127.0.0.1", 0), backlog=0) as listener, contextlib.ExitStack() as stack:
        listener.settimeout(LIMIT)
        proxy = stack.enter_context(impatient("127.0.0.1:%d" % listener.getsockname()[1]))
        stack.enter_context(listener.accept()[0])
        is_connected(proxy)
        fill_backlog(listener, stack)
        first, second = (stack.enter_context(connect(proxy.port)) for _ in range(2))
        begun = time.monotonic()
        first.sendall(PING + select(b"2"))
        time.sleep(PATIENCE - 0.2)
        second.sendall(select(b"3"))
        lines = [line_of(first), line_of(first)]
        took = time.monotonic() - begun
        assert lines == [LOST, TIMED_OUT], lines
        assert took < PATIENCE + LATE, f"SELECT got its error after {took:.1f} s, with a patience of {PATIENCE} s"
        assert line_of(second) == TIMED_OUT


OWN = [MULTI, command(b"SUBSCRIBE", b"news"), command(b"BLPOP", b"list", b"0"), command(b"WATCH", b"key")]


def own_connections_are_refused(proxy):
    """Asserts that a client with each of these commands gets an error after the patience."""

    def refused(asked):
        with connect(proxy.port) as client:
            is_told_in_time(client, asked, TIMED_OUT)

    at_once(refused, OWN)


def own_connection_that_is_not_accepted():
    """MULTI, SUBSCRIBE and BLPOP get an error after the patience if the server does not accept the connection."""
    with full_backlog() as address, impatient(address) as proxy:
        own_connections_are_refused(proxy)


def own_connection_without_a_login():
    """They get it too if the server accepts the connection and sends no reply to AUTH."""
    with (unittest.mock.patch.dict(os.environ, RESP_PASSWORD="secret"), small_redis() as redis,
          impatient(redis.address) as proxy):
        is_connected(proxy)
        redis.stop()
        own_connections_are_refused(proxy)
        redis.go_on()


def own_connection_to_a_stopped_server():
    """They get it too if the server accepts the connection and then sends nothing at all."""
    with small_redis() as redis, impatient(redis.address) as proxy:
        is_connected(proxy)
        redis.stop()
        own_connections_are_refused(proxy)
        redis.go_on()


def own_connection_that_waits_on():
    """Once a connection of a client's own is open, its client may wait for a reply longer than the patience."""
    replies = {b"PING": PONG, b"MULTI": OK}
    peer = Answering(lambda words: replies.get(words[0], b""))
    with impatient(peer.address) as proxy, connect(proxy.port) as client:
        is_connected(proxy)
        ask(client, MULTI, OK)
        client.sendall(command(b"BLPOP", b"list", b"0"))
        time.sleep(PATIENCE + LATE)
        assert not has_reply(client)
    peer.close()


TESTS = [settings_while_the_server_is_stopped, setting_after_a_loss, setting_behind_a_command,
         settings_in_another_order, own_connection_that_is_not_accepted, own_connection_without_a_login,
         own_connection_to_a_stopped_server, own_connection_that_waits_on]
