#!/usr/bin/env python3
"""Tests what the loop of `resp proxy` promises when clients, servers and outputs misbehave, with Python alone:
proxy_faults.py [--program FILE] [NAME..]

tests/over_tcp runs all of them. With names only the functions with these names run. The servers are of the tests' own,
or the small Redis of tests/tcp/small_redis.py. They test that

- no client waits for ever, however many bytes wait for the server;
- clients that die in the middle of a command, or end only their sending side, are closed;
- a client that was idle for long may change its setting, and the times of replies do not count the idle time;
- standard error and standard output that nobody reads, or that fail, stop nothing;
- a client is closed if it gets no connection for MULTI, WATCH, SELECT or AUTH, so that nothing after it runs;
- the words with which a server refuses a connection are in the error of a command, and on standard error;
- --drain ends in spite of a client that does not read;
- commands that come as lines get what the same commands as arrays get;
- a server whose name has no address yet is looked up again.
"""
import contextlib
import fcntl
import os
import re
import signal
import socket
import struct
import subprocess
import sys
import tempfile
import threading
import time

sys.dont_write_bytecode = True
from proxy_over_tcp import (NOT_CONNECTED, Answering, accepts, bulk, commands_of, get, heard_in_a_moment, is_connected,
                            is_settled, line_of, numbers_of, proxied)
from small_redis import WRONG_PASSWORD, hello_of, small_redis
from tcp_programs import LIMIT, PING, PONG, PROGRAM, Peer, ask, busy, command, connect, hear, hear_end, running, until

OK = b"+OK\r\n"
SUBSCRIBED = b"*3\r\n$9\r\nsubscribe\r\n$4\r\nnews\r\n:1\r\n"
MULTI, EXEC, DISCARD = command(b"MULTI"), command(b"EXEC"), command(b"DISCARD")
HELLO = command(b"HELLO", b"3")
TOO_MANY_CLIENTS = b"ERR max number of clients reached"
IS_PROTECTED = b"DENIED Redis is running in protected mode because protected mode is enabled."


def select(word):
    return command(b"SELECT", word)


def echo(text):
    return command(b"ECHO", text)


def incr(key):
    return command(b"INCR", key)


@contextlib.contextmanager
def stopped(proxy):
    """The proxy does nothing meanwhile, so that it finds several sockets ready after it."""
    proxy.process.send_signal(signal.SIGSTOP)
    try:
        yield
    finally:
        proxy.process.send_signal(signal.SIGCONT)


def answer(server, taken):
    """Replies to each command by OK, until the connection is closed. `taken` was read before."""
    with contextlib.suppress(OSError):
        found, rest = commands_of(taken)
        server.sendall(OK * len(found))
        while piece := server.recv(1 << 20):
            found, rest = commands_of(rest + piece)
            server.sendall(OK * len(found))


def is_replied(client, reply, what):
    """Asserts that this reply comes."""
    client.settimeout(8)
    try:
        hear(client, reply)
    except TimeoutError:
        raise AssertionError(what) from None
    client.settimeout(LIMIT)


def client_that_found_no_room():
    """A client that sends while too many bytes wait for the server is read once they were sent, also if they were sent
    in the visit of that client."""
    large = command(b"SET", b"large", bytes(20_000)) * 1_500
    small = command(b"SET", b"small", bytes(1_000)) * 3
    for unsent in ("1", "1K", "64K", "1M"):
        with (proxied("--server-buffer", unsent) as (proxy, _, server), connect(proxy.port) as first,
              contextlib.ExitStack() as stack):
            others = [stack.enter_context(connect(proxy.port)) for _ in range(20)]
            numbers_of(others[0])
            sending = threading.Thread(target=first.sendall, args=(large,), daemon=True)
            sending.start()
            is_settled(proxy)
            assert sending.is_alive(), "the first client's bytes do not wait"
            # The bytes that wait for the server fit into its socket now, and the others were ready before it.
            with stopped(proxy):
                for other in others:
                    other.sendall(small)
                taken = heard_in_a_moment(server)
            threading.Thread(target=answer, args=(server, taken), daemon=True).start()
            for number, other in enumerate(others):
                is_replied(other, OK * 3, f"client {number} of 20 waits for ever with --unsent {unsent}")
            is_replied(first, OK * 1_500, "the first client waits for ever")


def sockets_of(proxy):
    """The number of sockets that the proxy has open."""
    count = 0
    for entry in os.scandir(f"/proc/{proxy.process.pid}/fd"):
        with contextlib.suppress(FileNotFoundError):  # it was closed meanwhile
            count += os.readlink(entry.path).startswith("socket:")
    return count


def is_alone(proxy, before):
    """Asserts that the proxy has one client after a while, which asks, and no more sockets than before."""
    end = time.monotonic() + 5
    while True:
        with connect(proxy.port) as client:
            count = numbers_of(client)[b"clients"]
        if count == 1 or time.monotonic() > end:
            break
        time.sleep(0.2)
    assert count == 1, f"{count - 1} clients that have gone are open"
    until(lambda: sockets_of(proxy) == before, f"{sockets_of(proxy) - before} sockets are left")


def client_whose_replies_fill_its_room():
    """A client whose commands the proxy replies to itself is read on once these replies are written, also if they were
    more bytes than --held and all its commands have arrived before."""
    own = ((command(b"CLIENT", b"ID"), b":1\r\n"), (command(b"NOSUCH"), b"-ERR unknown command 'NOSUCH'\r\n"),
           (command(b"EXEC"), b"-ERR EXEC without MULTI\r\n"), (command(b"PING", b"word"), bulk(b"word")))
    for asked, reply in own:
        with proxied("--client-buffer", "1", "--local-ping") as (proxy, _, server), connect(proxy.port) as client:
            client.sendall(asked * 3 + get(b"a"))
            is_replied(client, reply * 3, f"no reply to {asked}")
            is_replied(server, get(b"a"), f"the command behind {asked} is not sent")
            server.sendall(bulk(b"A"))
            is_replied(client, bulk(b"A"), "no reply of the server")
    name = b"n" * 10_000
    with proxied() as (proxy, _, server), connect(proxy.port) as client:
        client.sendall(command(b"CLIENT", b"SETNAME", name) + b"CLIENT GETNAME\r\n" * 350 + get(b"a"))
        is_replied(client, OK + bulk(name) * 350, "replies are missing")
        is_replied(server, get(b"a"), "the command behind them is not sent")


# How long clients wait until they end, in seconds: the proxy needs longer or shorter for a turn on each machine.
PAUSES = (0.0005, 0.001, 0.002, 0.004, 0.008)


def end_while_they_are_read(proxy, clients, text, pause, end):
    """Lets all clients send this text at once, and end while the proxy reads it in turns, so that it learns of the end
    of a client that it is going to read again."""
    with stopped(proxy):
        for client in clients:
            client.sendall(text)
    time.sleep(pause)
    for client in clients:
        end(client)


def reset(client):
    client.setsockopt(socket.SOL_SOCKET, socket.SO_LINGER, struct.pack("ii", 1, 0))
    client.close()


def clients_that_die():
    """Clients that close or reset in the middle of a command are closed."""
    with small_redis() as redis, running("proxy", "127.0.0.1:0", redis.address) as proxy:
        is_connected(proxy)
        before = sockets_of(proxy)
        text = PING + command(b"SET", b"key", bytes(100_000))[:60_000]
        for end in (socket.socket.close, reset):
            for pause in PAUSES:
                clients = [connect(proxy.port) for _ in range(60)]
                for client in clients:
                    ask(client, PING, PONG)
                end_while_they_are_read(proxy, clients, text, pause, end)
            is_alone(proxy, before)


def clients_that_die_beside_others():
    """The same beside a client that sends without end, for clients that are gone at any time."""
    with small_redis() as redis, running("proxy", "127.0.0.1:0", redis.address) as proxy:
        is_connected(proxy)
        before = sockets_of(proxy)
        with busy(proxy.port, 1):
            for number in range(60):
                size = (40_000, 200_000, 1_000_000)[number % 3]
                client = connect(proxy.port)
                client.sendall(command(b"SET", b"key", bytes(2 * size))[:size])
                time.sleep((0, 0.0002, 0.001)[number // 3 % 3])
                (socket.socket.close if number % 4 else reset)(client)
        is_alone(proxy, before)


def is_ended(client, replies, what):
    """Asserts that these replies come, and then the end."""
    client.settimeout(10)
    try:
        heard = hear_end(client)
    except TimeoutError:
        raise AssertionError(f"{what} is not closed") from None
    assert heard == replies, f"{what} got {len(heard)} bytes, not {len(replies)}"


def clients_that_end_their_side():
    """Clients that end their sending side get all replies and then the end."""
    with small_redis() as redis, running("proxy", "127.0.0.1:0", redis.address) as proxy:
        is_connected(proxy)
        before = sockets_of(proxy)
        texts = [b"%d %s" % (number, b"." * 900) for number in range(60)]
        asked, replies = (b"".join(map(of, texts)) for of in (echo, bulk))
        for number, pause in enumerate(PAUSES):
            clients = [connect(proxy.port) for _ in range(40)]
            tail = asked[: number % 2 * 500]
            end_while_they_are_read(proxy, clients, asked + tail, pause, lambda client: client.shutdown(socket.SHUT_WR))
            for client in clients:
                is_ended(client, replies, f"a half-closed client that waited for {pause} s")
                client.close()
        is_alone(proxy, before)


def ends_behind_any_pipeline():
    """The same for pipelines of any length, in which clients change their settings too."""
    with small_redis() as redis, running("proxy", "127.0.0.1:0", redis.address, "--max-shared", "4") as proxy:
        is_connected(proxy)
        with connect(proxy.port) as client:
            for number in range(4):
                ask(client, select(b"%d" % number), OK)
            before = sockets_of(proxy) - 1
        for number in range(45):
            texts = [b"%d " % at + b"." * (0, 900, 20_000)[number % 3] for at in range((1, 10, 60)[number // 3 % 3])]
            asked, replies = [[of(text) for text in texts] for of in (echo, bulk)]
            if number % 4 == 1:
                asked.insert(len(asked) // 2, select(b"%d" % (number % 3)))
                replies.insert(len(replies) // 2, OK)
            tail = command(b"SET", b"key", bytes(100_000))[: (0, 9, 60_000)[number // 9 % 3]]
            with connect(proxy.port) as client:
                sending = threading.Thread(target=client.sendall, args=(b"".join(asked) + tail,))
                sending.start()
                hear(client, replies[0])
                sending.join()
                client.shutdown(socket.SHUT_WR)
                is_ended(client, b"".join(replies[1:]), f"half-closed client {number} of 45")
        is_alone(proxy, before)


def settings_after_a_pause():
    """AUTH, HELLO and SELECT succeed after the client and all others were idle for longer than --patience, also if the
    server takes a moment to reply."""
    for asked, reply in ((select(b"1"), OK), (HELLO, hello_of(3, 1)), (command(b"AUTH", b"anna", b"secret"), OK)):
        with proxied("--server-timeout", "1s") as (proxy, peer, server), connect(proxy.port) as client:
            client.sendall(command(b"CLIENT", b"ID"))
            hear(client, b":1\r\n")
            time.sleep(1.5)
            client.sendall(asked)
            with peer.accept() as line:
                hear(line, asked)
                time.sleep(0.1)
                with contextlib.suppress(OSError):
                    line.sendall(reply)
                is_replied(client, reply, f"no reply to {asked}")


def times_after_a_pause():
    """The time of a reply begins when its command is read, also if nothing was read for seconds before that."""
    for words in ((), ("--max-shared", "1")):
        with small_redis() as redis, running("proxy", "127.0.0.1:0", redis.address, *words) as proxy:
            is_connected(proxy)
            with connect(proxy.port) as client:
                ask(client, PING, PONG)
                time.sleep(3)
                ask(client, get(b"a"), b"$-1\r\n")
                time.sleep(0.3)
                most = numbers_of(client)[b"reply_us_max"]
                assert most < 1_000_000, f"a reply took {most} us after a pause of 3 s"


@contextlib.contextmanager
def printing(output, errors, *words):
    """A proxy with these outputs, and the port that it listens on, which is a free one, since its output may fail."""
    with socket.create_server(("127.0.0.1", 0)) as free:
        port = free.getsockname()[1]
    proxy = subprocess.Popen([PROGRAM, "proxy", f"127.0.0.1:{port}", *words], stdin=subprocess.DEVNULL, stdout=output,
                             stderr=errors)
    try:
        until(lambda: proxy.poll() is not None or accepts(port), "it doesn't listen")
        assert proxy.poll() is None, f"it has ended with status {proxy.returncode}"
        yield proxy, port
        assert proxy.poll() is None, f"it has ended with status {proxy.returncode}"
    finally:
        proxy.kill()
        proxy.wait()


@contextlib.contextmanager
def small_pipe():
    """A pipe that holds 4,096 bytes."""
    reader, writer = os.pipe()
    try:
        fcntl.fcntl(writer, fcntl.F_SETPIPE_SZ, 4_096)
        yield reader, writer
    finally:
        os.close(reader)
        os.close(writer)


def fill(writer):
    """Writes to a pipe until it is full."""
    os.set_blocking(writer, False)
    with contextlib.suppress(BlockingIOError):
        while True:
            os.write(writer, b"." * 512)
    os.set_blocking(writer, True)


def is_served(port, what):
    """Asserts that a client gets a reply."""
    with connect(port) as client:
        client.settimeout(5)
        client.sendall(PING)
        is_replied(client, PONG, what)


def standard_error_that_nobody_reads():
    """Clients get their replies while standard error is a full pipe, and after a client has caused many lines."""
    with small_redis() as redis, small_pipe() as (_, writer):
        fill(writer)
        with printing(subprocess.DEVNULL, writer, redis.address) as (_, port):
            is_served(port, "nobody is served since standard error is full")
    with small_redis() as redis, small_pipe() as (reader, writer):
        with (printing(subprocess.DEVNULL, writer, redis.address, "--max-shared", "4") as (_, port),
              connect(port) as client):
            client.settimeout(5)
            for number in range(2_000):
                client.sendall(select(b"%d" % (1 + number % 15)))
                is_replied(client, OK, f"a client waits after {number} lines on standard error")
            is_served(port, "another client waits since standard error is full")
        os.set_blocking(reader, False)
        printed = os.read(reader, 65_536)
        assert printed.startswith(b"server connected\n") or b"\nserver connected\n" in printed, printed[:200]


def is_refused(client, name):
    """Asserts that the reply is the error for a command of this name, and that the client is closed after it."""
    heard = hear_end(client)
    wanted = b"-ERR '%s' needs a connection of its own, and no more are allowed\r\n" % name
    assert heard == wanted, f"{name} is not refused: {heard}"


@contextlib.contextmanager
def recorded(*words):
    """A proxy before a server that replies to each command by a bulk string of its last word, and the list of all
    commands that the server got."""
    ran = []

    def reply(words):
        ran.append(words)
        return OK if words[0] in (b"SELECT", b"MULTI") else bulk(words[-1])

    peer = Answering(reply)
    with running("proxy", "127.0.0.1:0", peer.address, *words) as proxy:
        is_connected(proxy)
        yield proxy, ran
    peer.close()


def transaction_without_a_connection():
    """If MULTI is refused, the client is closed: no command after it reaches the server, in whatever pieces they
    come."""
    asked = [MULTI, incr(b"paid"), command(b"DECR", b"stock"), b"INCR paid\r\n", PING, EXEC]
    with recorded("--max-dedicated", "0") as (proxy, ran):
        for words in (asked, [b"MULTI\r\n", *asked[1:]]):
            with connect(proxy.port) as client:
                client.sendall(b"".join(words) + get(b"after"))
                is_refused(client, b"MULTI")
            with connect(proxy.port) as client, contextlib.suppress(OSError):
                for text in words:
                    client.sendall(text)
                    time.sleep(0.02)
        assert not ran, f"the server ran {ran}"
        with connect(proxy.port) as client:
            ask(client, get(b"after"), bulk(b"after"))


def watch_without_a_connection():
    """If WATCH is refused, no transaction runs after it, also if a connection becomes free meanwhile."""
    with recorded("--max-dedicated", "1") as (proxy, ran), connect(proxy.port) as asking:
        with connect(proxy.port) as other, connect(proxy.port) as client:
            ask(other, MULTI, OK)
            begun = len(ran)
            client.sendall(command(b"WATCH", b"paid"))
            is_refused(client, b"WATCH")
            other.close()
            until(lambda: numbers_of(asking)[b"clients_own"] == 0, "the other client has its connection")
            with contextlib.suppress(OSError):
                client.sendall(MULTI + incr(b"paid") + EXEC)
            time.sleep(0.2)
            assert len(ran) == begun, f"the server ran {ran[begun:]}"


def transaction_while_all_connections_are_used():
    """A client over --max-dedicated is refused, and a client that connects once another one has gone is not."""
    with recorded("--max-dedicated", "1") as (proxy, ran), connect(proxy.port) as asking:
        with connect(proxy.port) as other, connect(proxy.port) as client:
            ask(other, MULTI, OK)
            begun = len(ran)
            client.sendall(MULTI + incr(b"paid") + EXEC + get(b"after"))
            is_refused(client, b"MULTI")
            assert len(ran) == begun, f"the server ran {ran[begun:]}"
        until(lambda: numbers_of(asking)[b"clients_own"] == 0, "the other client has its connection")
        with connect(proxy.port) as client:
            client.sendall(MULTI + incr(b"paid"))
            hear(client, OK + bulk(b"paid"))


def settings_that_are_refused():
    """If SELECT or AUTH is refused, the client is closed: its next commands would run in another database or as another
    user. After a refused HELLO 3 it goes on, since it is told that its version stays."""
    for words in (("--max-shared", "1", "--max-dedicated", "0"), ("--max-shared", "2", "--max-dedicated", "0")):
        with recorded(*words) as (proxy, ran), connect(proxy.port) as other:
            if words[1] == "2":
                ask(other, select(b"7"), OK)
            begun = len(ran)
            for name, *rest in ((b"SELECT", b"1"), (b"AUTH", b"anna", b"secret"),
                                (b"HELLO", b"3", b"AUTH", b"anna", b"secret")):
                with connect(proxy.port) as client:
                    client.sendall(command(name, *rest) + incr(b"x") + command(b"FLUSHDB") + select(b"0") + get(b"y"))
                    is_refused(client, name)
            assert len(ran) == begun, f"the server ran {ran[begun:]}"
            with connect(proxy.port) as client:
                client.sendall(HELLO + get(b"y"))
                line = line_of(client)
                assert line.startswith((b"-NOPROTO ", b"-ERR ")) and b"'HELLO'" in line, line
                hear(client, bulk(b"y"))


class Refusing(Peer):
    """A server that sends this text to each connection and closes it."""

    def __init__(self, text):
        super().__init__()
        self.listener.settimeout(None)
        self.text = text
        threading.Thread(target=self.serve, daemon=True).start()

    def serve(self):
        with contextlib.suppress(OSError):
            while True:
                stream, _ = self.listener.accept()
                with stream:
                    stream.sendall(self.text)
                    stream.shutdown(socket.SHUT_WR)
                    # A socket that is closed with unread bytes discards what it has sent.
                    stream.settimeout(0.2)
                    with contextlib.suppress(OSError):
                        hear_end(stream)


def reply_of(client):
    """Returns the reply to the PING of a client, which may be an error."""
    client.sendall(PING)
    return line_of(client)


def descriptors_after_a_loss():
    """After the connections of all settings were lost, the proxy has no more descriptors than before."""
    with (small_redis() as redis, running("proxy", "127.0.0.1:0", redis.address) as proxy,
          contextlib.ExitStack() as stack):
        is_connected(proxy)
        clients = [stack.enter_context(connect(proxy.port)) for _ in range(12)]
        for number, client in enumerate(clients):
            ask(client, select(b"%d" % number), OK)
        before = proxy.descriptors()
        for _ in range(2):
            redis.close_all()
            for number, client in enumerate(clients):
                until(lambda client=client: reply_of(client) == PONG, "the client gets no reply after the loss")
        count = proxy.descriptors()
        assert count <= before, f"{count - before} descriptors more after all connections were lost"


def words_of_a_server_that_refuses():
    """If the server sends an error at once and closes, a line on standard error and the errors of commands have its
    words."""
    for why in (TOO_MANY_CLIENTS, IS_PROTECTED):
        peer = Refusing(b"-" + why + b"\r\n")
        with running("proxy", "127.0.0.1:0", peer.address) as proxy, connect(proxy.port) as client:
            until(lambda: why in proxy.printed(), f"standard error does not have the words of the server: {why}")
            for _ in range(5):
                client.sendall(PING)
                line = line_of(client)
                # (the error of the server may also be the reply to the first command over a connection)
                assert why in line and line.startswith((NOT_CONNECTED, b"-" + why)), line
            found = re.findall(rb"^(?:cannot connect to server|server lost)\b.*$", proxy.printed(), re.M)
            # (if the error was the reply to a command, its client has the words)
            assert all(why in line or line == b"server lost: closed by the server" for line in found), found
        peer.close()


def standard_output_that_is_full():
    """The proxy serves although standard output accepts no byte, with --report and without it."""
    for words in ((), ("--report", "1s")):
        with small_redis() as redis, open("/dev/full", "wb") as full:
            with printing(full, subprocess.DEVNULL, redis.address, *words) as (_, port):
                for _ in range(2):
                    is_served(port, "nobody is served since standard output is full")
                    time.sleep(1.5)


def reader_that_has_gone():
    """After the reader of standard output has gone, lines are dropped: the next reader gets no line of before, and none
    twice."""
    with small_redis() as redis, tempfile.TemporaryDirectory() as folder:
        path = f"{folder}/pipe"
        os.mkfifo(path)
        first = os.open(path, os.O_RDONLY | os.O_NONBLOCK)
        with printing(os.open(path, os.O_WRONLY), subprocess.DEVNULL, redis.address, "--report", "1s") as (_, port):
            with connect(port) as client:
                heard = []
                until(lambda: heard.append(read_pipe(first)) or b"\nclients " in b"".join(heard), "no line is printed")
                os.close(first)
                asked = 0
                for turn in range(8):
                    if turn == 6:
                        second, before = os.open(path, os.O_RDONLY | os.O_NONBLOCK), asked
                    for _ in range(10):
                        ask(client, PING, PONG)
                        asked += 1
                        time.sleep(0.1)
                heard = read_pipe(second)
                os.close(second)
                counts = [int(count) for count in re.findall(rb"^clients .* commands (\d+) ", heard, re.M)]
                assert counts, f"the next reader gets no line: {heard}"
                assert len(set(counts)) == len(counts), f"a line is printed twice: {counts}"
                # (a line may have been printed just before)
                assert counts[0] >= before - 15, f"a line of before is printed: {counts[0]} commands of {before}"


def read_pipe(reader):
    """Reads what a pipe holds now."""
    with contextlib.suppress(BlockingIOError):
        return os.read(reader, 65_536)
    return b""


@contextlib.contextmanager
def draining(server, *words):
    """A proxy that ends with its standard input, and its port."""
    words = [PROGRAM, "proxy", "127.0.0.1:0", server, "--drain", *words]
    with subprocess.Popen(words, stdin=subprocess.PIPE, stdout=subprocess.PIPE, stderr=subprocess.DEVNULL) as ran:
        try:
            line = ran.stdout.readline()
            assert line, f"it does not listen, and ends with status {ran.wait(LIMIT)}"
            yield ran, int(line.rpartition(b":")[2])
        finally:
            ran.kill()


def ends_in_time(ran):
    """Asserts that the proxy ends soon after its standard input has ended."""
    ran.stdin.close()
    try:
        assert ran.wait(10) == 0, ran.returncode
    except subprocess.TimeoutExpired:
        raise AssertionError("it does not end") from None


def drain_with_a_client_that_does_not_read():
    """With --drain the proxy ends after --drain-timeout at the latest: clients that do not read are closed then."""
    value = b"v" * 1_000_000
    peer = Answering(lambda words: bulk(value))
    with draining(peer.address, "--drain-timeout", "500ms") as (ran, port), connect(port) as client:
        # The server sends 100 MB, of which the client reads one reply.
        client.sendall(get(b"large") * 100)
        hear(client, bulk(value))
        ends_in_time(ran)
    peer.close()


def drain_with_a_connection_that_does_not_end():
    """It also ends if a client with a connection of its own stays, whose server does not end either."""
    with (small_redis() as redis, draining(redis.address, "--drain-timeout", "500ms") as (ran, port),
          connect(port) as client):
        ask(client, command(b"SUBSCRIBE", b"news"), SUBSCRIBED)
        redis.stop()
        ends_in_time(ran)
        redis.go_on()


def drain_with_a_client_that_sends_on():
    """A client that sends on while the proxy ends gets the replies to all commands that were read before, also if it
    reads them late: its connection is not reset."""
    peer = Peer()
    value = b"v" * 1_000
    with draining(peer.address) as (ran, port), peer.accept() as server, connect(port) as client:
        client.sendall(get(b"key") * 50)
        hear(server, get(b"key") * 50)
        ran.stdin.close()
        until(lambda: nobody_listens(port), "it listens on")
        client.sendall(PING * 5_000)
        server.sendall(bulk(value) * 50)
        for _ in range(3):
            time.sleep(0.1)
            client.sendall(PING * 5_000)
        hear(client, bulk(value) * 50)
        assert hear_end(client) == b""
        client.close()
        assert ran.wait(10) == 0, ran.returncode
    peer.close()


def clients_that_stay():
    """A client that is closed after its last reply, and does not close its side, is closed within seconds."""
    with proxied() as (proxy, peer, server):
        is_connected(proxy)
        before = proxy.descriptors()
        with connect(proxy.port) as client:
            client.sendall(command(b"QUIT") + PING * 5_000)
            assert hear_end(client) == OK
            begun = time.monotonic()
            until(lambda: proxy.descriptors() == before, "the connection of a client stays open")
            took = time.monotonic() - begun
            assert took < 4, f"the connection is closed after {took:.1f} s"


def nobody_listens(port):
    """Whether nobody listens on a port any more."""
    try:
        connect(port).close()
    except ConnectionRefusedError:
        return True
    return False


def commands_that_come_as_lines():
    """SELECT, HELLO 3 and MULTI as lines get what the same commands as arrays get."""
    with small_redis() as redis, running("proxy", "127.0.0.1:0", redis.address) as proxy:
        is_connected(proxy)
        with connect(proxy.port) as client:
            ask(client, b"SET where zero\r\nSELECT 1\r\nSET where one\r\nGET where\r\n", OK + OK + OK + bulk(b"one"))
            ask(client, b"SELECT 99\r\nSELECT 0\r\nGET where\r\n",
                b"-ERR DB index is out of range\r\n" + OK + bulk(b"zero"))
            client.sendall(b"CLIENT ID\r\n")
            number = line_of(client)
            client.sendall(b"HELLO 3\r\nGET nothing\r\n")
            heard = b""
            while not heard.endswith(b"*0\r\n_\r\n"):
                heard += line_of(client)
            assert heard.startswith(b"%7\r\n") and b"$2\r\nid\r\n" + number in heard, heard
            ask(client, b"RESET\r\nGET nothing\r\n", b"+RESET\r\n$-1\r\n")
            ask(client, b"AUTH anna wrong\r\nAUTH anna secret\r\nPING\r\n",
                WRONG_PASSWORD + OK + PONG)
            assert numbers_of(client)[b"clients_own"] == 0
            ask(client, b"SET count 1\r\nMULTI\r\nINCR count\r\nEXEC\r\n" + get(b"count"),
                OK + OK + b"+QUEUED\r\n*1\r\n:2\r\n" + bulk(b"2"))
        with connect(proxy.port) as client:
            ask(client, b"PING\r\nSUBSCRIBE news\r\n", PONG + SUBSCRIBED)


def server_without_an_address():
    """If the name of the server has no address, the proxy listens, and each command gets an error with the reason."""
    with running("proxy", "127.0.0.1:0", "no-such-host.invalid:6379") as proxy:
        for asked in (PING, select(b"1"), PING):
            with connect(proxy.port) as client:
                client.sendall(asked)
                line = line_of(client)
                assert line.startswith(NOT_CONNECTED) and len(line) > len(NOT_CONNECTED) + 2, line
        line = b"\ncannot connect to no-such-host.invalid:6379: "
        until(lambda: line in proxy.printed(), "standard error has no line")
        proxy.is_idle()


TESTS = [client_that_found_no_room, client_whose_replies_fill_its_room, clients_that_die,
         clients_that_die_beside_others, clients_that_end_their_side, ends_behind_any_pipeline,
         settings_after_a_pause, times_after_a_pause, standard_error_that_nobody_reads,
         transaction_without_a_connection, watch_without_a_connection, transaction_while_all_connections_are_used,
         settings_that_are_refused, words_of_a_server_that_refuses, standard_output_that_is_full,
         reader_that_has_gone, drain_with_a_client_that_does_not_read, drain_with_a_connection_that_does_not_end,
         drain_with_a_client_that_sends_on, clients_that_stay, descriptors_after_a_loss,
         commands_that_come_as_lines, server_without_an_address]


def main():
    names = sys.argv[3:] if sys.argv[1:2] == ["--program"] else sys.argv[1:]
    failed = 0
    for test in TESTS:
        if names and test.__name__ not in names:
            continue
        begun = time.monotonic()
        try:
            test()
            print(f"{test.__name__}: passed in {time.monotonic() - begun:.1f} s", flush=True)
        except Exception as error:  # a test that fails doesn't keep the others from running
            failed += 1
            print(f"{test.__name__}: {type(error).__name__}: {str(error)[:1000]}", flush=True)
    return 1 if failed else 0


if __name__ == "__main__":
    sys.exit(main())
