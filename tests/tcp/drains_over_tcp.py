"""Tests that `resp serve` and `resp tap` drain at SIGTERM and SIGINT, if they are started with the signal blocked:

- each client gets the replies to the commands that were read, and then the end; a client without commands gets the end
  at once, and no new client is accepted;
- a client that goes on sending gets its replies too;
- after --drain-timeout a client that does not read is closed;
- `tap` prints the last reply and the table of --stats before it ends, also if its output is read late;
- the status is 0.

tests/tcp/operated tests the same of `resp proxy`. over_tcp calls the functions in TESTS.
"""
import contextlib
import re
import signal
import socket
import subprocess
import tempfile
import threading
import time

from tcp_programs import LIMIT, PING, PONG, PROGRAM, Peer, command, connect, hear, hear_end, running, until

# A reply that does not fit into the buffers of two sockets.
LARGE = b"x" * (8 << 20)


def bulk(text):
    return b"$%d\r\n%s\r\n" % (len(text), text)


@contextlib.contextmanager
def blocking(*words, name="TERM", output=None):
    """A program that is started with this signal blocked, and its port. The shell lets background jobs ignore SIGINT, so
    the signal gets its default first."""
    words = ["env", f"--default-signal={name}", f"--block-signal={name}", PROGRAM, *words]
    with tempfile.NamedTemporaryFile() as log:
        with subprocess.Popen(words, stdin=subprocess.DEVNULL, stdout=output or log, stderr=subprocess.STDOUT) as ran:
            def printed():
                with open(log.name, "rb") as file:
                    return file.read()

            def port():
                text = ran.stdout.readline() if output else printed()
                return int(re.search(rb"listening on 127\.0\.0\.1:(\d+)\n", text)[1])

            try:
                if not output:
                    until(lambda: b"\n" in printed(), "it does not listen")
                yield ran, port(), printed
            finally:
                ran.kill()


def is_refused(port):
    with contextlib.suppress(ConnectionRefusedError):
        connect(port).close()
        return False
    return True


def serve_drains():
    """`serve` drains at each of the two signals, with and without --test-server."""
    for name, options in (("TERM", []), ("INT", []), ("TERM", ["--test-server"])):
        words = ["serve", "127.0.0.1:0", "--length", "32M", *options]
        with blocking(*words, name=name) as (ran, port, _), connect(port) as client, connect(port) as idle:
            client.sendall(command(b"ECHO", LARGE))
            until(lambda: select_one(client), "no reply begins")
            ran.send_signal(getattr(signal, f"SIG{name}"))
            assert hear_end(idle) == b""
            until(lambda: is_refused(port), "a client is accepted")
            assert ran.poll() is None, "it ends before the client has its reply"
            assert hear_end(client) == bulk(LARGE)
            assert ran.wait(LIMIT) == 0, name


def select_one(stream):
    """Whether a byte has come."""
    stream.setblocking(False)
    try:
        return bool(stream.recv(1, socket.MSG_PEEK))
    except BlockingIOError:
        return False
    finally:
        stream.settimeout(LIMIT)


def sends_on(stream):
    """Sends PING until the connection ends."""
    with contextlib.suppress(OSError):
        while True:
            stream.sendall(PING)
            time.sleep(0.001)


def clients_that_send_on():
    """A client that goes on sending gets its replies and the end, and no reset."""
    with running("serve", "127.0.0.1:0") as server:
        for words in (["serve", "127.0.0.1:0"], ["tap", "127.0.0.1:0", f"127.0.0.1:{server.port}"]):
            with blocking(*words) as (ran, port, _), connect(port) as client:
                sender = threading.Thread(target=sends_on, args=(client,), daemon=True)
                sender.start()
                hear(client, PONG)
                ran.send_signal(signal.SIGTERM)
                time.sleep(0.3)
                heard = hear_end(client)
                assert heard == PONG * (len(heard) // len(PONG)), heard[-100:]
                client.close()
                sender.join(LIMIT)
                assert ran.wait(LIMIT) == 0


def timeouts():
    """A client that does not read, and one whose reply does not come, are closed after --drain-timeout."""
    with blocking("serve", "127.0.0.1:0", "--length", "32M", "--drain-timeout", "500ms") as (ran, port, _):
        with connect(port) as client:
            client.sendall(command(b"ECHO", LARGE))
            until(lambda: select_one(client), "no reply begins")
            begun = time.monotonic()
            ran.send_signal(signal.SIGTERM)
            assert ran.wait(LIMIT) == 0
            assert 0.4 < time.monotonic() - begun < 5, time.monotonic() - begun
    peer = Peer()
    with blocking("tap", "127.0.0.1:0", peer.address, "--drain-timeout", "500ms") as (ran, port, _):
        with peer.accept_on(port) as (client, server):
            client.sendall(PING)
            hear(server, PING)
            begun = time.monotonic()
            ran.send_signal(signal.SIGTERM)
            assert ran.wait(LIMIT) == 0
            assert 0.4 < time.monotonic() - begun < 5, time.monotonic() - begun
            assert hear_end(client) == b""
    peer.close()


def tap_drains():
    """`tap` forwards the replies to the commands that were read, prints them, and ends."""
    for name, options, last in (("TERM", [], b"client 1 reply 1\n"), ("INT", [], b"client 1 reply 1\n"),
                                ("INT", ["--stats"], b"PING ")):
        peer = Peer()
        with blocking("tap", "127.0.0.1:0", peer.address, *options, name=name) as (ran, port, printed):
            with peer.accept_on(port) as (client, server), peer.accept_on(port) as (idle, _):
                client.sendall(PING)
                hear(server, PING)
                ran.send_signal(getattr(signal, f"SIG{name}"))
                assert hear_end(idle) == b""
                assert ran.poll() is None, "it ends before the reply"
                server.sendall(PONG)
                assert hear_end(client) == PONG
                assert hear_end(server) == b""
            assert ran.wait(LIMIT) == 0, name
            assert last in printed(), printed()
        peer.close()


def output_that_is_read_late():
    """`tap` ends once its output was read, or after --drain-timeout."""
    words = [command(b"ECHO", b"y" * 1000)] * 200
    for is_read in (True, False):
        with running("serve", "127.0.0.1:0") as server:
            options = [] if is_read else ["--drain-timeout", "1s"]
            tap = ["tap", "127.0.0.1:0", f"127.0.0.1:{server.port}", *options]
            with blocking(*tap, output=subprocess.PIPE) as (ran, port, _), connect(port) as client:
                client.sendall(b"".join(words))
                hear(client, bulk(b"y" * 1000) * len(words))
                ran.send_signal(signal.SIGTERM)
                assert hear_end(client) == b""
                client.close()
                if is_read:
                    time.sleep(0.5)
                    assert ran.poll() is None, "it ends before its output was read"
                    text = ran.stdout.read()
                    assert text.count(b"\nclient 1 reply ") == len(words), text[-1000:]
                assert ran.wait(LIMIT) == 0


TESTS = [serve_drains, clients_that_send_on, timeouts, tap_drains, output_that_is_read_late]
