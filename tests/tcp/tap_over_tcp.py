"""Tests `resp tap`; tests/over_tcp runs them. They test that

- a client is accepted only if two descriptors are left;
- a client that sends without end delays no other;
- `tap` reads nothing from a client before its connection to the server is open, and says why it can't be opened;
- `tap` does not listen on the address of its server;
- `tap` tells each side that the other has ended, prints which side was the first, names a value that it cuts off, and
  keeps nothing of a closed connection;
- `tap` prints only what passes its filters, or a table of the commands;
- `tap` prints the addresses and names of connections on request;
- `tap` rejects connections over its maximum, and serves new ones after that;
- a terminal, a pipe or a socket that nobody reads delays no client, and gets the rest later;
- errors in the input are explained if standard error is a terminal, and the reason of a failed device is printed then;
- a file gets all that `tap` prints;
- after the output has failed, the connections are forwarded until they close, and longer or not as long on request.
"""
import contextlib
import os
import pty
import re
import resource
import select
import signal
import socket
import struct
import subprocess
import tempfile
import time

from serve_over_tcp import sessions_are_apart
from tcp_programs import (LIMIT, PING, PONG, PROGRAM, TOO_MANY, Peer, ask, busy_clients_delay_none, command, connect,
                          has_reply, hear, hear_end, running, until)


def clients_of_a_tap_wait():
    """A client of `tap` waits while no two descriptors are free for it, whether their number is odd or even."""
    with running("serve", "127.0.0.1:0") as serve:
        for descriptors in (40, 41):
            words = ["tap", "--max-clients", "1000", "127.0.0.1:0", f"127.0.0.1:{serve.port}"]
            with running(*words, descriptors=descriptors) as tap, contextlib.ExitStack() as closing:
                streams = [closing.enter_context(connect(tap.port)) for _ in range(30)]
                for stream in streams:
                    stream.sendall(PING)
                served = [stream for stream in streams if has_reply(stream)]
                assert 8 < len(served) < 20 and served == streams[: len(served)], len(served)
                tap.is_idle()
                for stream in served:
                    hear(stream, PONG)
                # Each connection that closes makes room for one that waits.
                for open_one, waiting in zip(served, streams[len(served) :]):
                    open_one.close()
                    hear(waiting, PONG)
                assert b"cannot connect" not in tap.printed(), tap.printed()[-1000:]


def ends_of_both_sides():
    """The end of each side is told to the other, after all bytes before it."""
    peer = Peer()
    with running("tap", "127.0.0.1:0", peer.address) as tap:
        before = tap.descriptors()
        reply = b"$300000\r\n" + b"a" * 300_000 + b"\r\n"

        # The server ends first: its client hears that after the reply, and may still send.
        client, server = connect(tap.port), None
        client.sendall(PING)
        server = peer.accept()
        hear(server, PING)
        server.sendall(reply)
        server.shutdown(socket.SHUT_WR)
        assert hear_end(client) == reply
        client.sendall(PING)
        hear(server, PING)
        client.close()
        assert hear_end(server) == b""
        server.close()
        line = b"client 1: the server closed the connection\nclient 1 command 2\n"
        until(lambda: tap.printed().endswith(b"client 1 gone\n"), "client 1 isn't gone")
        assert line in tap.printed() and b"client 1 closed" not in tap.printed(), tap.printed()[-200:]

        # The client ends first, and still gets its reply.
        client = connect(tap.port)
        client.sendall(PING)
        client.shutdown(socket.SHUT_WR)
        server = peer.accept()
        assert hear_end(server) == PING
        server.sendall(reply)
        server.close()
        assert hear_end(client) == reply
        client.close()
        until(lambda: b"client 2 gone\n" in tap.printed(), "client 2 isn't gone")
        assert b"client 2 closed\nclient 2 reply 1\n" in tap.printed(), tap.printed()[-200:]
        assert b"client 2: the server" not in tap.printed(), tap.printed()[-200:]

        # A reset of one side closes the other.
        client = connect(tap.port)
        client.sendall(PING)
        server = peer.accept()
        hear(server, PING)
        server.setsockopt(socket.SOL_SOCKET, socket.SO_LINGER, struct.pack("ii", 1, 0))
        server.close()
        with contextlib.suppress(ConnectionError):
            assert hear_end(client) == b""
        client.close()
        until(lambda: b"client 3 gone\n" in tap.printed(), "client 3 isn't gone")
        until(lambda: tap.descriptors() == before, "descriptors of connections that have gone are open")
        tap.is_idle()


def ends_inside_values():
    """A command or a reply that its sender does not complete is named, with the number of its bytes."""
    peer = Peer()
    monitor = command(b"MONITOR")
    cases = [
        (PING + b"*2\r\n$3\r\nGET\r\n", None, b"client 1 closed in command 2, after 13 bytes\n"),
        (PING + PING, PONG + b"$5\r\nhe", b"client 2: the server closed the connection in reply 2, after 6 bytes\n"),
        (monitor, b"*3\r\n$9\r\n", b"client 3: the server closed the connection in a value, after 8 bytes\n"),
        (b"PING\r\n*1\r\n", None, b"client 4 closed in command 2, after 4 bytes\n"),
        (PING, b"*1\r\n", b"client 5: the server closed the connection in reply 1, after 4 bytes\n"),
        (b"", None, b"client 6 closed\n"),
        (b"GET \"a\r\n*1\r\n", None, b"client 7 closed\n"),
    ]
    with running("tap", "127.0.0.1:0", peer.address) as tap:
        for number, (sent, reply, line) in enumerate(cases, 1):
            with connect(tap.port) as client, peer.accept() as server:
                client.sendall(sent)
                hear(server, sent)
                if reply is None:
                    client.shutdown(socket.SHUT_WR)
                    assert hear_end(server) == b""
                else:
                    server.sendall(reply)
                    server.shutdown(socket.SHUT_WR)
                    assert hear_end(client) == reply
                until(lambda line=line: line in tap.printed(), f"{line} isn't printed")
            gone = b"client %d gone\n" % number
            until(lambda gone=gone: gone in tap.printed(), f"client {number} isn't gone")
        ends = [line for line in tap.printed().splitlines() if b"closed" in line]
        assert len(ends) == len(cases), ends


def server_that_refuses():
    """A client whose server refuses the connection is closed, and nothing that it sent is printed."""
    with socket.create_server(("127.0.0.1", 0)) as free:
        address = b"127.0.0.1:%d" % free.getsockname()[1]
    with running("tap", "127.0.0.1:0", address.decode()) as tap:
        before = tap.descriptors()
        for number in (1, 2):
            with connect(tap.port) as client, contextlib.suppress(ConnectionError):
                client.sendall(PING)
                assert hear_end(client) == b""
            line = b"client %d: cannot connect to %s: connection refused\n" % (number, address)
            until(lambda line=line: line in tap.printed(), f"{line} isn't printed")
        until(lambda: tap.descriptors() == before, "descriptors of connections that have gone are open")
        assert tap.printed().count(b"\n") == 3, tap.printed()


def server_that_accepts_late():
    """A client that has ended its sending side before the server accepts gets its reply."""
    with contextlib.ExitStack() as streams:
        listener = streams.enter_context(socket.create_server(("127.0.0.1", 0), backlog=0))
        listener.settimeout(2 * LIMIT)
        # These connections fill the backlog, so the system lets the next one wait.
        others = [streams.enter_context(socket.socket()) for _ in range(3)]
        for stream in others:
            stream.setblocking(False)
            with contextlib.suppress(BlockingIOError):
                stream.connect(listener.getsockname())
        names = [stream.getsockname() for stream in others]
        with running("tap", "127.0.0.1:0", "127.0.0.1:%d" % listener.getsockname()[1]) as tap:
            client = streams.enter_context(connect(tap.port))
            client.settimeout(2 * LIMIT)
            client.sendall(PING)
            client.shutdown(socket.SHUT_WR)
            time.sleep(0.3)
            assert b"client" not in tap.printed(), tap.printed()
            tap.is_idle(0.5)
            for stream in others:
                stream.close()
            server, name = listener.accept()
            while name in names:
                server.close()
                server, name = listener.accept()
            with server:
                server.settimeout(LIMIT)
                assert hear_end(server) == PING
                server.sendall(PONG)
            assert hear_end(client) == PONG
            client.close()
            until(lambda: b"client 1 gone\n" in tap.printed(), "client 1 isn't gone")


def own_address():
    """`tap` does not listen on the address of its server, whatever names it has, but on the same port of another one."""
    with socket.create_server(("127.0.0.1", 0)) as free:
        port = free.getsockname()[1]
    same = [("127.0.0.1", "127.0.0.1"), ("0.0.0.0", "127.0.0.1"), ("0.0.0.0", "0.0.0.0"), ("127.0.0.1", "0.0.0.0"),
            ("0.0.0.0", "127.0.0.7"), ("[::]", "127.0.0.1"), ("[::]", "[::]"), ("[::1]", "[::]"), ("[::]", "[::1]"),
            ("127.0.0.1", "[::ffff:127.0.0.1]")]
    for listen, server in same:
        words = [PROGRAM, "tap", f"{listen}:{port}", f"{server}:{port}"]
        ran = subprocess.run(words, stdin=subprocess.DEVNULL, capture_output=True, timeout=LIMIT)
        why = f"open failed: {listen}:{port}: connections to the server would come back to this address\n".encode()
        assert (ran.returncode, ran.stdout, ran.stderr) == (3, b"", why), (words, ran)
    for name in (f"{port}", f":{port}", f"localhost:{port}"):
        ran = subprocess.run([PROGRAM, "tap", name, name], stdin=subprocess.DEVNULL, capture_output=True, timeout=LIMIT)
        why = f"open failed: {name}: connections to the server would come back to this address\n".encode()
        assert (ran.returncode, ran.stdout, ran.stderr) == (3, b"", why), (name, ran)
        with running("serve", name) as serve:
            assert serve.port == port, serve.printed()
    with running("tap", f"127.0.0.1:{port}", f"127.0.0.2:{port}"):
        pass


def most_of_tap():
    """Connections over the maximum are rejected, and don't reach the server; a new one is served after another closed."""
    peer = Peer()
    with running("tap", "127.0.0.1:0", peer.address, "--max-clients", "3") as tap:
        pairs = []
        for _ in range(3):
            client = connect(tap.port)
            server = peer.accept()
            ask(client, PING, b"") or hear(server, PING)
            pairs.append((client, server))
        for number in range(4, 9):
            with connect(tap.port) as one_more:
                assert hear_end(one_more) == TOO_MANY
            until(lambda: b"client %d: rejected by --max-clients\n" % number in tap.printed(), f"client {number} has no line")
        for client, server in pairs:
            server.sendall(PONG)
            hear(client, PONG)
        for stream in pairs.pop(1):
            stream.close()
        until(lambda: b"client 2 gone\n" in tap.printed(), "client 2 isn't gone")
        with connect(tap.port) as client, peer.accept() as server:
            client.sendall(PING)
            hear(server, PING)
            server.sendall(PONG)
            hear(client, PONG)
        until(lambda: b"client 9 gone\n" in tap.printed(), "client 9 isn't gone")
        for client, server in pairs:
            client.sendall(PING)
            hear(server, PING)
        assert b"client 10" not in tap.printed(), tap.printed()
        peer.listener.setblocking(False)
        with contextlib.suppress(BlockingIOError):
            peer.listener.accept()
            raise AssertionError("a rejected client reached the server")


def printed_through(*options, wanted):
    """Two clients send PING and INCR through a `tap` with these options, which prints this, with any times.

    The reply to INCR is an error, and arrives 0.1 seconds after the reply to PING.
    """
    peer = Peer()
    incr, wrong = command(b"INCR", b"a"), b"-WRONGTYPE\r\n"
    with running("tap", *options, "127.0.0.1:0", peer.address) as tap:
        for number in range(1, 3):
            with connect(tap.port) as client, peer.accept() as server:
                client.sendall(PING + incr)
                hear(server, PING + incr)
                server.sendall(PONG)
                hear(client, PONG)
                time.sleep(0.1)
                server.sendall(wrong)
                hear(client, wrong)
                client.close()
                assert server.recv(1) == b"", "the server does not see the end of its client"

        def text():
            return re.sub(rb" at \d\d:\d\d:\d\d\.\d{6}( after \d\.\d{6} s)?", b"", tap.printed()).partition(b"\n")[2]

        until(lambda: len(text()) >= len(wanted), f"{text()} is printed, and {wanted} is not")
        time.sleep(0.1)
        assert text() == wanted, text()


def filters_of_tap():
    """`tap` prints only the commands and replies that pass `--errors`, `--slower`, `--command`, `--key` and `--client`."""
    ping = [b'client %d command 1\n  "PING"\n' % number for number in (1, 2)]
    pong = [b'client %d reply 1\n  simple "PONG" 4\n' % number for number in (1, 2)]
    incr = [b'client %d command 2\n  "INCR" "a"\n' % number for number in (1, 2)]
    wrong = [b'client %d reply 2\n  error "WRONGTYPE" 9\n' % number for number in (1, 2)]
    both = incr[0] + wrong[0] + incr[1] + wrong[1]
    printed_through("--errors", wanted=both)
    printed_through("--slower", "80ms", wanted=both)
    printed_through("--slower", "80000us", "--errors", "--command", "ping,Incr", wanted=both)
    printed_through("--command", "PING", wanted=ping[0] + pong[0] + ping[1] + pong[1])
    printed_through("--key", "[a-c]", wanted=incr[0] + wrong[0] + incr[1] + wrong[1])
    printed_through("--errors", "--key", "b", wanted=b"")
    printed_through("--errors", "--client", "2", wanted=incr[1] + wrong[1])
    ends = b"client 2 closed\nclient 2 gone\n"
    printed_through("--client", "2", wanted=ping[1] + incr[1] + pong[1] + wrong[1] + ends)


def lines_of_tap():
    """`tap` reads commands that are lines unless `--no-inline` is given, forwards each byte of them, and prints the first."""
    longest, longer = b"ECHO " + b"a" * 65531, b"ECHO " + b"a" * 65532
    heading, tail = b"client 1 command 1 inline\n", b"client 1 closed\nclient 1 gone\n"
    cases = (([], b"\r\nping\r\n", heading + b'  "ping"\n'),
             ([], longest + b"\n", heading + b'  "ECHO" "' + b"a" * 1024 + b'" .. 65531\n'),
             (["--shown", "64K"], longest + b"\n", heading + b'  "ECHO" "' + b"a" * 65531 + b'"\n'),
             ([], longer + b"\n", b"client 1 refused Length at byte 65536 of command 1\n"),
             ([], b"get 'a\n", b"client 1 refused Syntax at byte 4 of command 1\n"),
             (["--key", "a"], b"get b\nget a\n", b'client 1 command 2 inline\n  "get" "a"\n'),
             (["--no-inline"], b"ping\r\n", b"client 1 refused Syntax at byte 0 of command 1\n"))
    for options, sent, wanted in cases:
        peer = Peer()
        with running("tap", *options, "127.0.0.1:0", peer.address) as tap:
            with connect(tap.port) as client, peer.accept() as server:
                client.sendall(sent)
                hear(server, sent)
                client.close()
                assert server.recv(1) == b"", "the server does not see the end of its client"
            ends = b"" if options[:1] == ["--key"] else tail

            def text():
                return tap.printed().partition(b"\n")[2]

            until(lambda: len(text()) >= len(wanted + ends), f"{text()[:300]} is printed, and {wanted[:300]} is not")
            time.sleep(0.1)
            assert text() == wanted + ends, text()[:300]


def connections_of_tap():
    """With `--connections`, `tap` prints addresses and names of connections, whatever else is printed."""
    peer = Peer()
    named, hello = command(b"CLIENT", b"SETNAME", b"worker"), command(b"HELLO", b"3", b"AUTH", b"u", b"p", b"SETNAME", b"a\xe9b")
    rename, reset = command(b"CLIENT", b"SETNAME", b"x y"), command(b"RESET")
    ok, refused = b"+OK\r\n", b"-ERR no\r\n"
    steps = (([], b""), ([(named, ok)], b" (worker)"), ([(named, refused)], b""), ([(named, ok), (rename, refused)], b" (worker)"),
             ([(hello, b"*0\r\n")], b" (a?b)"), ([(named, ok), (reset, b"+RESET\r\n")], b""),
             ([(command(b"CLIENT", b"SETNAME", b"n" * 70), ok)], b" (" + b"n" * 64 + b")"))
    for options in (["--command", "none"], ["--errors", "--command", "none"], ["--slower", "1s"], ["--stats"]):
        with running("tap", "--connections", *options, "127.0.0.1:0", peer.address) as tap:
            for number, (talk, name) in enumerate(steps, 1):
                with connect(tap.port) as client, peer.accept() as server:
                    address = b"%s:%d" % (client.getsockname()[0].encode(), client.getsockname()[1])
                    for sent, heard in talk:
                        client.sendall(sent)
                        hear(server, sent)
                        server.sendall(heard)
                        hear(client, heard)
                    client.close()
                    assert server.recv(1) == b"", "the server does not see the end of its client"
                wanted = [b"client %d connected from %s" % (number, address), b"client %d%s closed" % (number, name),
                          b"client %d%s gone" % (number, name)]
                until(lambda: wanted[-1] in tap.printed(), f"client {number} isn't gone: {tap.printed()[-300:]}")
                lines = [line.partition(b" at ")[0] for line in tap.printed().split(b"\n")]
                assert [line for line in lines if line.startswith(b"client %d" % number)] == wanted, tap.printed()
    with running("tap", "--connections", "--client", "2", "127.0.0.1:0", peer.address) as tap:
        for _ in range(2):
            with connect(tap.port) as client, peer.accept() as server:
                client.close()
                assert server.recv(1) == b"", "the server does not see the end of its client"
        until(lambda: b"client 2 gone\n" in tap.printed(), "client 2 isn't gone")
        assert tap.printed().count(b"client 1") == 0 and tap.printed().count(b"client 2 connected from 127.") == 1, tap.printed()


def table_of_tap():
    """`tap` prints a table of the commands when the last connection closes, and with `--stats-every` before that."""
    peer = Peer()
    head = b"command                 calls errors bytes in bytes out  median     99%     max\n"
    for options, is_early in ((["--stats"], False), (["--stats-every", "1s"], True)):
        with running("tap", *options, "127.0.0.1:0", peer.address) as tap:
            first, last = connect(tap.port), connect(tap.port)
            with first as client, peer.accept() as server:
                client.sendall(PING)
                hear(server, PING)
                server.sendall(PONG)
                hear(client, PONG)
                client.close()
                assert server.recv(1) == b"", "the server does not see the end of its client"
            if is_early:
                until(lambda: head in tap.printed(), "no table is printed while a connection is open")
            else:
                time.sleep(0.1)
                assert b"stats" not in tap.printed(), tap.printed()
            with last as client, peer.accept() as server:
                client.sendall(PING)
                hear(server, PING)
                server.sendall(PONG)
                hear(client, PONG)
                client.close()
                assert server.recv(1) == b"", "the server does not see the end of its client"
            line = re.compile(rb"\nPING                        2      0       28        14[ .0-9a-z]{24}\n")
            until(lambda: line.search(tap.printed()), "both calls are in no table")
            assert re.search(rb"\nstats at \d\d:\d\d:\d\d\.\d{6}\n" + head, tap.printed()), tap.printed()
            assert b"client" not in tap.printed(), tap.printed()


def tapping():
    """Through `tap`, in front of `serve`, clients are as apart and as little delayed as without it."""
    with running("serve", "127.0.0.1:0") as serve, running("tap", "127.0.0.1:0", f"127.0.0.1:{serve.port}") as tap:
        before = tap.descriptors(), serve.descriptors()
        sessions_are_apart(tap.port)
        busy_clients_delay_none(tap.port, 1, 2)
        until(lambda: (tap.descriptors(), serve.descriptors()) == before, "descriptors of connections that have gone are open")


def descriptors_of_tap():
    """A client whose connection to the server can't be opened is closed, and later ones are served."""
    with running("serve", "127.0.0.1:0") as serve:
        with running("tap", "--max-clients", "1000", "127.0.0.1:0", f"127.0.0.1:{serve.port}", descriptors=32) as tap:
            streams = [connect(tap.port) for _ in range(40)]
            for stream in streams:
                with contextlib.suppress(ConnectionError):
                    stream.sendall(PING)
            time.sleep(0.5)
            tap.is_idle()
            for stream in streams:
                stream.close()
            until(lambda: tap.printed().count(b" gone\n") > 5, "no client was served")

            def serves():
                with connect(tap.port) as stream:
                    try:
                        ask(stream, PING, PONG)
                    except (AssertionError, ConnectionError):
                        return False
                    return True

            until(serves, "no connection is served after descriptors had run out")


def pipe():
    """Returns the ends of a pipe, of which the first is read."""
    return os.pipe()


def sockets():
    """Returns the ends of a connection of two sockets."""
    return [stream.detach() for stream in socket.socketpair()]


def read_until(reader, text):
    """Reads from a descriptor until it has given a text."""
    found = b""
    while text not in found[-70_000:]:
        assert select.select([reader], [], [], LIMIT)[0], f"{text} does not come, but {found[-100:]}"
        found += os.read(reader, 65_536)
    return found


def read_to_end(reader):
    """Reads from a descriptor to its end, and closes it."""
    found = b""
    with contextlib.suppress(OSError):  # a terminal that nobody holds open fails at its end
        while piece := os.read(reader, 65_536):
            found += piece
    os.close(reader)
    return found


def errors_on_a_terminal():
    """An error is explained if standard error is a terminal. Scripts and pipes get one line."""
    line = b"value 1: Syntax at byte 1\n"
    explained = line + b"  at byte 1 of the input: #x\\r\\n\n                           ^ valid here: f t\n" \
        b"  a boolean is #t or #f\n"
    for ends, words, wanted in ((pty.openpty, [], explained.replace(b"\n", b"\r\n")), (pipe, [], line),
                                (pty.openpty, ["--no-explain"], line.replace(b"\n", b"\r\n")),
                                (pipe, ["--explain"], explained), (pipe, ["--explain", "--no-explain"], line)):
        reader, writer = ends()
        with subprocess.Popen([PROGRAM, "check", "-3", *words], stdin=subprocess.PIPE, stderr=writer) as check:
            os.close(writer)
            check.communicate(b"#x\r\n", LIMIT)
        found = read_to_end(reader)
        assert (check.returncode, found) == (1, wanted), (ends.__name__, words, check.returncode, found)


def reasons_of_failed_devices():
    """The system's reason for a failed device is on a second line if errors are explained, and only then."""
    full, wrong = b"  No space left on device (os error 28)\n", b"  Is a directory (os error 21)\n"
    script = b"clients 1\nsend 1 PING\nflush\n"
    for task, lines in (("show", b"+OK\r\n"), ("check", b"+OK\r\n"), ("canon", b"+OK\r\n" * 10_000), ("loop", script)):
        for words, reason in ((["--explain"], full), ([], b"")):
            with open("/dev/full", "wb") as output:
                ran = subprocess.run([PROGRAM, task, *words], input=lines, stdout=output, stderr=subprocess.PIPE, timeout=LIMIT)
            assert (ran.stderr, ran.returncode) == (b"write failed\n" + reason, 3), (task, words, ran)
    folder = os.open("/", os.O_RDONLY)
    for task in ("show", "check", "canon", "loop"):
        for words, reason in ((["--explain"], wrong), ([], b"")):
            ran = subprocess.run([PROGRAM, task, *words], stdin=folder, capture_output=True, timeout=LIMIT)
            assert (ran.stdout, ran.stderr, ran.returncode) == (b"", b"read failed\n" + reason, 3), (task, words, ran)
            ran = subprocess.run([PROGRAM, task, *words, "/"], capture_output=True, timeout=LIMIT)
            assert (ran.stdout, ran.stderr, ran.returncode) == (b"", b"open failed: /: is a directory\n", 3), (task, words, ran)
    os.close(folder)


def output_that_nobody_reads():
    """Commands are forwarded while nobody reads what `tap` prints, which is printed once somebody does."""
    for ends in (pty.openpty, pipe, sockets):
        reader, writer = ends()
        with running("serve", "127.0.0.1:0") as serve:
            words = [PROGRAM, "tap", "--color", "never", "127.0.0.1:0", f"127.0.0.1:{serve.port}"]
            with subprocess.Popen(words, stdin=subprocess.DEVNULL, stdout=writer) as tap:
                os.close(writer)
                line = os.read(reader, 200)
                with connect(int(line.split(b":")[1])) as stream:
                    for _ in range(200):
                        ask(stream, PING * 100, PONG * 100)
                printed = read_until(reader, b" bytes not shown")
                with connect(int(line.split(b":")[1])) as stream:
                    ask(stream, PING, PONG)
                printed += read_until(reader, b"client 2 gone")
                tap.kill()
        os.close(reader)
        lines = printed.replace(b"\r\n", b"\n").split(b"\n")
        assert lines[:2] == [b"client 1 command 1", b'  "PING"'], (ends.__name__, lines[:4])
        left_out = [line for line in lines if line.endswith(b" bytes not shown")]
        assert len(left_out) == 1 and len(printed) > 1_000_000, (ends.__name__, left_out, len(printed))


def output_in_a_file():
    """A file gets all text, also where a terminal would not get it."""
    with running("serve", "127.0.0.1:0") as serve:
        with running("tap", "--shown", "1M", "127.0.0.1:0", f"127.0.0.1:{serve.port}") as tap, connect(tap.port) as stream:
            values = [bytes([65 + number]) * 300_000 for number in range(6)]
            for value in values:
                stream.sendall(command(b"ECHO", value))
            for value in values:
                hear(stream, b"$300000\r\n" + value + b"\r\n")
            lines = [b"listening on 127.0.0.1:%d\n" % tap.port]
            commands = [b'client 1 command %d\n  "ECHO" "%s"\n' % pair for pair in enumerate(values, 1)]
            replies = [b'client 1 reply %d\n  bulk "%s" 300000\n' % pair for pair in enumerate(values, 1)]
            size = len(lines[0]) + sum(len(text) for text in commands + replies)
            until(lambda: len(tap.printed()) == size, "the text is not whole")
            printed = tap.printed()
            for texts in (lines, commands, replies):
                places = [printed.find(text) for text in texts]
                assert -1 not in places and places == sorted(places), places


class Failing:
    """A tap in front of `serve` whose output fails after its first line, with a client that it has accepted."""

    def __init__(self, streams, *options):
        self.serve = streams.enter_context(running("serve", "127.0.0.1:0"))
        words = [PROGRAM, "tap", *options, "127.0.0.1:0", f"127.0.0.1:{self.serve.port}"]
        self.process = streams.enter_context(subprocess.Popen(
            words, stdin=subprocess.DEVNULL, stdout=subprocess.PIPE, stderr=subprocess.PIPE))
        streams.callback(self.process.kill)
        self.port = int(self.process.stdout.readline().split(b":")[1])
        self.client = streams.enter_context(connect(self.port))
        ask(self.client, PING, PONG)
        self.process.stdout.close()
        with contextlib.suppress(ConnectionError):
            self.client.sendall(PING)

    def has_ended(self):
        """Waits for its end, and returns its status and standard error."""
        return self.process.wait(LIMIT), self.process.stderr.read()


def is_refused(port):
    """Whether the system refuses a connection."""
    try:
        connect(port).close()
    except ConnectionRefusedError:
        return True
    except ConnectionError:
        # The system had accepted it before the listener was closed.
        return False
    return False


NO_MORE = b"write failed\nnothing more is printed, and no client is accepted; tap ends when the last connection closes\n"
GOES_ON = b"write failed\nnothing more is printed; clients are still accepted\n"


def output_that_fails():
    """By default its connections are forwarded until the last one closes, and no other is accepted."""
    with contextlib.ExitStack() as streams:
        tap = Failing(streams)
        hear(tap.client, PONG)
        assert tap.process.stderr.readline() + tap.process.stderr.readline() == NO_MORE
        until(lambda: is_refused(tap.port), "a client is accepted after the output has failed")
        large = bytes(range(256)) * 4_096
        for _ in range(5):
            ask(tap.client, command(b"ECHO", large), b"$%d\r\n%s\r\n" % (len(large), large))
        assert tap.process.poll() is None, "it has ended before the last connection closed"
        tap.client.close()
        assert tap.has_ended() == (3, b""), "its end"


def output_that_fails_at_once():
    """With --exit-with-output it ends when its output fails, also with --keep-going."""
    for options in (["--exit-with-output"], ["--keep-going", "--exit-with-output"]):
        with contextlib.ExitStack() as streams:
            tap = Failing(streams, *options)
            assert tap.has_ended() == (3, b""), options
            with contextlib.suppress(ConnectionError):
                hear_end(tap.client)


def output_that_is_not_needed():
    """With --keep-going clients are accepted and forwarded after the output has failed."""
    with contextlib.ExitStack() as streams:
        tap = Failing(streams, "--keep-going")
        hear(tap.client, PONG)
        assert tap.process.stderr.readline() + tap.process.stderr.readline() == GOES_ON
        tap.client.close()
        for _ in range(3):
            with connect(tap.port) as stream:
                ask(stream, PING, PONG)
        assert tap.process.poll() is None, "it has ended"


def file_that_is_full():
    """A file that may not grow ends printing as a closed pipe does."""
    def limit():
        signal.signal(signal.SIGXFSZ, signal.SIG_IGN)
        resource.setrlimit(resource.RLIMIT_FSIZE, (20_000, 20_000))

    with running("serve", "127.0.0.1:0") as serve, tempfile.NamedTemporaryFile("wb") as log:
        words = [PROGRAM, "tap", "127.0.0.1:0", f"127.0.0.1:{serve.port}"]
        with subprocess.Popen(words, stdin=subprocess.DEVNULL, stdout=log, stderr=subprocess.PIPE, preexec_fn=limit) as tap:
            until(lambda: os.path.getsize(log.name), "it doesn't listen")
            with open(log.name, "rb") as file:
                port = int(file.readline().split(b":")[1])
            with connect(port) as stream:
                for _ in range(2_000):
                    ask(stream, PING, PONG)
                assert tap.poll() is None, "it has ended before the last connection closed"
            assert tap.wait(LIMIT) == 3
            assert tap.stderr.read() == NO_MORE
        assert os.path.getsize(log.name) == 20_000, "the text is not printed as far as the file has room"


TESTS = [clients_of_a_tap_wait, ends_of_both_sides, ends_inside_values, server_that_refuses,
         server_that_accepts_late, own_address, most_of_tap, filters_of_tap, lines_of_tap, connections_of_tap,
         table_of_tap, tapping, descriptors_of_tap, errors_on_a_terminal, reasons_of_failed_devices,
         output_that_nobody_reads, output_in_a_file, output_that_fails, output_that_fails_at_once,
         output_that_is_not_needed, file_that_is_full]
