"""Tests `resp serve`; tests/over_tcp runs them. They test that

- accepting resumes after descriptors ran out, and nothing is busy meanwhile;
- without `--max-clients` there are as many clients as descriptors for them, and a line says if `--max-clients` needs more;
- a client that sends without end delays no other;
- commands of a client that does not read its replies are not run, and it gets all replies once it reads;
- `serve` and `tap` read within the limits that their options say;
- no two connections share a session, also if one is opened in the place of a closed one.
"""
import contextlib
import resource
import subprocess
import sys
import time

from tcp_programs import (HERE, PING, PONG, TOO_MANY, ask, busy_clients_delay_none, command, connect, has_reply, hear,
                          hear_end, peak, running, until)


def many_clients():
    """The tests of many_clients.py."""
    most = 1000
    with running("serve", "127.0.0.1:0", "--max-clients", str(most), descriptors=4096) as serve:
        words = [sys.executable, f"{HERE}/tests/tcp/many_clients.py", str(serve.port), str(serve.process.pid), str(most)]
        subprocess.run(words, check=True, timeout=200)
        assert serve.printed().count(b"\n") == 1, serve.printed()


def descriptors_run_out():
    """Connections wait while no descriptor is free, and are accepted in order once some are."""
    with running("serve", "--max-clients", "1000", "127.0.0.1:0", descriptors=32) as serve:
        streams = [connect(serve.port) for _ in range(60)]
        for stream in streams:
            stream.sendall(PING)
        served = [stream for stream in streams if has_reply(stream)]
        assert 10 < len(served) < 32, f"{len(served)} of 60 connections are served with 32 descriptors"
        assert served == streams[: len(served)], "connections aren't accepted in order"
        for stream in served:
            hear(stream, PONG)
        serve.is_idle()
        # A connection that closes makes room at once.
        waiting = streams[len(served) :]
        for stream in served[:5]:
            stream.close()
        for stream in waiting[:5]:
            hear(stream, PONG)
        assert not has_reply(waiting[5]), "more connections are accepted than there are descriptors"
        # So does the system, of which the program hears nothing.
        resource.prlimit(serve.process.pid, resource.RLIMIT_NOFILE, (128, 4096))
        for stream in waiting[5:]:
            hear(stream, PONG)
        serve.is_idle()
        for stream in served[5:] + waiting:
            ask(stream, PING, PONG)
            stream.close()


def most_of_the_descriptors():
    """Without `--max-clients` the most clients are those for which descriptors are left, and a further one is rejected."""
    with running("serve", "127.0.0.1:0") as server:
        to_server = f"127.0.0.1:{server.port}"
        # The program itself needs 6, 10 and 11 descriptors, and a connection of `proxy` that clients share one more.
        for words, descriptors, most in ((["serve", "127.0.0.1:0"], 32, 26),
                                         (["tap", "127.0.0.1:0", to_server], 40, 15),
                                         (["tap", "127.0.0.1:0", to_server], 41, 15),
                                         (["proxy", "--max-dedicated", "0", "--max-shared", "2", "127.0.0.1:0", to_server], 32, 19),
                                         (["proxy", "--max-dedicated", "4", "--max-shared", "2", "127.0.0.1:0", to_server], 32, 15),
                                         (["proxy", "--max-shared", "2", "127.0.0.1:0", to_server], 32, 9)):
            with running(*words, descriptors=descriptors) as program, contextlib.ExitStack() as closing:
                streams = [closing.enter_context(connect(program.port)) for _ in range(most)]
                for _ in range(2):
                    for stream in streams:
                        stream.sendall(PING)
                    for stream in streams:
                        hear(stream, PONG)
                for _ in range(3):
                    with connect(program.port) as one_more:
                        assert hear_end(one_more) == TOO_MANY, (words, descriptors)
                assert b"descriptors" not in program.printed(), program.printed()


def too_few_descriptors():
    """A line on standard error says that `--max-clients` needs more descriptors than the limit allows."""
    for words, needed in ((["serve"], 106), (["tap"], 210), (["proxy", "--max-dedicated", "10", "--max-shared", "3"], 124)):
        words = [words[0], "--max-clients", "100", *words[1:], "127.0.0.1:0"] + ["127.0.0.1:1"] * (words[0] != "serve")
        line = b"100 clients need %d file descriptors, and the limit is %d (ulimit -n)\n"
        with running(*words, descriptors=needed - 1) as program:
            assert program.printed().count(line % (needed, needed - 1)) == 1, program.printed()
        with running(*words, descriptors=needed) as program:
            assert b"descriptors" not in program.printed(), program.printed()


def idle_with_clients():
    """Nothing is busy while clients are silent, don't read, or have ended their sending side."""
    with running("serve", "127.0.0.1:0") as serve, contextlib.ExitStack() as streams:
        silent, greedy, halved = (streams.enter_context(connect(serve.port)) for _ in range(3))
        ask(silent, PING + PING[:5], PONG)
        ask(halved, command(b"SET", b"key", bytes(16_384)), b"+OK\r\n")
        greedy.setblocking(False)
        with contextlib.suppress(BlockingIOError):
            for _ in range(100_000):
                greedy.send(command(b"GET", b"key") * 100)
        time.sleep(0.2)
        serve.is_idle()
        ask(silent, PING[5:], PONG)


def replies_that_nobody_reads():
    """Commands are not run while more bytes of replies wait than `--client-buffer` says, and nothing is lost by that."""
    value = bytes(range(256)) * 4_096
    reply = b"$%d\r\n%s\r\n" % (len(value), value)
    asked = command(b"GET", b"key") * 650
    for words, least, most in (([], 0, 30_000_000), (["--client-buffer", "50000000"], 50_000_000, 180_000_000)):
        with running("serve", *words, "127.0.0.1:0") as serve, contextlib.ExitStack() as streams:
            greedy, other = (streams.enter_context(connect(serve.port)) for _ in range(2))
            ask(other, command(b"SET", b"key", value), b"+OK\r\n")
            # Their replies have 650 MiB, and all of them fit one read.
            greedy.sendall(asked + command(b"ECHO", b"last"))
            ask(other, PING, PONG)
            time.sleep(0.3)
            serve.is_idle()
            assert least < peak(serve.process) < most, f"{peak(serve.process)} bytes for replies that nobody reads"
            for _ in range(650):
                hear(greedy, reply)
            hear(greedy, b"$4\r\nlast\r\n")
            assert peak(serve.process) < most, f"{peak(serve.process)} bytes while the replies are read"
            ask(greedy, PING, PONG)


def limits_of_the_options():
    """`serve` rejects a word that is longer than `--length`, and `tap` forwards and names it."""
    long = command(b"ECHO", bytes(65))
    with running("serve", "--length", "64", "127.0.0.1:0") as serve, connect(serve.port) as client:
        client.sendall(long)
        assert hear_end(client) == b"-ERR Protocol error: Length at byte 16\r\n"
    with running("serve", "127.0.0.1:0") as serve:
        with running("tap", "--length", "64", "127.0.0.1:0", f"127.0.0.1:{serve.port}") as tap:
            with connect(tap.port) as client:
                ask(client, long, b"$65\r\n%s\r\n" % bytes(65))
            line = b"client 1 refused Length at byte 16 of command 1\n"
            until(lambda: line in tap.printed(), f"{line} isn't printed")


def sessions_are_apart(port):
    """Each connection has its own version and its own half of a command, also in the place of a closed one."""
    streams = [connect(port) for _ in range(50)]
    for number, stream in enumerate(streams):
        if number % 2:
            stream.sendall(command(b"HELLO", b"3") + command(b"GET", b"none"))
            heard = b""
            while not heard.endswith(b"_\r\n"):
                piece = stream.recv(4096)
                assert piece, heard
                heard += piece
    for _ in range(5):
        # Connections close in the middle of a command, and others take their places.
        for number in range(0, len(streams), 3):
            streams[number].sendall(command(b"HELLO", b"3") + b"*2\r\n$4\r\nECHO\r\n$1000\r\n")
            streams[number].close()
            streams[number] = connect(port)
            ask(streams[number], command(b"GET", b"none"), b"$-1\r\n")
        for number, stream in enumerate(streams):
            null = b"_\r\n" if number % 2 and number % 3 else b"$-1\r\n"
            name = b"connection %d" % number
            text = command(b"GET", b"none") + command(b"ECHO", name)
            stream.sendall(text[: number % len(text)])
            streams[number] = stream, text[number % len(text) :], null + b"$%d\r\n%s\r\n" % (len(name), name)
        for stream, rest, _ in streams:
            stream.sendall(rest)
        for stream, _, reply in streams:
            hear(stream, reply)
        streams = [stream for stream, _, _ in streams]
    for stream in streams:
        stream.close()


def serving():
    with running("serve", "127.0.0.1:0") as serve:
        before = serve.descriptors()
        busy_clients_delay_none(serve.port, 3, 10)
        sessions_are_apart(serve.port)
        until(lambda: serve.descriptors() == before, "descriptors of connections that have gone are open")
        serve.is_idle()


TESTS = [many_clients, descriptors_run_out, most_of_the_descriptors, too_few_descriptors, idle_with_clients,
         replies_that_nobody_reads, limits_of_the_options, serving]
