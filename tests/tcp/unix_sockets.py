"""Tests of `resp serve`, `resp tap` and `resp proxy` at the path of a Unix socket, which tests/over_tcp runs.

The functions below test that

- each of the three serves several clients at once, and prints the path;
- a path that a program listens on, a path with another file, and a path that is too long are refused, and nothing is
  changed;
- the file is left at the end, and is replaced by the next program;
- `tap` and `proxy` do not listen at the path of their server, whatever name it has;
- `tap --connections` prints no address of a client, and `tap --record` writes the traffic.
"""
import contextlib
import os
import socket
import stat
import subprocess
import tempfile

from tcp_programs import LIMIT, PING, PONG, PROGRAM, TOO_MANY, ask, command, connect_to, hear, hear_end, running, until


def run(*words, folder):
    """Runs the program to its end, and returns its status, its output and its errors."""
    ran = subprocess.run([PROGRAM, *words], stdin=subprocess.DEVNULL, capture_output=True, timeout=LIMIT, cwd=folder)
    return ran.returncode, ran.stdout, ran.stderr


def clients_at_once():
    """Clients of `serve`, `tap` and `proxy` at paths get their own replies, and one over the most is rejected."""
    with tempfile.TemporaryDirectory() as work:
        paths = [f"{work}/{name}.sock" for name in ("serve", "tap", "proxy")]
        served, tapped, shared = paths
        with running("serve", served) as serve, running("tap", "--max-clients", "20", tapped, served) as tap, \
                running("proxy", shared, tapped) as proxy:
            for program, path in zip((serve, tap, proxy), paths):
                assert program.printed().startswith(b"listening on %s\n" % path.encode()), program.printed()
                assert stat.S_ISSOCK(os.stat(path).st_mode), path
                with contextlib.ExitStack() as closing:
                    streams = [closing.enter_context(connect_to(path)) for _ in range(15)]
                    for number, stream in enumerate(streams):
                        ask(stream, command(b"SET", b"key%d" % number, b"value%d" % number), b"+OK\r\n")
                    for number, stream in enumerate(streams):
                        stream.sendall(command(b"GET", b"key%d" % number) * 3)
                    for number, stream in enumerate(streams):
                        value = b"value%d" % number
                        hear(stream, b"$%d\r\n%s\r\n" % (len(value), value) * 3)
            with contextlib.ExitStack() as closing:
                # One of the 20 is the proxy.
                streams = [closing.enter_context(connect_to(tapped)) for _ in range(19)]
                for stream in streams:
                    ask(stream, PING, PONG)
                with connect_to(tapped) as one_more:
                    assert hear_end(one_more) == TOO_MANY


def name_of_a_path():
    """A path that begins with `./` is one too, and the line in JSON has the path."""
    with tempfile.TemporaryDirectory() as work:
        before = os.getcwd()
        os.chdir(work)
        try:
            with running("serve", "./a.sock") as serve, running("tap", "--json", "./b.sock", "./a.sock") as tap:
                assert serve.printed() == b"listening on ./a.sock\n", serve.printed()
                assert tap.printed() == b'{"kind":"listening","address":"./b.sock"}\n', tap.printed()
                with connect_to("./b.sock") as client:
                    ask(client, PING, PONG)
        finally:
            os.chdir(before)


def used_paths():
    """A path that a program listens on, or that has another file, is refused, and serves on or keeps its file."""
    with tempfile.TemporaryDirectory() as work:
        path, other = f"{work}/a.sock", f"{work}/file"
        with open(other, "wb") as file:
            file.write(b"kept")
        why = b"open failed: %s: address in use\n"
        with running("serve", path):
            assert run("serve", path, folder=work) == (3, b"", why % path.encode())
            swapped = b"  were the addresses swapped? LISTEN comes first, then SERVER\n"
            for name in ("tap", "proxy"):
                # Nothing accepts a connection at SERVER, or something does.
                assert run(name, path, "127.0.0.1:1", folder=work) == (3, b"", why % path.encode() + swapped), name
                with socket.create_server(("127.0.0.1", 0)) as server:
                    address = f"127.0.0.1:{server.getsockname()[1]}"
                    assert run(name, path, address, folder=work) == (3, b"", why % path.encode()), name
            os.symlink(path, f"{work}/link")
            assert run("serve", f"{work}/link", folder=work) == (3, b"", why % f"{work}/link".encode())
            with connect_to(path) as client:
                ask(client, PING, PONG)
        assert run("serve", other, folder=work) == (3, b"", why % other.encode())
        with open(other, "rb") as file:
            assert file.read() == b"kept"
        assert run("serve", work, folder=work) == (3, b"", why % work.encode())


def paths_that_are_too_long():
    """A path of 107 bytes is listened on, and one of 108 bytes is refused."""
    with tempfile.TemporaryDirectory() as work:
        longest = f"{work}/" + "n" * (107 - len(work) - 1)
        with running("serve", longest) as serve, connect_to(longest) as client:
            assert serve.printed() == b"listening on %s\n" % longest.encode()
            ask(client, PING, PONG)
        for words in (["serve", longest + "n"], ["tap", longest + "n", "127.0.0.1:1"], ["proxy", longest + "n", "127.0.0.1:1"]):
            status, printed, errors = run(*words, folder=work)
            assert (status, printed) == (3, b""), words
            assert errors.startswith(b"open failed: %s: " % (longest + "n").encode()) and errors.count(b"\n") == 1, errors
        assert os.listdir(work) == [os.path.basename(longest)]


def file_of_the_last_program():
    """The file of a program that was stopped is left, and the next program replaces it."""
    with tempfile.TemporaryDirectory() as work:
        path = f"{work}/a.sock"
        for words in (["serve", path], ["tap", path, "127.0.0.1:1"], ["proxy", path, "127.0.0.1:1"], ["serve", path]):
            with running(*words) as program:
                assert program.printed().startswith(b"listening on %s\n" % path.encode()), program.printed()
            assert stat.S_ISSOCK(os.stat(path).st_mode), words
        with running("serve", path), connect_to(path) as client:
            ask(client, PING, PONG)


def own_path():
    """`tap` and `proxy` do not listen at the path of their server, and leave no file there."""
    with tempfile.TemporaryDirectory() as work:
        os.mkdir(f"{work}/folder")
        path = f"{work}/a.sock"
        why = b"open failed: %s: connections to the server would come back to this address\n" % path.encode()
        for server in (path, "./a.sock", f"{work}/folder/../a.sock"):
            for name in ("tap", "proxy"):
                assert run(name, path, server, folder=work) == (3, b"", why), (name, server)
                assert os.listdir(work) == ["folder"], os.listdir(work)


def clients_without_an_address():
    """`tap` says that a client is connected, without an address, and writes the traffic to a capture."""
    with tempfile.TemporaryDirectory() as work:
        served, tapped, capture = f"{work}/a.sock", f"{work}/b.sock", f"{work}/traffic.pcap"
        with running("serve", served), running("tap", "--connections", "--record", capture, tapped, served) as tap:
            with connect_to(tapped) as client:
                ask(client, PING, PONG)
            until(lambda: b"client 1 gone\n" in tap.printed(), "client 1 isn't gone")
            lines = tap.printed().split(b"\n")
            assert lines[:2] == [b"listening on %s" % tapped.encode(), b"client 1 connected"], lines
            traffic = b"".join(line + b"\n" for line in lines[1:-1])
        status, printed, errors = run("tap", "--replay", capture, "--connections", folder=work)
        wanted = traffic.replace(b"client 1 connected\n", b"client 1 connected from 240.0.0.1:6379\n")
        assert (status, printed, errors) == (0, wanted, b""), (printed, wanted)


def drained_at_a_path():
    """`proxy --drain` ends at a path as it does at an address."""
    with tempfile.TemporaryDirectory() as work:
        served, shared = f"{work}/a.sock", f"{work}/b.sock"
        with running("serve", served):
            proxy = subprocess.Popen([PROGRAM, "proxy", "--drain", shared, served], stdin=subprocess.PIPE,
                                     stdout=subprocess.PIPE, stderr=subprocess.DEVNULL)
            try:
                assert proxy.stdout.readline() == b"listening on %s\n" % shared.encode()
                with connect_to(shared) as client:
                    ask(client, PING, PONG)
                    proxy.stdin.close()
                    assert hear_end(client) == b""
                assert proxy.wait(LIMIT) == 0
            finally:
                proxy.kill()
                proxy.wait()


TESTS = [clients_at_once, name_of_a_path, used_paths, paths_that_are_too_long, file_of_the_last_program, own_path,
         clients_without_an_address, drained_at_a_path]
