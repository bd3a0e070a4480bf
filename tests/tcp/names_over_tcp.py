#!/usr/bin/env python3
"""Tests the names of servers, and colors and characters on a terminal: names_over_tcp.py [--program FILE]

tests/over_tcp runs them. The functions below test that

- `ask`, `tap` and `proxy` connect to a server by the name of its host, and by an address of IPv6;
- a name without an address is named on standard error, with the reason;
- they connect to a server by the path of a Unix socket, and `proxy` opens connections of clients' own to it;
- `tap` and `proxy` ask whether LISTEN and SERVER are swapped, if they look so;
- `ask --timeout` ends if the server does not reply in time;
- the addresses of a name are tried in turn, which needs the right to mount a file of names over /etc/hosts;
- `show`, `ask` and `tap` print in color on a terminal, and nowhere else unless asked;
- `tap` prints printable characters with --utf8, to a terminal, a pipe and a file.
"""
import contextlib
import os
import pty
import re
import socket
import subprocess
import sys
import tempfile
import threading
import time

sys.dont_write_bytecode = True
from tcp_programs import LIMIT, PING, PONG, PROGRAM, ask, command, connect, hear_end, running, until

HOSTS = b"127.0.0.1 localhost\n127.0.0.2 three.test\n127.0.0.3 three.test\n127.0.0.4 three.test\n"
BOLD, GREEN, RED, OFF = b"\x1b[0;1m", b"\x1b[0;32m", b"\x1b[0;31m", b"\x1b[0m"


def run(*words, lines=b""):
    ran = subprocess.run([PROGRAM, *words], input=lines, capture_output=True, timeout=LIMIT)
    return ran.stdout, ran.stderr, ran.returncode


def free_port(host="127.0.0.1", family=socket.AF_INET):
    with socket.create_server((host, 0), family=family) as free:
        return free.getsockname()[1]


def names_of_hosts():
    """A server is found by a name. A name is looked up, so its case does not matter."""
    with running("serve", "127.0.0.1:0") as serve:
        name = f"LOCALHOST:{serve.port}"
        assert run("ask", name, "PING") == (b'simple "PONG" 4\n', b"", 0)
        for kind in ("tap", "proxy"):
            with running(kind, "127.0.0.1:0", name) as forwarder, connect(forwarder.port) as client:
                ask(client, PING, PONG)
    name = f"LocalHost:{free_port()}"
    with running("tap", "127.0.0.1:0", name) as tap:
        with connect(tap.port) as client, contextlib.suppress(ConnectionError):
            assert hear_end(client) == b""
        line = f"client 1: cannot connect to {name}: connection refused\n".encode()
        until(lambda: line in tap.printed(), f"{line} isn't printed")


def addresses_of_ipv6():
    """A server is found by an address of IPv6."""
    try:
        port = free_port("::1", socket.AF_INET6)
    except OSError:
        return
    with subprocess.Popen([PROGRAM, "serve", f"[::1]:{port}"], stdout=subprocess.PIPE) as serve:
        try:
            assert serve.stdout.readline() == b"listening on [::1]:%d\n" % port
            assert run("ask", f"[::1]:{port}", "PING") == (b'simple "PONG" 4\n', b"", 0)
            for kind in ("tap", "proxy"):
                with running(kind, "127.0.0.1:0", f"[::1]:{port}") as forwarder, connect(forwarder.port) as client:
                    ask(client, PING, PONG)
        finally:
            serve.kill()


@contextlib.contextmanager
def on_a_path(path, port):
    """Forwards the connections to a Unix socket to this port."""
    with socket.socket(socket.AF_UNIX) as listener:
        listener.bind(path)
        listener.listen()
        threading.Thread(target=forward_all, args=(listener, port), daemon=True).start()
        yield
        listener.shutdown(socket.SHUT_RDWR)


def forward_all(listener, port):
    with contextlib.suppress(OSError):
        while True:
            near, far = listener.accept()[0], socket.create_connection(("127.0.0.1", port))
            for one, other in ((near, far), (far, near)):
                threading.Thread(target=forward, args=(one, other), daemon=True).start()


def forward(one, other):
    with contextlib.suppress(OSError):
        while piece := one.recv(65_536):
            other.sendall(piece)
        other.shutdown(socket.SHUT_WR)


def unix_sockets():
    """A server is found by the path of its Unix socket, also for connections of a client's own."""
    set_command, ok = command(b"SET", b"a", b"x" * 100_000), b"+OK\r\n"
    hello, multi, unknown = command(b"HELLO", b"3"), command(b"MULTI"), b"-ERR unknown command\r\n"
    with tempfile.TemporaryDirectory() as folder, running("serve", "127.0.0.1:0") as serve:
        path = f"{folder}/redis.sock"
        with running("tap", "127.0.0.1:0", path) as tap, running("proxy", "127.0.0.1:0", path) as proxy:
            missing = b"no such file or directory\n"
            assert run("ask", path, "PING") == (b"", b"cannot connect to %s: no such file or directory\n" % path.encode(), 3)
            with connect(tap.port) as client, contextlib.suppress(ConnectionError):
                assert hear_end(client) == b""
            until(lambda: b"client 1: cannot connect to " + path.encode() + b": " + missing in tap.printed(), "no reason is printed")
            until(lambda: b"\ncannot connect to %s: %s" % (path.encode(), missing) in proxy.printed(), "no reason is printed")
            with on_a_path(path, serve.port):
                assert run("ask", path, "PING") == (b'simple "PONG" 4\n', b"", 0)
                until(lambda: b"server connected\n" in proxy.printed(), "the proxy isn't connected")
                for port in (tap.port, proxy.port):
                    with connect(port) as client:
                        ask(client, PING, PONG)
                        ask(client, set_command, ok)
                        client.sendall(hello)
                        assert client.recv(65_536).startswith(b"%7\r\n"), "no reply of version 3"
                        ask(client, multi, unknown)
                        ask(client, PING, PONG)


def names_without_an_address():
    """A name without an address ends `ask` and `tap`, with the name and the reason."""
    for words in (["ask", "no.such.host.invalid:6379", "PING"], ["tap", "127.0.0.1:0", "no.such.host.invalid"]):
        output, errors, status = run(*words)
        assert (output, status, errors.count(b"\n")) == (b"", 3, 1), (words, output, errors, status)
        why = b"cannot find the address of no.such.host.invalid: failed to lookup address information: "
        assert errors.startswith(why), (words, errors)


def addresses_in_turn():
    """Of three addresses of a name, the one that accepts is used, and after it has gone another one."""
    words = ["unshare", "-m", "sh", "-c", 'mount --bind "$0" /etc/hosts && exec "$@"']
    with tempfile.NamedTemporaryFile("wb") as hosts:
        hosts.write(HOSTS)
        hosts.flush()
        try:
            allowed = subprocess.run([*words, hosts.name, "true"], capture_output=True).returncode == 0
        except FileNotFoundError:
            allowed = False
        if not allowed:
            print("over tcp: addresses in turn: skipped, since no file can be mounted")
            return
        script = [sys.executable, os.path.realpath(__file__), "--program", PROGRAM, "in turn"]
        subprocess.run([*words, hosts.name, *script], check=True, timeout=5 * LIMIT)


@contextlib.contextmanager
def serving(host, port):
    with subprocess.Popen([PROGRAM, "serve", f"{host}:{port}"], stdout=subprocess.PIPE) as serve:
        try:
            assert serve.stdout.readline() == f"listening on {host}:{port}\n".encode()
            yield
        finally:
            serve.kill()


def in_turn():
    port = free_port("0.0.0.0")
    name = f"three.test:{port}"
    with running("tap", "127.0.0.1:0", name) as tap, running("proxy", "127.0.0.1:0", name) as proxy:
        # The last one is the address before the one that was connected last.
        for host in ("127.0.0.3", "127.0.0.4", "127.0.0.2"):
            with serving(host, port):
                assert run("ask", name, "PING") == (b'simple "PONG" 4\n', b"", 0)
                with connect(tap.port) as client:
                    ask(client, PING, PONG)
                count = proxy.printed().count(b"server connected\n")
                until(lambda: proxy.printed().count(b"server connected\n") >= max(count, 1), "the proxy isn't connected")
                until(lambda: answers(proxy.port), "the proxy isn't connected")
        with connect(tap.port) as client, contextlib.suppress(ConnectionError):
            assert hear_end(client) == b""
        line = f": cannot connect to {name}: connection refused\n".encode()
        until(lambda: line in tap.printed(), f"{line} isn't printed")
    refused = f"cannot connect to {name}: connection refused\n".encode()
    assert run("ask", name, "PING") == (b"", refused, 3)


def answers(port):
    """Whether PING is answered, and not by an error of the proxy."""
    with connect(port) as client:
        client.sendall(PING)
        return client.recv(100) == PONG


def swapped_addresses():
    """If LISTEN is in use and accepts a connection, and SERVER accepts none, LISTEN and SERVER may be swapped."""
    swapped = b"  were the addresses swapped? LISTEN comes first, then SERVER\n"
    port = free_port()
    with running("serve", "127.0.0.1:0") as serve:
        used = b"open failed: %d: address in use\n" % serve.port
        for name in ("tap", "proxy"):
            assert run(name, str(serve.port), str(port)) == (b"", used + swapped, 3), name
            with socket.create_server(("127.0.0.1", 0)) as other:
                assert run(name, str(serve.port), str(other.getsockname()[1])) == (b"", used, 3), name


def silent_server():
    """With --timeout `ask` ends if the server accepts the connection and does not reply in time; 0 is no limit."""
    late = b"read failed: no reply within the time of --timeout\n"
    with socket.create_server(("127.0.0.1", 0)) as server:
        address = f"127.0.0.1:{server.getsockname()[1]}"
        for words in (["PING"], []):
            begun = time.monotonic()
            assert run("ask", "--timeout", "300ms", address, *words, lines=b"PING\n") == (b"", late, 3)
            assert 0.25 < time.monotonic() - begun < LIMIT
        with subprocess.Popen([PROGRAM, "ask", "--timeout", "0", address, "PING"], stdout=subprocess.PIPE) as waiting:
            with contextlib.suppress(subprocess.TimeoutExpired):
                waiting.wait(1)
                raise AssertionError("ask does not wait")
            waiting.kill()
    with running("serve", "127.0.0.1:0") as serve:
        assert run("ask", "--timeout", "5s", str(serve.port), "PING") == (b'simple "PONG" 4\n', b"", 0)


def on_terminal(*words, lines=b"", environment=None):
    """Runs the program with a terminal as its standard output, and returns what it prints there."""
    own, its = pty.openpty()
    kept = {name: value for name, value in os.environ.items() if name != "NO_COLOR"}
    ran = subprocess.run([PROGRAM, *words], input=lines, stdout=its, stderr=subprocess.DEVNULL, timeout=LIMIT,
                         env={**kept, **(environment or {})})
    os.close(its)
    printed = b""
    with contextlib.suppress(OSError):
        while piece := os.read(own, 65_536):
            printed += piece
    os.close(own)
    return printed.replace(b"\r\n", b"\n"), ran.returncode


def colors_on_a_terminal():
    """`show` and `ask` print in color on a terminal, unless an option or the environment forbids it."""
    lines = b"-ERR no\r\n+OK\r\n"
    colored = b'error ' + RED + b'"ERR no"' + OFF + b' 6\nsimple ' + GREEN + b'"OK"' + OFF + b' 2\n'
    plain = b'error "ERR no" 6\nsimple "OK" 2\n'
    assert on_terminal("show", lines=lines) == (colored, 0)
    assert on_terminal("show", lines=lines, environment={"NO_COLOR": ""}) == (colored, 0)
    assert on_terminal("show", lines=lines, environment={"NO_COLOR": "1"}) == (plain, 0)
    assert on_terminal("show", "--color", "never", lines=lines) == (plain, 0)
    assert on_terminal("show", "--color", "always", lines=lines, environment={"NO_COLOR": "1"}) == (colored, 0)
    assert run("show", lines=lines) == (plain, b"", 0)
    assert on_terminal("check", lines=lines) == (b"values 2 bytes 14\n", 0)
    with running("serve", "127.0.0.1:0") as serve:
        pong = b'simple ' + GREEN + b'"PONG"' + OFF + b" 4\n"
        assert on_terminal("ask", str(serve.port), "PING") == (pong, 0)
        numbered = BOLD + b"reply 1" + OFF + b"\n  " + pong
        assert on_terminal("ask", str(serve.port), lines=b"PING\n") == (numbered, 0)


def tap_in_style():
    """`tap` prints colors on a terminal, and characters with --utf8 to a terminal, a pipe and a file."""
    word = "да".encode()
    colored = (BOLD + b"client 1 command 1" + OFF + b"\n  " + GREEN + b'"ECHO"' + OFF + b" " + GREEN + b'"' + word + b'"' + OFF +
               b"\n" + BOLD + b"client 1 reply 1" + OFF + b"\n  bulk " + GREEN + b'"' + word + b'"' + OFF + b" 4\n")
    plain = b'client 1 command 1\n  "ECHO" "' + word + b'"\nclient 1 reply 1\n  bulk "' + word + b'" 4\n'
    own, its = pty.openpty()
    read, write = os.pipe()
    with tempfile.NamedTemporaryFile("wb") as file:
        for output, options, source, wanted in (
                (its, ["--utf8"], own, colored), (write, ["--utf8"], read, plain),
                (file.fileno(), ["--utf8", "--color", "always"], None, colored)):
            def printed(text, end, source=source):
                while end not in text:
                    piece = os.read(source, 65_536) if source else open(file.name, "rb").read()
                    text = text + piece.replace(b"\r\n", b"\n") if source else piece
                return text

            with running("serve", "127.0.0.1:0") as serve:
                words = [PROGRAM, "tap", *options, "127.0.0.1:0", str(serve.port)]
                with subprocess.Popen(words, stdin=subprocess.DEVNULL, stdout=output, stderr=subprocess.DEVNULL) as tap:
                    try:
                        text = printed(b"", b"\n")
                        with connect(int(re.match(rb"listening on 127\.0\.0\.1:(\d+)\n", text)[1])) as client:
                            ask(client, command(b"ECHO", word), b"$4\r\n" + word + b"\r\n")
                            text = printed(text, b" 4\n")
                        assert wanted in text, (options, text)
                    finally:
                        tap.kill()
    for descriptor in (own, its, read, write):
        os.close(descriptor)


TESTS = [names_of_hosts, addresses_of_ipv6, unix_sockets, names_without_an_address, addresses_in_turn, swapped_addresses,
         silent_server, colors_on_a_terminal, tap_in_style]

if __name__ == "__main__":
    if sys.argv[-1] == "in turn":
        in_turn()
    else:
        for test in TESTS:
            test()
            print(test.__name__)
