#!/usr/bin/env python3
"""Tests `resp` with a person or a running program at the other end: terminals_over_tcp.py [--program FILE]

- `ask` on a terminal prints a prompt, goes on after a line that is no command or is not sent, and prints no numbers;
- `ask` prints a text of lines as these lines on a terminal, and in quotes elsewhere;
- `show`, `check`, `canon` and `loop` say on standard error that they read a terminal;
- `ask` asks about a forgotten SERVER, and about a port that is no part of the address;
- `tap --replay -` prints what a packet has while the pipe stays open;
- `tap --stats` prints its table when Enter is typed, and prints it and ends at Ctrl-D.
"""
import contextlib
import os
import pty
import re
import select
import socket
import subprocess
import sys

sys.dont_write_bytecode = True
import captures
from tcp_programs import LIMIT, PING, PONG, PROGRAM, ask, command, connect, hear, running

PLAIN = {**os.environ, "NO_COLOR": "1"}


def read_until(reader, text):
    """Reads from a descriptor until it has given a text, and returns all that it has given."""
    found = b""
    while not found.endswith(text):
        assert select.select([reader], [], [], LIMIT)[0], f"{text} does not come, but {found[-200:]}"
        found += os.read(reader, 65_536).replace(b"\r\n", b"\n")
    return found


def read_to_end(reader):
    """Reads from a terminal to its end."""
    found = b""
    with contextlib.suppress(OSError):
        while piece := os.read(reader, 65_536):
            found += piece
    return found.replace(b"\r\n", b"\n")


def typed_commands():
    """`ask` on a terminal has a prompt, and a wrong line does not end it."""
    with running("serve", "127.0.0.1:0") as serve:
        own, its = pty.openpty()
        with subprocess.Popen([PROGRAM, "ask", str(serve.port)], stdin=its, stdout=its, stderr=its, env=PLAIN) as asking:
            os.close(its)
            prompt = b"127.0.0.1:%d> " % serve.port
            assert read_until(own, prompt) == prompt
            sends = b"it does not have exactly one reply, or it changes the version\n"
            for line, wanted in ((b"SET a 'x y'", b'simple "OK" 2\n'),
                                 (b'GET "a', b"line 2: the quote at byte 4 is not closed\n"),
                                 (b"subscribe c", b'line 3: "subscribe" is not sent: ' + sends),
                                 (b"", b""),
                                 (b"GET a", b'bulk "x y" 3\n'),
                                 (b"NOPE", b'error "ERR unknown command" 19\n')):
                os.write(own, line + b"\n")
                assert read_until(own, prompt) == line + b"\n" + wanted + prompt, line
            # Ctrl-D on an empty line.
            os.write(own, b"\x04")
            assert read_to_end(own) == b"\n"
            assert asking.wait(LIMIT) == 1
        os.close(own)


def commands_without_a_prompt():
    """No prompt is printed, and replies have numbers, if one end is no terminal."""
    with running("serve", "127.0.0.1:0") as serve:
        words = [PROGRAM, "ask", str(serve.port)]
        own, its = pty.openpty()
        with subprocess.Popen(words, stdin=its, stdout=subprocess.PIPE, stderr=subprocess.STDOUT, env=PLAIN) as asking:
            os.close(its)
            os.write(own, b"PING\n\x04")
            assert asking.communicate(timeout=LIMIT)[0] == b'reply 1\n  simple "PONG" 4\n'
            assert asking.returncode == 0
        os.close(own)
        own, its = pty.openpty()
        with subprocess.Popen(words, stdin=subprocess.PIPE, stdout=its, stderr=its, env=PLAIN) as asking:
            os.close(its)
            asking.stdin.write(b'PING\nGET "a\n')
            asking.stdin.close()
            wanted = b'reply 1\n  simple "PONG" 4\nline 2: the quote at byte 4 is not closed\n'
            assert read_to_end(own) == wanted
            assert asking.wait(LIMIT) == 1
        os.close(own)


def replied(reply, *words, stdout):
    """Runs `ask` against a server that sends this reply to INFO, with this standard output. Returns the exit status."""
    with socket.create_server(("127.0.0.1", 0)) as server:
        asking = subprocess.Popen([PROGRAM, "ask", *words, str(server.getsockname()[1]), "INFO"],
                                  stdin=subprocess.DEVNULL, stdout=stdout, env=PLAIN)
        with server.accept()[0] as stream:
            stream.settimeout(LIMIT)
            if "-3" in words:
                hear(stream, command(b"HELLO", b"3"))
                stream.sendall(b"%1\r\n+proto\r\n:3\r\n")
            hear(stream, command(b"INFO"))
            stream.sendall(reply)
            return asking.wait(LIMIT)


def texts_of_lines():
    """A bulk or a verbatim string whose lines all end is printed as these lines on a terminal, and only there."""
    for text, wanted in ((b"# Server\r\nredis_version:7\r\n\r\nclients:\tyes\r\ntrue:1\r\n", None),
                         (b"~ \"1\" \\\n", None), (b"\n", None),
                         (b"", b'bulk "" 0\n'),
                         (b"a", b'bulk "a" 1\n'),
                         (b"a\nb", b'bulk "a\\nb" 3\n'),
                         (b"a\rb\n", b'bulk "a\\rb\\n" 4\n'),
                         (b"a\n\r", b'bulk "a\\n\\r" 3\n'),
                         (b"\x1b[2J\n", b'bulk "\\x1b[2J\\n" 5\n'),
                         (b"a\x7f\n", b'bulk "a\\x7f\\n" 3\n'),
                         (b"\xd0\xb4\n", b'bulk "\\xd0\\xb4\\n" 3\n')):
        for words in ([], ["--color", "always"]):
            own, its = pty.openpty()
            assert replied(b"$%d\r\n%s\r\n" % (len(text), text), *words, stdout=its) == 0
            os.close(its)
            printed = read_to_end(own)
            os.close(own)
            if wanted is None:
                # The terminal has made CR LF of each LF.
                assert printed == text or words and b'"' in text, (text, printed)
            elif not words:
                assert printed == wanted, (text, printed)
    own, its = pty.openpty()
    assert replied(b"=10\r\ntxt:a: 1\r\n\r\n", "-3", stdout=its) == 0
    os.close(its)
    assert read_to_end(own) == b"a: 1\r\n"
    os.close(own)
    reader, writer = os.pipe()
    assert replied(b"$2\r\na\n\r\n", stdout=writer) == 0
    os.close(writer)
    assert os.read(reader, 100) == b'bulk "a\\n" 2\n'
    os.close(reader)


def input_from_a_terminal():
    """A line on standard error says that standard input is read, if it is a terminal."""
    waits = b"reading standard input; Ctrl-D ends it\n"
    for words, typed, wanted in ((["check"], b"", b"values 0 bytes 0\n"), (["show", "-"], b"", b""),
                                 (["canon"], b"", b""), (["tap", "--replay", "-"], b"", None), (["loop"], b"", None)):
        own, its = pty.openpty()
        with subprocess.Popen([PROGRAM, *words], stdin=its, stdout=subprocess.PIPE, stderr=subprocess.PIPE) as program:
            os.close(its)
            os.write(own, typed + b"\x04")
            output, errors = program.communicate(timeout=LIMIT)
        os.close(own)
        assert errors.startswith(waits), (words, errors)
        if wanted is not None:
            assert (output, errors, program.returncode) == (wanted, waits, 0), (words, output, errors)
    with open(os.devnull, "rb") as empty:
        ran = subprocess.run([PROGRAM, "check"], stdin=empty, capture_output=True, timeout=LIMIT)
    assert (ran.stdout, ran.stderr) == (b"values 0 bytes 0\n", b""), ran


def hints_of_ask():
    """`ask` says that SERVER may have been forgotten, and how a port is written."""
    def said(*words):
        ran = subprocess.run([PROGRAM, "ask", *words], stdin=subprocess.DEVNULL, capture_output=True, timeout=2 * LIMIT)
        assert ran.returncode == 3 and ran.stdout == b"", ran
        return ran.stderr

    forgotten = b"\n  was SERVER forgotten? it comes before the command: resp ask SERVER get ..\n"
    assert said("get", "a").endswith(forgotten), said("get", "a")
    colon = b"\n  a port follows its host after a colon: resp ask no.such.host.invalid:6379 ..\n"
    assert said("no.such.host.invalid", "6379", "PING").endswith(colon)
    for words in (["no.such.host.invalid", "PING"], ["no.such.host.invalid", "0", "a"], ["no.such.host.invalid:1", "6379"],
                  ["./no.such.socket", "6379"]):
        assert said(*words).count(b"\n") == 1, words
    with running("serve", "127.0.0.1:0") as serve:
        # The command is sent, and its error is printed.
        ran = subprocess.run([PROGRAM, "ask", str(serve.port), "6379"], capture_output=True, timeout=LIMIT)
        assert (ran.stdout, ran.stderr, ran.returncode) == (b'error "ERR unknown command" 19\n', b"", 1), ran


def capture_of_an_open_pipe():
    """The commands and replies of a capture are printed as their packets arrive."""
    packets = captures.talk(commands=[(captures.PING, captures.PONG), (captures.GET, captures.BULK)])
    printed = [b"", b"", b'client 1 command 1\n  "PING"\n', b'client 1 reply 1\n  simple "PONG" 4\n',
               b'client 1 command 2\n  "GET" "k"\n', b'client 1 reply 2\n  bulk "value" 5\n', b"client 1 closed\n",
               b"client 1 gone\n"]
    head = len(captures.pcap([]))
    with subprocess.Popen([PROGRAM, "tap", "--replay", "-"], stdin=subprocess.PIPE, stdout=subprocess.PIPE, bufsize=0) as tap:
        tap.stdin.write(captures.pcap([]))
        for frame, wanted in zip(captures.timed(packets), printed):
            tap.stdin.write(captures.pcap([frame])[head:])
            if wanted:
                assert read_until(tap.stdout.fileno(), wanted) == wanted
        assert not select.select([tap.stdout], [], [], 0.2)[0], "more is printed"
        tap.stdin.close()
        assert tap.wait(LIMIT) == 0 and tap.stdout.read() == b""


def table_on_request():
    """Enter prints the table while a connection is open, and Ctrl-D prints it and ends `tap`."""
    notice = b"Enter prints the table, and Ctrl-D prints it and ends\n"
    with running("serve", "127.0.0.1:0") as serve:
        own, its = pty.openpty()
        words = [PROGRAM, "tap", "--stats", "127.0.0.1:0", f"127.0.0.1:{serve.port}"]
        with subprocess.Popen(words, stdin=its, stdout=its, stderr=its, env=PLAIN) as tap:
            os.close(its)
            port = int(re.match(rb"listening on 127\.0\.0\.1:(\d+)\n", read_until(own, notice))[1])
            with connect(port) as client:
                for count in (1, 2):
                    ask(client, PING, PONG)
                    os.write(own, b"\n")
                    table = read_until(own, b"#" * 50 + b"\n")
                    assert re.search(rb"\nPING +%d +0 " % count, table), table
                    assert re.search(rb"\n\(all\) +%d +0 " % count, table), table
                assert tap.poll() is None
                ask(client, PING, PONG)
                os.write(own, b"\x04")
                table = read_to_end(own)
                assert re.search(rb"\nPING +3 +0 ", table) and table.count(b"stats at ") == 1, table
                assert tap.wait(LIMIT) == 0
        os.close(own)
        # Without a terminal the end of the input ends nothing.
        with running(*words[1:]) as tap, connect(tap.port) as client:
            ask(client, PING, PONG)
            tap.is_idle(0.3)
            assert b"Enter" not in tap.printed() and b"stats at" not in tap.printed(), tap.printed()


TESTS = [table_on_request, typed_commands, commands_without_a_prompt, texts_of_lines, input_from_a_terminal, hints_of_ask, capture_of_an_open_pipe]

if __name__ == "__main__":
    for test in TESTS:
        test()
    print(f"terminals over tcp: {len(TESTS)} passed")
