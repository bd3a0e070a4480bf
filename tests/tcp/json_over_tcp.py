#!/usr/bin/env python3
"""Tests `resp tap --json`: json_over_tcp.py [--program FILE]

tests/over_tcp runs them. Each line that is printed is read as JSON. The functions below test that

- commands, replies of each type, pushes and errors have their lines, also if each byte arrives on its own;
- filters choose the same lines as those of text;
- lines about connections have their addresses and names, and name a value that is cut off;
- a reader that is too slow misses whole lines.
"""
import datetime
import json
import os
import re
import socket
import subprocess
import sys
import threading
import time

sys.dont_write_bytecode = True
from tcp_programs import LIMIT, PING, PONG, PROGRAM, ask, command, connect, hear, hear_end, running, until

# Replies of version 3, each with its type and the text of the error.
REPLIES = [
    (b"_\r\n", "null", None), (b"#t\r\n", "boolean", None), (b":-7\r\n", "integer", None), (b"$3\r\nabc\r\n", "bulk", None),
    (b"*1\r\n-in\r\n", "array", None), (b"+OK\r\n", "simple", None), (b"-ERR \x01 \xc3\xa9\r\n", "error", "ERR \x01 \xe9"),
    (b",1.5\r\n", "double", None), (b"!3\r\nE\xff!\r\n", "bulk_error", {"base64": "Rf8h"}), (b"(-12\r\n", "big", None),
    (b"=7\r\ntxt:abc\r\n", "verbatim", None), (b"~1\r\n:1\r\n", "set", None), (b"%1\r\n+a\r\n:1\r\n", "map", None),
    (b"|1\r\n+a\r\n:1\r\n*0\r\n", "array", None), (b"-" + b"\xc3\xa9" * 600 + b"\r\n", "error", "\xe9" * 512),
    (b"-x" + b"\xc3\xa9" * 600 + b"\r\n", "error", "x" + "\xe9" * 511), (b"-" + b"x" * 1024 + b"\r\n", "error", "x" * 1024),
    (b"$-1\r\n", "null", None), (b"-\r\n", "error", None)]


def lines_of(text):
    """Returns the objects of the lines of a text, without their times."""
    lines = [json.loads(line) for line in text.decode().splitlines()]
    for line in lines:
        if "time" in line:
            check_time(line.pop("time"))
    return lines


def check_time(text):
    """Checks that a time is written as in RFC 3339 with microseconds, and that it is not long ago."""
    assert re.fullmatch(r"\d{4}-\d\d-\d\dT\d\d:\d\d:\d\d\.\d{6}Z", text), text
    then = datetime.datetime.strptime(text, "%Y-%m-%dT%H:%M:%S.%f%z")
    age = datetime.datetime.now(datetime.timezone.utc) - then
    assert datetime.timedelta(0) <= age < datetime.timedelta(seconds=LIMIT), (text, age)


def until_lines(tap, holds):
    """Waits until the lines that a tap has printed fulfil a condition, and returns them without the first."""
    until(lambda: tap.printed().endswith(b"\n") and holds(lines_of(tap.printed())), f"not printed, but {tap.printed()[-2000:]}")
    first, *lines = lines_of(tap.printed())
    assert first == {"kind": "listening", "address": f"127.0.0.1:{tap.port}"}, first
    return lines


class Server:
    """A server that sends these bytes, one at a time, once it has received so many others. Then it reads to the end."""

    def __init__(self, size, sent, pause=0.0):
        self.listener = socket.create_server(("127.0.0.1", 0))
        self.port = self.listener.getsockname()[1]
        threading.Thread(target=self.talk, args=(size, sent, pause), daemon=True).start()

    def talk(self, size, sent, pause):
        stream = self.listener.accept()[0]
        with stream, self.listener:
            stream.setsockopt(socket.IPPROTO_TCP, socket.TCP_NODELAY, 1)
            while size > 0:
                size -= len(stream.recv(65_536))
            time.sleep(pause)
            for index in range(len(sent)):
                stream.sendall(sent[index : index + 1])
            while stream.recv(65_536):
                pass


def types_of_replies():
    """Each command and each value has a line with its bytes, in pieces of any size."""
    names = [b"get", b"\xff", b"n" * 40] + [b"Cmd%d" % index for index in range(len(REPLIES) - 3)]
    shown = ["GET", {"base64": "/w=="}, "N" * 32] + [f"CMD{index}" for index in range(len(REPLIES) - 3)]
    asked = command(b"HELLO", b"3") + b"echo line\n" + b"".join(command(name, b"word") for name in names)
    hello, push = b"%0\r\n", b">1\r\n+news\r\n"
    sent = hello + b"+line\r\n" + push + b"".join(reply for reply, _, _ in REPLIES) + b":1\r\n"
    wanted = [{"kind": "command", "number": 1, "command": "HELLO", "words": 2, "size": 22},
              {"kind": "command", "number": 2, "command": "ECHO", "inline": True, "words": 2, "size": 10}]
    wanted += [{"kind": "command", "number": number, "command": name, "words": 2, "size": len(command(sent_name, b"word"))}
               for number, (name, sent_name) in enumerate(zip(shown, names), 3)]
    wanted += [{"kind": "reply", "number": 1, "command": "HELLO", "type": "map", "size": 4},
               {"kind": "reply", "number": 2, "command": "ECHO", "type": "simple", "size": 7},
               {"kind": "push", "type": "push", "size": len(push)}]
    for number, (name, (reply, kind, error)) in enumerate(zip(shown, REPLIES), 3):
        wanted.append({"kind": "reply", "number": number, "command": name, "type": kind, "size": len(reply)})
        if error is not None:
            wanted[-1]["error"] = error
    wanted.append({"kind": "value", "type": "integer", "size": 4})
    for by_bytes in (False, True):
        server = Server(len(asked), sent, pause=0.05)
        with running("tap", "--json", "127.0.0.1:0", f"127.0.0.1:{server.port}") as tap, connect(tap.port) as client:
            for piece in ([asked[i : i + 1] for i in range(len(asked))] if by_bytes else [asked]):
                client.sendall(piece)
            hear(client, sent)
            lines = until_lines(tap, lambda lines: lines[-1]["kind"] in ("value", "closed", "gone"))
            lines = [line for line in lines if line["kind"] not in ("closed", "gone")]
            for line in lines:
                assert line.pop("client") == 1, line
                if line["kind"] == "reply":
                    assert 50_000 <= line.pop("micros") < LIMIT * 1_000_000, line
            assert lines == wanted, [pair for pair in zip(lines, wanted) if pair[0] != pair[1]]


def filters_as_json():
    """Each filter prints the lines of the commands that it prints as text, and no password."""
    words = [(b"SET", b"user:1", b"a"), (b"GET", b"user:1"), (b"GET", b"other"), (b"AUTH", b"top-secret"), (b"NONE",)]
    for options, commands, replies in (
            ([], [1, 2, 3, 4, 5], [1, 2, 3, 4, 5]), (["--command", "get,auth"], [2, 3, 4], [2, 3, 4]), (["--key", "user:*"], [1, 2], [1, 2]),
            (["--errors"], [], [4, 5]), (["--errors", "--command", "NONE"], [], [5]), (["--slower", "10s"], [], []),
            (["--slower", "0us", "--key", "other"], [], [3]), (["--client", "2"], [], []), (["--time", "--show-passwords"], [1, 2, 3, 4, 5], [1, 2, 3, 4, 5]),
            (["--date"], [1, 2, 3, 4, 5], [1, 2, 3, 4, 5])):
        with running("serve", "127.0.0.1:0") as serve:
            with running("tap", "--json", *options, "127.0.0.1:0", f"127.0.0.1:{serve.port}") as tap:
                with connect(tap.port) as client:
                    client.sendall(b"".join(command(*each) for each in words))
                    client.shutdown(socket.SHUT_WR)
                    heard = hear_end(client)
                assert heard.count(b"\r\n") == 6, heard
                last = "2" if "--client" in options else "1"
                if last == "2" or options in ([], ["--date"], ["--time", "--show-passwords"]):
                    with connect(tap.port) as client:
                        ask(client, PING, PONG)
                    until(lambda: b'{"client":2,"kind":"gone"' in tap.printed(), "the second client has not gone")
                else:
                    # What is printed of a client is printed before its connection is closed.
                    time.sleep(0.3)
                lines = [line for line in lines_of(tap.printed())[1:] if line["client"] == 1]
                assert [line["number"] for line in lines if line["kind"] == "command"] == commands, (options, lines)
                assert [line["number"] for line in lines if line["kind"] == "reply"] == replies, (options, lines)
                for line in lines:
                    if line["kind"] == "reply":
                        assert line["command"] == words[line["number"] - 1][0].decode(), line
                assert b"top-secret" not in tap.printed(), tap.printed()


def connections_as_json():
    """Lines about connections have addresses, names, and the bytes of a value that is cut off."""
    hello = command(b"HELLO", b"2", b"SETNAME", b"worker")
    server = Server(len(hello), b"*0\r\n")
    words = ["tap", "--json", "--connections", "--max-clients", "1", "127.0.0.1:0", f"127.0.0.1:{server.port}"]
    with running(*words) as tap:
        with connect(tap.port) as client:
            address = f"127.0.0.1:{client.getsockname()[1]}"
            ask(client, hello, b"*0\r\n")
            client.sendall(b"*2\r\n$4\r\nEC")
            with connect(tap.port) as other:
                hear_end(other)
        lines = until_lines(tap, lambda lines: lines[-1]["kind"] == "gone")
    assert [line for line in lines if line["kind"] not in ("command", "reply")] == [
        {"client": 1, "kind": "connected", "from": address}, {"client": 2, "kind": "rejected"},
        {"client": 1, "kind": "closed", "side": "client", "name": "worker", "in": "command", "number": 2, "size": 10},
        {"client": 1, "kind": "gone", "name": "worker"}], lines
    with socket.create_server(("127.0.0.1", 0)) as free:
        port = free.getsockname()[1]
    with running("tap", "--json", "127.0.0.1:0", f"127.0.0.1:{port}") as tap:
        with connect(tap.port) as client:
            assert hear_end(client) == b""
        reason = f"cannot connect to 127.0.0.1:{port}: connection refused"
        assert until_lines(tap, lambda lines: len(lines) > 1) == [{"client": 1, "kind": "not_connected", "error": reason}]


def reader_that_misses_lines():
    """If nobody reads a pipe, whole lines are left out, and a line says how many bytes they have."""
    reader, writer = os.pipe()
    with running("serve", "127.0.0.1:0") as serve, os.fdopen(reader, "rb") as printed:
        words = [PROGRAM, "tap", "--json", "127.0.0.1:0", f"127.0.0.1:{serve.port}"]
        with subprocess.Popen(words, stdin=subprocess.DEVNULL, stdout=writer) as tap:
            os.close(writer)
            port = int(json.loads(printed.readline())["address"].split(":")[1])
            with connect(port) as client:
                for _ in range(100):
                    ask(client, PING * 100, PONG * 100)
            lines = []
            while not lines or lines[-1]["kind"] != "omitted":
                lines.append(json.loads(printed.readline()))
            with connect(port) as client:
                ask(client, PING, PONG)
            while lines[-1].get("client") != 2 or lines[-1]["kind"] != "gone":
                lines.append(json.loads(printed.readline()))
            tap.kill()
    omitted = [line for line in lines if line["kind"] == "omitted"]
    assert len(omitted) == 1 and omitted[0]["bytes"] > 100_000, omitted
    numbers = [line["number"] for line in lines if line["kind"] == "reply" and line["client"] == 1]
    assert numbers == list(range(1, len(numbers) + 1)) and len(numbers) > 3000, len(numbers)


TESTS = [types_of_replies, filters_as_json, connections_as_json, reader_that_misses_lines]

if __name__ == "__main__":
    for test in TESTS:
        test()
        print(test.__name__)
