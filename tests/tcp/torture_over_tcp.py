"""Tests `resp serve --torture` over TCP on this machine; tests/over_tcp runs it. It tests that

- for the seeds 1 to 50 each reply means the same as without the option, in both versions and after each HELLO;
- each encoding that docs/program.md lists is sent for some seed, and no other;
- one seed has the same bytes in each connection, and without the option the bytes are the usual ones;
- a large reply and the replies before QUIT arrive whole, and then the end;
- a server that drains sends the rest first, and a server whose clients have all bytes uses no processor.
"""
import re
import signal

from drains_over_tcp import blocking
from tcp_programs import LIMIT, PING, at_once, command, connect, hear, hear_end, running

SEEDS = range(1, 51)
LINES = b"a\r\nb"
LONG = b"long " * 20


class Wrong(str):
    """The text of an error."""


class Reader:
    """Reads replies strictly: each form only in its version. It notes the forms that come, by their first bytes."""

    def __init__(self, stream):
        self.stream, self.left, self.version, self.forms = stream, b"", 2, set()

    def until(self, holds):
        while not holds():
            piece = self.stream.recv(65_536)
            assert piece, f"the end of the stream after {self.left[-100:]}"
            self.left += piece

    def line(self):
        self.until(lambda: b"\r\n" in self.left)
        line, _, self.left = self.left.partition(b"\r\n")
        return line

    def content(self, size):
        self.until(lambda: len(self.left) >= size + 2)
        text, end, self.left = self.left[:size], self.left[size : size + 2], self.left[size + 2 :]
        assert end == b"\r\n", end
        return text

    def reply(self):
        kind, text = self.head()
        if kind == "|":
            assert self.version == 3, "an attribute in version 2"
            self.members(2 * int(text))
            kind, text = self.head()
        return self.value(kind, text)

    def head(self):
        line = self.line()
        kind, text = chr(line[0]), line[1:].decode("latin1")
        is_null = kind in "$*" and text == "-1"
        self.forms.add((self.version, kind + text if is_null else kind + "+" if text[:1] == "+" and kind == ":" else kind))
        return kind, text

    def members(self, count):
        return [self.value(*self.head()) for _ in range(count)]

    def value(self, kind, text):
        assert kind in ("+-:$*" if self.version == 2 else "+-:$*_!=%"), (kind, text)
        if text == "-1" and kind in "$*":
            assert self.version == 2, "a null of version 2 in version 3"
            return None
        if kind in "+-:":
            return {"+": lambda: text.encode("latin1"), "-": lambda: Wrong(text), ":": lambda: number(text)}[kind]()
        if kind == "_":
            assert text == "", text
            return None
        assert re.fullmatch("[0-9]+", text), text
        if kind in "$!=":
            content = self.content(int(text))
            assert kind != "=" or content.startswith(b"txt:"), content
            return Wrong(content.decode("latin1")) if kind == "!" else content[4:] if kind == "=" else content
        return self.members(int(text) * (2 if kind == "%" else 1))


def number(text):
    assert re.fullmatch("[+-]?[0-9]+", text), text
    return int(text)


# The commands of a conversation, with what their replies mean.
ASKED = [
    ((b"PING",), b"PONG"),
    ((b"SET", b"a", b"one"), b"OK"),
    ((b"GET", b"a"), b"one"),
    ((b"GET", b"none"), None),
    ((b"SET", b"none", b"x", b"XX"), None),
    ((b"ECHO", b""), b""),
    ((b"ECHO", LINES), LINES),
    ((b"ECHO", LONG), LONG),
    ((b"ECHO", b"\xff"), b"\xff"),
    ((b"DEL", b"a", b"none"), 1),
    ((b"DEL", b"a"), 0),
    ((b"WRONG",), Wrong("ERR unknown command")),
]


def greeting(version):
    return [b"server", b"resp_loop", b"version", b"1.0.0", b"proto", version, b"id", None, b"mode", b"standalone", b"role",
            b"master", b"modules", []]


def converse(stream):
    """Sends all commands at once, in version 2, in version 3 and in version 2 again. Returns the forms of the replies."""
    commands = b"".join(command(*words) for words, _ in ASKED)
    stream.sendall(commands + command(b"HELLO", b"3") + commands + command(b"HELLO", b"2") + commands)
    reader = Reader(stream)
    for version, is_greeted in ((2, False), (3, True), (2, True)):
        reader.version = version
        if is_greeted:
            greeted = reader.reply()
            assert type(greeted[7]) is int, greeted
            assert [*greeted[:7], None, *greeted[8:]] == greeting(version), greeted
        for words, meaning in ASKED:
            reply = reader.reply()
            assert reply == meaning and type(reply) is type(meaning), (version, words, reply)
    assert reader.left == b"", reader.left
    return reader.forms


# The first bytes of the encodings that docs/program.md lists, by version.
FORMS = {(2, form) for form in ("+", "$", ":", ":+", "-", "$-1", "*-1", "*")} | \
    {(3, form) for form in ("+", "$", "=", ":", ":+", "-", "!", "_", "|", "%", "*")}


def meanings_of_replies():
    forms = set()

    def has_meanings(seeds):
        for seed in seeds:
            with running("serve", "--torture", str(seed), "127.0.0.1:0") as serve, connect(serve.port) as stream:
                forms.update(converse(stream))

    at_once(has_meanings, [SEEDS[first::5] for first in range(5)])
    assert forms == FORMS, forms ^ FORMS


def bytes_of_a_seed():
    """Two connections have the same bytes, and two seeds have others."""
    def replies(*options):
        with running("serve", *options, "127.0.0.1:0") as serve:
            texts = []
            for _ in range(2):
                with connect(serve.port) as stream:
                    stream.sendall(b"".join(command(*words) for words, _ in ASKED))
                    stream.shutdown(1)
                    texts.append(hear_end(stream))
            assert texts[0] == texts[1], texts
            return texts[0]

    plain = (b"+PONG\r\n+OK\r\n$3\r\none\r\n$-1\r\n$-1\r\n$0\r\n\r\n$4\r\na\r\nb\r\n$100\r\n" + LONG +
             b"\r\n$1\r\n\xff\r\n:1\r\n:0\r\n-ERR unknown command\r\n")
    assert replies() == plain and replies("--torture", "0") == plain, "the bytes without the option"
    tortured = {replies("--torture", str(seed)) for seed in range(1, 9)}
    assert len(tortured) > 4 and tortured != {plain}, tortured
    assert replies("--torture", "7") == replies("--torture", "7"), "two servers with one seed"


def ends_of_connections():
    """All bytes come before the end: of a large reply, of replies before QUIT, and of a server that drains."""
    large = bytes(range(256)) * 40
    with running("serve", "--test-server", "--torture", "3", "127.0.0.1:0") as serve:
        with connect(serve.port) as stream:
            stream.sendall(command(b"ECHO", large) + command(b"SET", b"a", b"1") + command(b"QUIT") + PING)
            reader = Reader(stream)
            assert [reader.reply() for _ in range(3)] == [large, b"OK", b"OK"]
            assert reader.left == b"" and stream.recv(1) == b"", "bytes after QUIT"
        with connect(serve.port) as stream:
            reader = Reader(stream)
            stream.sendall(PING)
            assert reader.reply() == b"PONG"
            serve.is_idle()
            stream.sendall(PING)
            assert reader.reply() == b"PONG"
    # An error may be longer than the strings that a client may send.
    with running("serve", "--test-server", "--torture", "3", "--length", "64", "127.0.0.1:0") as serve:
        with connect(serve.port) as stream:
            reader, word = Reader(stream), b"x" * 64
            stream.sendall(command(b"CLIENT", word) + PING)
            assert reader.reply() == Wrong(f"ERR unknown subcommand '{word.decode()}'. Try CLIENT HELP.")
            assert reader.reply() == b"PONG"
    with blocking("serve", "--torture", "3", "127.0.0.1:0") as (ran, port, _), connect(port) as stream:
        stream.sendall(command(b"ECHO", large))
        hear(stream, b"$")
        ran.send_signal(signal.SIGTERM)
        assert hear_end(stream) == b"%d\r\n%s\r\n" % (len(large), large)
        stream.close()
        assert ran.wait(LIMIT) == 0


TESTS = [meanings_of_replies, bytes_of_a_seed, ends_of_connections]
