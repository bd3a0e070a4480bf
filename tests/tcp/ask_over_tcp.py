"""Tests `resp ask`; tests/over_tcp runs them. They test that

- `ask` sends one command, or the commands of lines in a window of any size, and prints the replies with their numbers;
- `ask` reads the quoting of redis-cli, names a wrong line, and refuses a command without exactly one reply;
- `ask` sends AUTH with the password of the environment and HELLO 3, and prints pushes and a wrong reply;
- the reason of a failed device is printed if standard error is a terminal.
"""
import os
import pty
import re
import socket
import struct
import subprocess
import tempfile

from tap_over_tcp import pipe, read_to_end
from tcp_programs import LIMIT, PONG, PROGRAM, command, running


def run_ask(port, *words, lines=b"", environment=None):
    """Runs `ask` and returns its output, its errors and its status."""
    ran = subprocess.run([PROGRAM, "ask", *words[:-1], str(port), *words[-1]], input=lines, stdout=subprocess.PIPE,
                         stderr=subprocess.PIPE, timeout=LIMIT, env={**os.environ, **(environment or {})})
    return ran.stdout, ran.stderr, ran.returncode


def one_command():
    """The words of the command line are a command, also if they begin with a dash. The status is 1 after an error."""
    with running("serve", "127.0.0.1:0") as serve:
        assert run_ask(serve.port, ["SET", "-3", "a b"]) == (b'simple "OK" 2\n', b"", 0)
        assert run_ask(serve.port, ["GET", "-3"]) == (b'bulk "a b" 3\n', b"", 0)
        assert run_ask(serve.port, "-3", ["GET", "nothing"]) == (b"null\n", b"", 0)
        assert run_ask(serve.port, ["NOPE"]) == (b'error "ERR unknown command" 19\n', b"", 1)
        # No word after SERVER is an option, and the words may have any bytes.
        assert run_ask(serve.port, ["--json", "ECHO", "a"]) == (b'error "ERR unknown command" 19\n', b"", 1)
        assert run_ask(serve.port, ["ECHO", "--json"]) == (b'bulk "--json" 6\n', b"", 0)
        assert run_ask(serve.port, "--json", ["ECHO", "--help"]) == (b'"--help"\n', b"", 0)
        assert run_ask(serve.port, ["ECHO", b"\xff a\xc3("]) == (b'bulk "\\xff a\\xc3(" 5\n', b"", 0)
        no_text = b"error: a word of the command line is not UTF-8\n"
        assert run_ask(serve.port, "--user", b"\xff", ["ECHO", b"\xff"]) == (b"", no_text, 2)
        refused = b'"Monitor" is not sent: it does not have exactly one reply, or it changes the version\n'
        assert run_ask(serve.port, ["Monitor"]) == (b"", refused, 1)


def commands_of_lines():
    """Each line is a command, with the quoting of redis-cli. Lines of spaces are skipped."""
    lines = b'SET a "\\x41\\n\\"b" \r\n \t\nget a\nECHO \'it\\\'s \\n\'\nECHO x""\nNOPE\n\nPING'
    wanted = (b'reply 1\n  simple "OK" 2\nreply 2\n  bulk "A\\n\\"b" 4\nreply 3\n  bulk "it\'s \\\\n" 7\n'
              b'reply 4\n  bulk "x" 1\nreply 5\n  error "ERR unknown command" 19\nreply 6\n  simple "PONG" 4\n')
    with running("serve", "127.0.0.1:0") as serve:
        for window in ("1", "2", "3", "1000"):
            assert run_ask(serve.port, "--window", window, [], lines=lines) == (wanted, b"", 1)
        pong = b'reply 1\n  simple "PONG" 4\n'
        for line, why in ((b'GET "a', b"the quote at byte 4 is not closed"), (b"GET  x'a\\'", b"the quote at byte 6 is not closed"),
                          (b'GET "a"b', b"no space after the closing quote, at byte 7"),
                          (b"subscribe a", b'"subscribe" is not sent: it does not have exactly one reply, or it changes the version')):
            assert run_ask(serve.port, [], lines=b"PING\n" + line + b"\nPING\n") == (pong, b"line 2: " + why + b"\n", 1), line


def raw(*words):
    """The text of a command with these words."""
    return b"*%d\r\n" % len(words) + b"".join(b"$%d\r\n%s\r\n" % (len(word), word) for word in words)


def raw_commands():
    """With `--raw` standard input is commands as clients send them. Empty arrays and null are passed over."""
    commands = raw(b"SET", b"a", b"\0\r\n\xff") + b"*0\r\n*-1\r\n" + raw(b"GET", b"a") + raw(b"NOPE") + raw(b"PING")
    wanted = (b'reply 1\n  simple "OK" 2\nreply 2\n  bulk "\\x00\\r\\n\\xff" 4\nreply 3\n  error "ERR unknown command" 19\n'
              b'reply 4\n  simple "PONG" 4\n')
    texts = [b"%d" % number * (number % 7 * 1_000 + 1) for number in range(500)] + [b"x" * 3_000_000, b"y" * 200_000]
    echoed = b"".join(b'reply %d\n  bulk "%s" %d\n' % (at + 1, text, len(text)) for at, text in enumerate(texts))
    with running("serve", "127.0.0.1:0") as serve:
        for window in ("1", "2", "3", "1000"):
            assert run_ask(serve.port, "--raw", "--window", window, [], lines=commands) == (wanted, b"", 1)
            echoes = b"".join(raw(b"ECHO", text) for text in texts)
            assert run_ask(serve.port, "--raw", "--window", window, [], lines=echoes) == (echoed, b"", 0), window
        assert run_ask(serve.port, "--raw", [], lines=b"") == (b"", b"", 0)
        counted = run_ask(serve.port, "--raw", "--count", [], lines=raw(b"PING") * 50_000)
        assert re.fullmatch(rb"replies 50000 errors 0 seconds \d+\.\d{3} per second \d+\n", counted[0]), counted
        assert counted[1:] == (b"", 0), counted
        # The commands before a wrong byte are sent, and have their replies.
        pong, ping = b'reply 1\n  simple "PONG" 4\n', raw(b"PING")
        for rest, why in ((b"PING\r\n", b"Syntax at byte 0"), (b"*1\r\n$4\r\nPINGS\r\n", b"Syntax at byte 12"), (ping[:-1], b"Truncated at byte 13"),
                          (b"*1\r\n:1\r\n", b"the value is not an array of bulk strings"),
                          (b"+PING\r\n", b"the value is not an array of bulk strings"),
                          (raw(b"Subscribe", b"a"), b'"Subscribe" is not sent: it does not have exactly one reply, or it changes the version')):
            assert run_ask(serve.port, "--raw", [], lines=ping + rest) == (pong, b"command 2: " + why + b"\n", 1), rest


def many_lines():
    """Each reply has the number of its command, whatever the window. Large commands and replies stop nothing."""
    texts = [b"%d" % number * (number % 7 * 1_000 + 1) for number in range(500)] + [b"x" * 3_000_000, b"y" * 200_000]
    lines = b"".join(b"ECHO %s\n" % text for text in texts)
    wanted = b"".join(b'reply %d\n  bulk "%s" %d\n' % (at + 1, text, len(text)) for at, text in enumerate(texts))
    with running("serve", "127.0.0.1:0") as serve:
        for window in ("1", "2", "7", "1000"):
            assert run_ask(serve.port, "--window", window, [], lines=lines) == (wanted, b"", 0), window
        counted = run_ask(serve.port, "--count", [], lines=lines + b"NOPE\n")
        assert re.fullmatch(rb"replies 503 errors 1 seconds \d+\.\d{3} per second \d+\n", counted[0]) and counted[2] == 1, counted
        # The numbers are printed after a wrong line too.
        output, errors, status = run_ask(serve.port, "--count", [], lines=b'PING\nNOPE\nGET "a\nPING\n')
        assert re.fullmatch(rb"replies 2 errors 1 seconds \d+\.\d{3} per second \d+\n", output), output
        assert (errors, status) == (b"line 3: the quote at byte 4 is not closed\n", 1), errors


def lines_that_come_slowly():
    """A reply is printed before the next line is read."""
    with running("serve", "127.0.0.1:0") as serve:
        words = [PROGRAM, "ask", str(serve.port)]
        with subprocess.Popen(words, stdin=subprocess.PIPE, stdout=subprocess.PIPE, bufsize=0) as asking:
            for number in range(1, 4):
                asking.stdin.write(b"PING\n")
                wanted = b'reply %d\n  simple "PONG" 4\n' % number
                assert asking.stdout.read(len(wanted)) == wanted
            asking.stdin.close()
            assert asking.wait(LIMIT) == 0


def answered_by(text, *words, environment=None):
    """Runs `ask` against a server that sends this text, and returns its output, and what the server received."""
    with socket.create_server(("127.0.0.1", 0)) as server:
        port = server.getsockname()[1]
        words = [PROGRAM, "ask", *words[:-1], str(port), *words[-1]]
        with subprocess.Popen(words, stdin=subprocess.DEVNULL, stdout=subprocess.PIPE, stderr=subprocess.PIPE,
                              env={**os.environ, **(environment or {})}) as asking:
            stream = server.accept()[0]
            with stream:
                stream.settimeout(LIMIT)
                heard = b""
                for part in text:
                    heard += stream.recv(65_536)
                    stream.sendall(part)
                stream.shutdown(socket.SHUT_WR)
                output, errors = asking.communicate(timeout=LIMIT)
    return output, errors, asking.returncode, heard


def servers_of_ask():
    """AUTH and HELLO 3 are sent first. Pushes have no number. A wrong reply and an end are named."""
    auth, hello = command(b"AUTH", b"anna", b"secret"), command(b"HELLO", b"3")
    secret = {"RESP_PASSWORD": "secret"}
    replies = [b"+OK\r\n", b"%1\r\n+proto\r\n:3\r\n", b">1\r\n+tick\r\n,1.5\r\n"]
    wanted = b'push\n  simple "tick" 4\nend 1\ndouble "1.5" 3\n'
    got = answered_by(replies, "-3", "--user", "anna", ["ZSCORE", "z", "m"], environment=secret)
    assert got == (wanted, b"", 0, auth + hello + command(b"ZSCORE", b"z", b"m")), got
    got = answered_by([b"-WRONGPASS no\r\n"], ["PING"], environment=secret)
    assert got == (b'error "WRONGPASS no" 12\n', b"", 1, command(b"AUTH", b"secret")), got
    got = answered_by([b"+OK\r\n", b"-NOPROTO no\r\n"], "-3", ["PING"], environment=secret)
    assert got == (b'error "NOPROTO no" 10\n', b"", 1, command(b"AUTH", b"secret") + hello), got
    assert answered_by([b"*1\r\n:x\r\n"], ["PING"])[:3] == (b"", b"reply 1: Syntax at byte 5\n", 1)
    assert answered_by([b"+O"], ["PING"])[:3] == (b"", b"read failed: the server closed the connection\n", 3)
    assert answered_by([b"!5\r\nwrong\r\n"], ["PING"])[:3] == (b"", b"reply 1: Version at byte 0\n", 1)


def reasons_of_ask():
    """`ask` says why its connection, its input or its output failed, if standard error is a terminal."""
    def run(ends, stdin, stdout, closes):
        reader, writer = ends()
        with socket.create_server(("127.0.0.1", 0)) as server:
            words = [PROGRAM, "ask", str(server.getsockname()[1])]
            with subprocess.Popen(words, stdin=stdin, stdout=stdout, stderr=writer) as asking:
                os.close(writer)
                stream = server.accept()[0]
                with stream:
                    stream.settimeout(LIMIT)
                    if closes and stream.recv(65_536):
                        stream.setsockopt(socket.SOL_SOCKET, socket.SO_LINGER, struct.pack("ii", 1, 0))
                        stream.close()
                    elif stdin != folder:
                        stream.sendall(PONG)
                    asking.wait(LIMIT)
        return read_to_end(reader).replace(b"\r\n", b"\n"), asking.returncode

    folder = os.open("/", os.O_RDONLY)
    full = os.open("/dev/full", os.O_WRONLY)
    with tempfile.TemporaryFile() as lines:
        lines.write(b"PING\n")
        for ends, explains in ((pty.openpty, True), (pipe, False)):
            for stdin, stdout, closes, line, reason in (
                    (lines.fileno(), subprocess.DEVNULL, True, b"read failed\n", b"  Connection reset by peer (os error 104)\n"),
                    (lines.fileno(), full, False, b"write failed\n", b"  No space left on device (os error 28)\n"),
                    (folder, subprocess.DEVNULL, False, b"read failed\n", b"  Is a directory (os error 21)\n")):
                lines.seek(0)
                got = run(ends, stdin, stdout, closes)
                assert got == (line + (reason if explains else b""), 3), (ends.__name__, got, reason)
    os.close(folder)
    os.close(full)


def json_of_ask():
    """With --json each reply and each push is a line of JSON, also the error in reply to AUTH. --count prints no JSON."""
    lines = b'SET a "\\xff\\""\nGET a\nGET none\nDEL a\nNOPE\nECHO "\\"\\n"\n'
    wanted = (b'{"simple":"OK"}\n{"base64":"/yI="}\nnull\n1\n{"error":"ERR unknown command"}\n"\\"\\n"\n')
    with running("serve", "127.0.0.1:0") as serve:
        assert run_ask(serve.port, "--json", ["PING"]) == (b'{"simple":"PONG"}\n', b"", 0)
        for window in ("1", "2", "1000"):
            assert run_ask(serve.port, "--json", "--window", window, [], lines=lines) == (wanted, b"", 1), window
        counted = run_ask(serve.port, "--json", "--count", [], lines=b"PING\n")
        assert counted[0].startswith(b"replies 1 errors 0 ") and counted[1:] == (b"", 0), counted
    secret = {"RESP_PASSWORD": "secret"}
    replies = [b"%1\r\n+proto\r\n:3\r\n", b">2\r\n+tick\r\n,1.5\r\n|1\r\n+a\r\n:1\r\n%1\r\n$1\r\nk\r\n_\r\n"]
    got = answered_by(replies, "-3", "--json", ["HGETALL", "h"])[:3]
    wanted = b'{"push":[{"simple":"tick"},{"double":"1.5"}]}\n{"attribute":[[{"simple":"a"},1]],"of":{"map":{"k":null}}}\n'
    assert got == (wanted, b"", 0), got
    got = answered_by([b"-WRONGPASS no\r\n"], "--json", ["PING"], environment=secret)[:3]
    assert got == (b'{"error":"WRONGPASS no"}\n', b"", 1), got
    assert answered_by([b"*1\r\n:x\r\n"], "--json", ["PING"])[:3] == (b"", b"reply 1: Syntax at byte 5\n", 1)


TESTS = [one_command, commands_of_lines, raw_commands, many_lines, lines_that_come_slowly, servers_of_ask,
         json_of_ask, reasons_of_ask]
