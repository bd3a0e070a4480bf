"""Tests `resp tap` in front of redis-server: tapped.py SERVER TAP LOG TIMED TIMED_LOG

SERVER, TAP and TIMED are the ports of the server, of a tap, and of a tap with --time. LOG and TIMED_LOG are the files
to which the two taps print. It tests that

- redis-cli prints the same with and without the tap, in both versions, and the tap prints its commands and replies;
- a HELLO 3 in the middle of a pipeline changes the version of the later replies;
- SUBSCRIBE and its like are answered by arrays in version 2 and by pushes in version 3, or by an error, and the replies
  after them are paired;
- after MONITOR values are not paired, and after RESET they are;
- an error of the client leaves the replies that are due paired;
- each command of the server's table but those that end the pairing has one reply;
- passwords are printed as redis-server prints them for MONITOR and SLOWLOG;
- printed times ascend, and the delay of a reply is at least as long as its command blocked;
- redis-benchmark in pipelines of 16 reaches at least a tenth of its speed without the tap."""
import re
import socket
import subprocess
import sys
import time

server, tap, timed = int(sys.argv[1]), int(sys.argv[2]), int(sys.argv[4])


def printed(log=sys.argv[3]):
    """Returns what a tap has printed so far."""
    with open(log, encoding="utf-8") as file:
        return file.read()


def waits_for(text, log=sys.argv[3]):
    """Waits until a tap has printed a text.

    If the text begins with a client, the lines about other clients may stand between its lines.
    """
    client = re.match(r"client \d+ ", text)
    for _ in range(200):
        seen = printed(log)
        if client:
            seen = "".join(re.findall(f"^{client[0]}.*\n(?:  .*\n)*", seen, re.MULTILINE))
        if text in seen:
            return
        time.sleep(0.1)
    raise AssertionError(f"not printed: {text!r}; but {seen[-2000:]!r}")


def command(*words):
    """Returns the encoding of a command."""
    parts = [f"*{len(words)}\r\n"] + [f"${len(word)}\r\n{word}\r\n" for word in words]
    return "".join(parts).encode()


def talk(port, sent, end):
    """Sends bytes, and returns the reply up to and including this end."""
    with socket.create_connection(("127.0.0.1", port), 10) as peer:
        peer.sendall(sent)
        heard = b""
        while not heard.endswith(end):
            piece = peer.recv(65536)
            assert piece, heard
            heard += piece
        return heard


def cli(port, *words):
    """Returns the output of redis-cli."""
    return subprocess.run(["redis-cli", "-p", str(port), *words], capture_output=True, timeout=20, check=True).stdout


for words in (["SET", "tapped", "1"], ["-3", "GET", "tapped"], ["INCR", "tapped"], ["-3", "LRANGE", "none", "0", "-1"],
              ["GET", "no such key"], ["NOCOMMAND"]):
    if words[0] == "INCR":
        cli(server, "SET", "tapped", "1")
    direct = cli(server, *words)
    if words[0] == "INCR":
        cli(server, "SET", "tapped", "1")
    assert cli(tap, *words) == direct, words
waits_for('  "SET" "tapped" "1"\n')
waits_for('client 3 command 1\n  "INCR" "tapped"\nclient 3 reply 1\n  int 2\nclient 3 closed\nclient 3 gone\n')

# A pipeline with HELLO 3 in the middle. A null and a double show the version.
pipeline = [command("ZADD", "scores", "1.5", "m"), command("GET", "no such key"), command("HELLO", "3"),
            command("GET", "no such key"), command("ZSCORE", "scores", "m")]
heard = talk(tap, b"".join(pipeline), b",1.5\r\n")
assert b"\r\n$-1\r\n%" in heard and heard.endswith(b"_\r\n,1.5\r\n"), heard
waits_for("client 7 reply 2\n  null\nclient 7 reply 3\n  map\n")
waits_for('client 7 reply 4\n  null\nclient 7 reply 5\n  double "1.5" 3\nclient 7 closed\nclient 7 gone\n')

def client_of(asked):
    """Returns the number of the last client with this first command, as it is printed."""
    waits_for("\n  " + asked + "\n")
    return re.findall(r"client (\d+) command 1(?: inline)?\n  " + re.escape(asked) + "\n", printed())[-1]


# In version 2 SUBSCRIBE is answered by arrays, and messages belong to no command.
with socket.create_connection(("127.0.0.1", tap), 10) as peer:
    def ask(sent, end):
        """Sends bytes, and reads up to and including this end."""
        peer.sendall(sent)
        heard = b""
        while not heard.endswith(end):
            heard += peer.recv(65536)

    ask(command("ECHO", "first two") + command("SUBSCRIBE", "a", "b"), b"$1\r\nb\r\n:2\r\n")
    cli(server, "PUBLISH", "b", "hi")
    ask(b"", b"$2\r\nhi\r\n")
    ask(command("PSUBSCRIBE", "p*"), b":3\r\n")
    cli(server, "PUBLISH", "pq", "deep")
    ask(b"", b"$4\r\ndeep\r\n")
    ask(command("PING") + command("GET", "k") + command("UNSUBSCRIBE"), b":1\r\n")
    ask(command("PUNSUBSCRIBE") + command("UNSUBSCRIBE") + command("ECHO", "free"), b"free\r\n")
number = client_of('"ECHO" "first two"')
for text in ('reply 2\n  array\n    bulk "subscribe" 9\n    bulk "b" 1\n    int 2\n  end 3\n',
             'value\n  array\n    bulk "message" 7\n    bulk "b" 1\n    bulk "hi" 2\n  end 3\n',
             'value\n  array\n    bulk "pmessage" 8\n', 'reply 4\n  array\n    bulk "pong" 4\n',
             'reply 5\n  error "ERR Can', 'reply 6\n  array\n    bulk "unsubscribe" 11\n',
             'reply 7\n  array\n    bulk "punsubscribe" 12\n', 'reply 8\n  array\n    bulk "unsubscribe" 11\n    null\n',
             'reply 9\n  bulk "free" 4\n'):
    waits_for(f"client {number} {text}")

# In version 3 SUBSCRIBE is answered by pushes, or by an error.
cli(server, "ACL", "SETUSER", "bob", "on", "nopass", "+@all", "~*", "resetchannels", "&a*")
talk(tap, command("ECHO", "first three") + command("HELLO", "3", "AUTH", "bob", "x") + command("SUBSCRIBE", "a1", "a2") +
     command("SUBSCRIBE", "b") + command("PUBLISH", "a1", "hi") + command("SSUBSCRIBE", "a3") + command("UNSUBSCRIBE") +
     command("MULTI") + command("SUBSCRIBE", "a4") + command("DISCARD") + command("SUNSUBSCRIBE") +
     command("UNSUBSCRIBE") + command("ECHO", "free"), b"free\r\n")
number = client_of('"ECHO" "first three"')
for text in ('push\n  push\n    bulk "subscribe" 9\n    bulk "a2" 2\n', 'reply 4\n  error "NOPERM',
             'push\n  push\n    bulk "message" 7\n', 'reply 5\n  int 1\n', 'push\n  push\n    bulk "ssubscribe" 10\n',
             'push\n  push\n    bulk "unsubscribe" 11\n', 'reply 8\n  simple "OK" 2\n',
             'reply 9\n  simple "QUEUED" 6\n', 'reply 10\n  simple "OK" 2\n', 'reply 13\n  bulk "free" 4\n'):
    waits_for(f"client {number} {text}")
cli(server, "ACL", "DELUSER", "bob")

# After MONITOR values are paired with no command. Pairing begins again with the reply to RESET.
talk(tap, command("ECHO", "first of all") + command("MONITOR") + command("PING") + command("RESET") +
     command("ECHO", "paired"), b"paired\r\n")
number = client_of('"ECHO" "first of all"')
waits_for(f'client {number} value\n  simple "OK" 2\nclient {number} value\n  simple "')
waits_for(f'client {number} reply 4\n  simple "RESET" 5\nclient {number} reply 5\n  bulk "paired" 6\n')
talk(tap, command("ECHO", "first of none") + command("CLIENT", "REPLY", "OFF") + command("PING") + command("RESET") +
     command("ECHO", "paired"), b"paired\r\n")
number = client_of('"ECHO" "first of none"')
waits_for(f'client {number} reply 4\n  simple "RESET" 5\nclient {number} reply 5\n  bulk "paired" 6\n')

# A command may be a line, and an empty line is no command, as for the server.
assert talk(tap, b"\r\nECHO 'of a line'\r\n" + command("ECHO", "of an array"), b"an array\r\n").endswith(b"of an array\r\n")
number = client_of('"ECHO" "of a line"')
waits_for(f'client {number} reply 1\n  bulk "of a line" 9\nclient {number} reply 2\n  bulk "of an array" 11\n')

# After a line with a wrong quote the tap prints the server's error as a value.
assert talk(tap, b"ECHO 'a\r\n", b"\r\n").startswith(b"-ERR Protocol error")
waits_for("refused Syntax at byte 5 of command 1\n")
number = re.findall(r"client (\d+) refused Syntax at byte 5 of command 1\n", printed())[-1]
waits_for(f'client {number} value\n  error "ERR Protocol error')

# A reply of 16 MiB, in many pieces, is forwarded unchanged.
cli(server, "SETRANGE", "large", str((1 << 24) - 1), "x")
whole = talk(server, command("GET", "large"), b"x\r\n")
assert talk(tap, command("GET", "large"), b"x\r\n") == whole


def told(line, text):
    """Returns the time of day and the delay, or None, that a line has after this text, in microseconds."""
    found = re.fullmatch(re.escape(text) + r" at (\d\d):(\d\d):(\d\d)\.(\d{6})(?: after (\d+)\.(\d{6}) s)?", line)
    assert found, (line, text)
    hours, minutes, seconds, micros, whole, part = (int(it) if it else 0 for it in found.groups())
    assert hours < 24 and minutes < 60 and seconds < 60, line
    delay = None if found[5] is None else 1000000 * whole + part
    return 1000000 * (3600 * hours + 60 * minutes + seconds) + micros, delay


# A command that blocks for 0.2 seconds and the next command of its pipeline both have this delay.
before = time.time()
talk(timed, command("BLPOP", "no such list", "0.2") + command("PING"), b"+PONG\r\n")
waits_for("client 1 gone", sys.argv[5])
after = time.time()
lines = [line for line in printed(sys.argv[5]).splitlines() if line.startswith("client ")]
wanted = ["client 1 command 1", "client 1 command 2", "client 1 reply 1", "client 1 reply 2", "client 1 closed",
          "client 1 gone"]
assert len(lines) == len(wanted), lines
moments = [told(line, text) for line, text in zip(lines, wanted)]
DAY = 86400000000
# The age of each time since the test began, which may have been before midnight.
ages = [(of_day - int(before * 1000000)) % DAY for of_day, _ in moments]
assert ages == sorted(ages) and ages[-1] <= (after - before) * 1000000 + 1, (ages, lines)
assert [delay is not None for _, delay in moments] == [False, False, True, True, False, False], lines
# The server's timer may be a tick early.
assert all(delay >= 180000 for _, delay in moments if delay is not None), lines
assert not re.search(r" at \d\d:\d\d:", printed()), "a time that wasn't asked for"

# After a wrong byte the reply that is due is paired, and the error of the server is a value.
talk(tap, command("PING") + b"*1\r\n:1\r\n", b"got ':'\r\n")
waits_for("refused NotCommand at byte 0 of command 2\n")
number = re.findall(r"client (\d+) refused NotCommand at byte 0 of command 2\n", printed())[-1]
waits_for(f'client {number} reply 1\n  simple "PONG" 4\nclient {number} value\n  error "ERR Protocol error: expected')

# After RESET the version is 2. A version of a null shows it.
assert talk(tap, command("HELLO", "3") + command("RESET") + command("GET", "no such key"), b"$-1\r\n")
waits_for('reply 2\n  simple "RESET" 5\n')
number = re.findall(r"client (\d+) reply 2\n  simple \"RESET\" 5\n", printed())[-1]
waits_for(f"client {number} reply 3\n  null\n")

# These commands have no reply. After the last one values are not paired.
for words, told in ((["REPLCONF", "ACK", "1"], "reply 2"), (["REPLCONF", "GETACK", "*"], "reply 2"),
                    (["REPLCONF", "listening-port", "1", "ACK", "5"], "value")):
    assert talk(tap, command(*words) + command("ECHO", "mark"), b"mark\r\n") == b"$4\r\nmark\r\n", words
    asked = " ".join(f'"{word}"' for word in words)
    waits_for(f'client {client_of(asked)} {told}\n  bulk "mark" 4\n')

# Each other command has one reply: that to an ECHO after it is paired with the ECHO.
unpaired = {"subscribe", "unsubscribe", "psubscribe", "punsubscribe", "ssubscribe", "sunsubscribe", "monitor", "sync",
            "psync"}
ends = {"quit", "shutdown", "replicaof", "slaveof", "failover", "reset", "multi", "debug", "save", "flushall", "flushdb"}
with socket.create_connection(("127.0.0.1", server), 10) as peer:
    lines = peer.makefile("rb")

    def read():
        """Returns a value of version 2."""
        line = lines.readline()
        if line[:1] == b"$":
            return lines.read(int(line[1:]) + 2)[:-2]
        return [read() for _ in range(int(line[1:]))] if line[:1] in b"*~" else line[1:-2]

    peer.sendall(command("COMMAND"))
    table = {it[0].decode(): int(it[1]) for it in read()}
assert len(table) > 200, table
with socket.create_connection(("127.0.0.1", tap), 10) as peer:
    names = sorted(table.keys() - unpaired - ends)
    for name in names:
        peer.sendall(command(name, *["1"] * (abs(table[name]) - 1)) + command("ECHO", f"mark {name}"))
        heard = b""
        while not heard.endswith(f"mark {name}\r\n".encode()):
            heard += peer.recv(65536)
for number, name in enumerate(names):
    waits_for(f'reply {2 * number + 2}\n  bulk "mark {name}" {len(name) + 5}\n')

# Secret words are printed as MONITOR of redis-server prints them.
secret = [["AUTH", "sesame"], ["AUTH", "ann", "sesame"], ["HELLO", "3", "AUTH", "ann", "sesame", "SETNAME", "me"],
          ["HELLO", "3", "SETNAME", "AUTH"], ["HELLO", "2", "AUTH", "ann", "sesame"],
          ["MIGRATE", "127.0.0.1", "1", "", "0", "10", "COPY", "AUTH", "sesame", "KEYS", "a"],
          ["MIGRATE", "127.0.0.1", "1", "", "0", "10", "AUTH2", "ann", "sesame", "KEYS", "a"], ["GET", "auth"]]
with socket.create_connection(("127.0.0.1", server), 10) as monitor:
    monitor.sendall(command("MONITOR"))
    shown = b""
    with socket.create_connection(("127.0.0.1", tap), 10) as peer:
        for words in secret:
            peer.sendall(command(*words))
            assert peer.recv(65536)
    while shown.count(b"\r\n") < len(secret) + 1:
        shown += monitor.recv(65536)
lines = [line.partition("] ")[2] for line in shown.decode().split("\r\n")[1:-1]]
assert len(lines) == len(secret) and lines[-1] == '"GET" "auth"', lines
for line in lines:
    waits_for(f"\n  {line}\n")

# SLOWLOG hides the same words of commands that MONITOR leaves out.
cli(server, "CONFIG", "SET", "slowlog-log-slower-than", "0")
for words, wanted in ((["CONFIG", "SET", "masterauth", "sesame", "maxclients", "9000", "masteruser", "ann"],
                       ["CONFIG", "SET", "masterauth", "(redacted)", "maxclients", "9000", "masteruser", "(redacted)"]),
                      (["ACL", "SETUSER", "ann", "on", ">sesame"],
                       ["ACL", "SETUSER", "(redacted)", "(redacted)", "(redacted)"])):
    cli(tap, *words)
    assert "\n".join(wanted) in cli(server, "SLOWLOG", "GET", "1").decode(), words
    waits_for("\n  " + " ".join(f'"{word}"' for word in wanted) + "\n")
cli(server, "CONFIG", "SET", "slowlog-log-slower-than", "10000", "masterauth", "", "masteruser", "")
cli(server, "ACL", "DELUSER", "ann")
assert "sesame" not in printed()


def rate(port):
    """Returns the GETs a second that redis-benchmark reports."""
    words = ["redis-benchmark", "-p", str(port), "-P", "16", "-n", "200000", "-q", "-t", "get"]
    said = subprocess.run(words, capture_output=True, timeout=80, check=True).stdout.decode()
    return float(re.findall(r"GET: ([0-9.]+) requests per second", said.replace("\r", "\n"))[-1])


# The best of three runs, because other load on the machine may slow one of them.
alone = max(rate(server) for _ in range(3))
through = max(rate(tap) for _ in range(3))
assert 10 * through >= alone, f"{through} commands a second through the tap, and {alone} without it"
print(f"{through:.0f} commands a second through the tap, and {alone:.0f} without it")
