"""Reads replies of redis-server in version 3, with doubles: doubles_of_redis.py PORT PROGRAM

It sends more than 200 commands in one pipeline and gives the replies to `PROGRAM canon`, `check` and `show`. With
`--doubles` all replies must be accepted, and the output of `canon` must read as the same values. Without it the first
double must be rejected.
"""

import socket
import subprocess
import sys

port, program = int(sys.argv[1]), sys.argv[2]
NUMBERS = ["3.14", "-1.5", "0", "-0", "inf", "-inf", "1e20", "1e-7", "17", "0.1", "123456789.125"]
MEMBERS = " ".join(f"{number} m{at}" for at, number in enumerate(NUMBERS))

SETS = [
    f"ZADD z {MEMBERS}",
    "ZADD y 1 a 2.5 b 3 m0",
    *(f"ZSCORE z m{at}" for at in range(len(NUMBERS) + 1)),
    "ZMSCORE z m0 nobody m4 m5",
    "ZMSCORE nothing a b",
    *(f"ZINCRBY z {number} n{at}" for at, number in enumerate(NUMBERS)),
    *(f"ZADD z INCR {number} k{at}" for at, number in enumerate(NUMBERS)),
    "ZADD z NX INCR 1 m0",
    "ZADD z GT CH 5 m0",
    *(f"{name} z 0 -1 WITHSCORES" for name in ("ZRANGE", "ZREVRANGE")),
    *(f"{name} z -inf +inf WITHSCORES" for name in ("ZRANGEBYSCORE",)),
    "ZREVRANGEBYSCORE z +inf -inf WITHSCORES LIMIT 0 3",
    "ZRANGE z 0 5 REV WITHSCORES",
    "ZRANDMEMBER z 3 WITHSCORES",
    "ZRANDMEMBER z -4 WITHSCORES",
    "ZUNION 2 z y WITHSCORES",
    "ZINTER 2 z y WITHSCORES",
    "ZDIFF 2 z y WITHSCORES",
    "ZUNION 2 z y WEIGHTS 1.5 2 AGGREGATE MAX WITHSCORES",
    "ZRANK z m0",
    "ZCARD z",
    "ZCOUNT z 0 10",
    "ZSCAN z 0",
    "ZLEXCOUNT y - +",
    "ZRANGESTORE s z 0 3",
    "ZUNIONSTORE u 2 z y",
    "ZPOPMIN z",
    "ZPOPMAX z 2",
    "ZPOPMIN nothing",
    "BZPOPMIN z 1",
    "BZPOPMAX nothing z 1",
    "ZMPOP 2 nothing z MIN",
    "ZMPOP 1 z MAX COUNT 2",
    "ZMPOP 1 nothing MIN",
    "BZMPOP 1 2 nothing z MIN COUNT 2",
]
PLACES = [
    "GEOADD g 13.361389 38.115556 Palermo 15.087269 37.502669 Catania -0.1 51.5 London",
    "GEOPOS g Palermo Catania nowhere London",
    "GEODIST g Palermo Catania",
    "GEODIST g Palermo London km",
    "GEODIST g Palermo nowhere",
    "GEOHASH g Palermo Catania",
    "GEORADIUS g 15 37 200 km WITHDIST WITHCOORD WITHHASH",
    "GEORADIUS_RO g 15 37 200 km WITHCOORD",
    "GEORADIUSBYMEMBER g Palermo 3000 km WITHCOORD WITHDIST ASC",
    "GEORADIUSBYMEMBER_RO g Palermo 200 km WITHCOORD",
    "GEOSEARCH g FROMLONLAT 15 37 BYBOX 400 400 km ASC WITHCOORD WITHDIST WITHHASH",
    "GEOSEARCH g FROMMEMBER London BYRADIUS 10 m",
]
OTHERS = [
    "SET k 1.5",
    "INCRBYFLOAT k 0.25",
    "HSET h a 1 b 2.5",
    "HINCRBYFLOAT h a 0.5",
    "HGETALL h",
    "HRANDFIELD h 2 WITHVALUES",
    "HSCAN h 0",
    "CONFIG GET *max*",
    "CONFIG GET nothing",
    "SADD s1 a b c",
    "SMEMBERS s1",
    "SPOP s1 2",
    "SMISMEMBER s1 a b",
    "RPUSH l a b c d",
    "LRANGE l 0 -1",
    "LPOS l b RANK 1",
    "LMPOP 1 l LEFT COUNT 2",
    "XADD x 1-1 a 1 b 2",
    "XADD x 2-1 a 3",
    "XRANGE x - +",
    "XREAD COUNT 2 STREAMS x 0",
    "XGROUP CREATE x group 0",
    "XREADGROUP GROUP group me COUNT 1 STREAMS x >",
    "XPENDING x group",
    "XINFO STREAM x FULL",
    "XINFO GROUPS x",
    "XINFO CONSUMERS x group",
    "XAUTOCLAIM x group me 0 0",
    "GET k",
    "MGET k nothing h",
    "TYPE z",
    "OBJECT ENCODING z",
    "OBJECT FREQ z",
    "EXISTS k z nothing",
    "TTL k",
    "PTTL k",
    "TIME",
    "LASTSAVE",
    "DBSIZE",
    "SCAN 0",
    "KEYS *",
    "RANDOMKEY",
    "INFO",
    "INFO commandstats",
    "MEMORY STATS",
    "MEMORY USAGE k",
    "MEMORY DOCTOR",
    "ACL LIST",
    "ACL WHOAMI",
    "ACL CAT",
    "ACL GETUSER default",
    "AUTH nobody wrong",
    "ACL LOG",
    "CLIENT INFO",
    "CLIENT LIST",
    "CLIENT GETNAME",
    "CLIENT TRACKINGINFO",
    "COMMAND COUNT",
    "COMMAND INFO get set zadd nothing",
    "COMMAND DOCS zadd geopos client",
    "COMMAND LIST FILTERBY PATTERN z*",
    "COMMAND GETKEYS MSET a b c d",
    "COMMAND",
    "COMMAND DOCS",
    "MODULE LIST",
    "SLOWLOG GET",
    "LATENCY DOCTOR",
    "LATENCY HISTOGRAM set",
    "FUNCTION LIST",
    "FUNCTION STATS",
    "PUBSUB CHANNELS",
    "PUBSUB NUMSUB a",
    "ROLE",
    "EVAL 'return 3' 0",
    "EVAL 'return {1,2,{3,\"four\"}}' 0",
    "EVAL 'redis.setresp(3); return redis.call(\"ZSCORE\",\"y\",\"b\")' 0",
    "EVAL 'redis.setresp(3); return redis.call(\"HGETALL\",\"h\")' 0",
    "EVAL 'return {double=2.5}' 0",
    "EVAL 'redis.setresp(3); return {map={a=1}}' 0",
    "EVAL 'return redis.error_reply(\"ERR no\")' 0",
    "MULTI",
    "ZSCORE y b",
    "GEOPOS g Palermo",
    "INCR k",
    "EXEC",
    "NOSUCHCOMMAND",
    "GET",
    "LPUSH k x",
    "APPEND k y",
    "GETRANGE k 0 1",
    "STRLEN k",
    "HKEYS h",
    "HVALS h",
    "LINDEX l 0",
    "LLEN l",
    "SINTER s1 s1",
    "SINTERCARD 1 s1",
    "ZREM y a",
    "ZREVRANK z m0",
    "ZRANK z m4 WITHSCORES",
    "XLEN x",
    "XINFO STREAM x",
    "BITFIELD b SET u8 0 200 GET u8 0",
    "BITCOUNT b",
    "PFADD p a b c",
    "PFCOUNT p",
    "LCS l l",
    "SORT s1 ALPHA",
    "DUMP nothing",
    "WAIT 0 10",
    "CLIENT TRACKING ON",
    "GET tracked",
    "SET tracked 1",
    "SUBSCRIBE channel",
    "PUBLISH channel message",
    "UNSUBSCRIBE channel",
    "PSUBSCRIBE c*",
    "PUBLISH channel other",
    "PUNSUBSCRIBE c*",
    "RESET",
    "HELLO 3",
    *(f"DEBUG PROTOCOL {kind}" for kind in "string integer double null array set map attrib bignum true false verbatim".split()),
    "HELLO 3",
]


def words_of(line):
    """Returns the words of a line. One word may be in quotes and contain spaces."""
    front, quote, rest = line.partition("'")
    inside, _, back = rest.partition("'")
    return front.split() + ([inside] if quote else []) + back.split()


def text_of(line):
    words = [word.encode() for word in words_of(line)]
    return b"*%d\r\n" % len(words) + b"".join(b"$%d\r\n%s\r\n" % (len(word), word) for word in words)


def replies(lines):
    """Returns the bytes that the server sends for these commands."""
    end = b"$20\r\nthe end of all lines\r\n"
    with socket.create_connection(("127.0.0.1", port), timeout=60) as peer:
        peer.sendall(b"".join(map(text_of, lines)) + text_of("ECHO 'the end of all lines'"))
        heard = b""
        while not heard.endswith(end):
            piece = peer.recv(65_536)
            assert piece, f"the server closed after {len(heard)} bytes"
            heard += piece
    return heard


def run(task, text, *options):
    words = [program, task, "--proto", "3", *options]
    return subprocess.run(words, input=text, stdout=subprocess.PIPE, stderr=subprocess.PIPE)


lines = ["HELLO 3", *SETS, *PLACES, *OTHERS]
heard = replies(lines)
shown = run("show", heard, "--doubles")
assert (shown.returncode, shown.stderr) == (0, b""), shown.stderr
written = run("canon", heard, "--doubles")
assert (written.returncode, written.stderr) == (0, b""), written.stderr
again = run("canon", written.stdout, "--doubles")
assert again.stdout == written.stdout, "what is written back is written otherwise"
assert run("show", written.stdout, "--doubles").stdout == shown.stdout, "what is written back is shown otherwise"
for number in range(1, 8):
    assert run("show", heard, "--doubles", "--piece", str(number)).stdout == shown.stdout, f"pieces of {number} bytes"
refused = run("check", heard)
assert refused.returncode == 1 and b": Double at byte " in refused.stderr, refused.stderr
doubles = sum(line.lstrip().startswith(b"double ") for line in shown.stdout.split(b"\n"))
assert doubles > 100, f"{doubles} doubles"
print(f"{len(lines)} commands, {doubles} doubles")
