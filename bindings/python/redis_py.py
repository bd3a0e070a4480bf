"""Talks to redis-server on a port with redis-py, which reads with the package resp in place of hiredis for Python, and
with the parsers of resp.redis_parser: redis_py.py PORT"""
import asyncio
import socket
import sys
import types

import resp

# redis-py finds this reader when it looks for that of hiredis.
hiredis = types.ModuleType("hiredis")
hiredis.Reader, hiredis.__version__ = resp.Reader, "2.0.0"
sys.modules["hiredis"] = hiredis

import async_timeout  # noqa: E402
import redis  # noqa: E402
import redis.asyncio  # noqa: E402
from redis.connection import HiredisParser  # noqa: E402

from resp.redis_parser import AsyncParser, Parser  # noqa: E402


def check(said, wanted):
    if said != wanted:
        sys.exit(f"{said!r} in place of {wanted!r}")


def talk(server, texts):
    """Sends commands of several kinds. `texts` is a client that decodes its replies."""
    check(server.set("a", b"1\r\n2"), True)
    check(server.get("a"), b"1\r\n2")
    check(server.get("none"), None)
    check(server.rpush("list", *range(1000)), 1000)
    check(server.lrange("list", 0, -1), [b"%d" % it for it in range(1000)])
    check(server.hset("hash", mapping={"x": "1", "y": "2"}), 2)
    check(server.hgetall("hash"), {b"x": b"1", b"y": b"2"})
    check(server.zadd("set", {"m": 1.5}), 1)
    check(server.zscore("set", "m"), 1.5)
    large = bytes(range(256)) * 4096
    check(server.set("large", large) and server.get("large"), large)
    try:
        server.incr("list")
        sys.exit("a list was incremented")
    except redis.ResponseError as error:
        check(str(error), "WRONGTYPE Operation against a key holding the wrong kind of value")
    pipeline = server.pipeline(transaction=False)
    for number in range(10000):
        pipeline.incr("number")
    check(pipeline.execute(), list(range(1, 10001)))
    check(texts.set("text", "\xe4\u20ac") and texts.get("text"), "\xe4\u20ac")
    subscription = server.pubsub()
    subscription.subscribe("channel")
    check(subscription.get_message(timeout=10)["type"], "subscribe")
    check(server.publish("channel", "hello"), 1)
    check(subscription.get_message(timeout=10)["data"], b"hello")


def client(port, **words):
    """Returns a client whose connections read with our parser."""
    return redis.Redis(connection_pool=redis.ConnectionPool(port=port, parser_class=Parser, **words))


def from_url(port):
    """A client that a URL describes reads with the parser that is named beside it."""
    url = f"redis://127.0.0.1:{port}/2"
    server = redis.Redis.from_url(url, parser_class=Parser)
    check(server.set("url", "1") and server.get("url"), b"1")
    connection = server.connection_pool.get_connection("PING")
    check((type(connection._parser), connection.db), (Parser, 2))
    server.connection_pool.release(connection)


async def from_url_by_asyncio(port):
    server = redis.asyncio.Redis.from_url(f"redis://127.0.0.1:{port}/2", parser_class=AsyncParser)
    check(await server.get("url"), b"1")
    connection = await server.connection_pool.get_connection("PING")
    check(type(connection._parser), AsyncParser)
    await server.connection_pool.disconnect()


def talk_in_protocol_3(port):
    """Reads replies and pushes of protocol 3 on one connection."""
    pushes = []
    connection = client(port).connection_pool.get_connection("HELLO")
    other = client(port)

    def said(*words, **how):
        connection.send_command(*words)
        return connection._parser.read_response(**how)

    check(said("HELLO", 3)[b"proto"], 3)
    check(said("HSET", "hash3", "x", 1), 1)
    check(said("HGETALL", "hash3"), {b"x": b"1"})
    check(said("ZADD", "set3", "1.5", "m"), 1)
    check(said("ZSCORE", "set3", "m"), 1.5)
    check(said("GET", "none"), None)
    check(said("SET", "text3", b"\xff"), b"OK")
    check(said("GET", "text3", disable_decoding=True), b"\xff")
    check(repr(said("INCR", "text3")), "ResponseError('value is not an integer or out of range')")
    connection._parser.set_invalidation_push_handler(pushes.append)
    check(said("CLIENT", "TRACKING", "ON"), b"OK")
    check(said("GET", "text3"), b"\xff")
    other.set("text3", "new")
    check(said("GET", "text3"), b"new")
    check(pushes, [[b"invalidate", [b"text3"]]])
    connection._parser.set_pubsub_push_handler(lambda push: push[0])
    check(said("SUBSCRIBE", "channel3", push_request=True), b"subscribe")
    check(connection.can_read(0), False)
    other.publish("channel3", "hello")
    check(connection.can_read(10), True)
    check(connection._parser.read_response(push_request=True), b"message")
    connection.disconnect()


async def talk_by_asyncio(port):
    pool = redis.asyncio.ConnectionPool(port=port, parser_class=AsyncParser)
    server = redis.asyncio.Redis(connection_pool=pool)
    check(await server.set("b", b"1\r\n2"), True)
    check(await server.get("b"), b"1\r\n2")
    large = bytes(range(256)) * 4096
    check(await server.set("large", large) and await server.get("large"), large)
    try:
        await server.incr("large")
        sys.exit("a text was incremented")
    except redis.ResponseError as error:
        check(str(error), "value is not an integer or out of range")
    pipeline = server.pipeline(transaction=False)
    for _ in range(1000):
        pipeline.incr("numbers")
    check(await pipeline.execute(), list(range(1, 1001)))
    subscription = server.pubsub()
    await subscription.subscribe("channel")
    check((await subscription.get_message(timeout=10))["type"], "subscribe")
    check(await subscription.get_message(timeout=0.01), None)
    check(await server.publish("channel", "hello"), 1)
    check((await subscription.get_message(timeout=10))["data"], b"hello")
    await subscription.unsubscribe("channel")
    await pool.disconnect()


async def talk_after_a_timeout(port):
    """A task in which a timeout of async_timeout has expired sends commands as before, and its own timeouts expire."""
    pool = redis.asyncio.ConnectionPool(port=port, parser_class=AsyncParser)
    server = redis.asyncio.Redis(connection_pool=pool)
    try:
        async with async_timeout.timeout(0.01):
            await asyncio.sleep(10)
        sys.exit("the timeout did not expire")
    except asyncio.TimeoutError:
        pass
    check(await server.set("c", b"1"), True)
    check(await server.get("c"), b"1")
    subscription = server.pubsub()
    await subscription.subscribe("channel")
    check((await subscription.get_message(timeout=10))["type"], "subscribe")
    check(await subscription.get_message(timeout=0.01), None)
    # A task that is cancelled while it waits for a message ends.
    waiting = asyncio.ensure_future(subscription.get_message(timeout=10))
    await asyncio.sleep(0.01)
    waiting.cancel()
    await asyncio.wait({waiting})
    check(waiting.cancelled(), True)
    await subscription.unsubscribe("channel")
    await pool.disconnect()


def paired(port, commands):
    """Sends HELLO, and then the other commands in one write. Returns the number of each command and the replies with
    theirs, until the last command has its reply."""
    pairing = resp.Pairing(replyError=str)
    with socket.create_connection(("127.0.0.1", port)) as connection:
        given = []

        def read_to(number):
            while not given or given[-1][0] != number:
                if (pair := pairing.gets()) is False:
                    pairing.feed(connection.recv(4096))
                else:
                    given.append(pair)

        numbers = [pairing.queue(*commands[0])]
        connection.sendall(resp.pack(*commands[0]))
        read_to(1)
        given.clear()
        numbers += [pairing.queue(*words) for words in commands[1:]]
        connection.sendall(b"".join(resp.pack(*words) for words in commands[1:]))
        read_to(numbers[-1])
        return numbers, given


def pair_subscriptions(port):
    """Commands that pushes answer, and that the server rejects, have the numbers of their commands."""
    numbers, given = paired(port, [("HELLO", 3), ("ECHO", "a"), ("SUBSCRIBE", "x", "y", "z"), ("ECHO", "b")])
    check(numbers, [1, 2, 3, 4])
    check([number for number, _ in given], [2, None, None, None, 4])
    check([given[0][1], given[-1][1]], [b"a", b"b"])
    client(port).execute_command("ACL", "SETUSER", "no_channels", "on", "nopass", "~*", "+@all", "resetchannels")
    hello = ("HELLO", 3, "AUTH", "no_channels", "any")
    numbers, given = paired(port, [hello, ("ECHO", "a"), ("PSUBSCRIBE", "x*", "y*"), ("ECHO", "b")])
    check([(number, reply[:6]) for number, reply in given], [(2, b"a"), (3, "NOPERM"), (4, b"b")])


def main(port):
    server = redis.Redis(port=port)
    check(server.connection_pool.connection_class().__dict__["_parser"].__class__, HiredisParser)
    talk(server, redis.Redis(port=port, decode_responses=True))
    server.flushall()
    talk(client(port), client(port, decode_responses=True))
    from_url(port)
    asyncio.run(from_url_by_asyncio(port))
    talk_in_protocol_3(port)
    asyncio.run(talk_by_asyncio(port))
    asyncio.run(talk_after_a_timeout(port))
    pair_subscriptions(port)
    print("redis-py reads by resp")


if __name__ == "__main__":
    main(int(sys.argv[1]))
