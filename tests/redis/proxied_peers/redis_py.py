"""Tests `resp proxy` in front of redis-server with python3-redis, a pool of connections and threads: redis_py.py PORT"""
import sys
import threading

import redis

pool = redis.BlockingConnectionPool(host="127.0.0.1", port=int(sys.argv[1]), max_connections=8, timeout=30)
client = redis.Redis(connection_pool=pool)
wrong = []


def work(number):
    """Reads its own values through whichever connection of the pool is free."""
    try:
        for turn in range(20):
            key = f"pooled:{number}:{turn}"
            assert client.set(key, f"value of {key}", ex=100) is True
            assert client.get(key) == f"value of {key}".encode()
            pipeline = client.pipeline(transaction=False)
            for part in range(50):
                pipeline.echo(f"{key}:{part}")
                pipeline.incr(f"count:{number}")
                pipeline.rpush(f"list:{number}", f"{key}:{part}")
            replies = pipeline.execute()
            assert replies[::3] == [f"{key}:{part}".encode() for part in range(50)], replies
            assert replies[1::3] == list(range(50 * turn + 1, 50 * turn + 51)), replies
            assert replies[2::3] == replies[1::3], replies
            assert client.lrange(f"list:{number}", -1, -1) == [f"{key}:49".encode()]
            assert client.mget(key, "no such key") == [f"value of {key}".encode(), None]
    except Exception as error:
        wrong.append(f"{number}: {type(error).__name__}: {error}")


threads = [threading.Thread(target=work, args=(number,)) for number in range(24)]
for thread in threads:
    thread.start()
for thread in threads:
    thread.join()
assert not wrong, wrong

# Types, scans and scripts. Each of these has one reply.
client.hset("hash of the proxy", mapping={"a": 1, "b": 2})
assert client.hgetall("hash of the proxy") == {b"a": b"1", b"b": b"2"}
client.zadd("scores of the proxy", {"one": 1, "two": 2.5})
assert client.zrange("scores of the proxy", 0, -1, withscores=True) == [(b"one", 1.0), (b"two", 2.5)]
client.sadd("set of the proxy", "a", "b")
assert client.smembers("set of the proxy") == {b"a", b"b"}
assert len(set(client.scan_iter("pooled:*", count=100))) == 24 * 20
assert client.eval("return {KEYS[1], ARGV[1], 7}", 1, "key", "argument") == [b"key", b"argument", 7]
entry = client.xadd("stream of the proxy", {"field": "value"})
assert client.xread({"stream of the proxy": "0"}) == [[b"stream of the proxy", [(entry, {b"field": b"value"})]]]
assert client.client_setname("me") and client.client_id() > 0
great = bytes(range(256)) * 40_000
assert client.set("great", great) is True and client.get("great") == great

# The error of a command that the proxy does not serve names it, and the connection goes on.
try:
    client.execute_command("CONFIG", "SET", "save", "")
except redis.ResponseError as error:
    assert "'CONFIG SET'" in str(error), error
else:
    raise AssertionError("CONFIG SET was answered")
assert client.ping() is True

# Transactions, watched keys, subscriptions and blocking commands: over connections of clients' own.
port = int(sys.argv[1])
own = redis.Redis(port=port)
own.set("counted", 1)
pipeline = own.pipeline(transaction=True)
pipeline.incr("counted")
pipeline.incr("counted")
assert pipeline.execute() == [2, 3]
with own.pipeline() as pipeline:
    pipeline.watch("counted")
    number = int(pipeline.get("counted"))
    client.set("counted", 10)
    pipeline.multi()
    pipeline.set("counted", number + 1)
    try:
        pipeline.execute()
    except redis.WatchError:
        pass
    else:
        raise AssertionError("a watched key was changed, and EXEC succeeded")
assert client.get("counted") == b"10"
subscription = redis.Redis(port=port).pubsub()
subscription.subscribe("news")
assert subscription.get_message(timeout=10)["type"] == "subscribe"
assert client.publish("news", "hello") == 1
assert subscription.get_message(timeout=10)["data"] == b"hello"
popped = []
waiting = threading.Thread(target=lambda: popped.append(redis.Redis(port=port).blpop("blocking list", timeout=20)))
waiting.start()
while client.info("clients")["blocked_clients"] == 0:
    pass
assert client.rpush("blocking list", "value") == 1
waiting.join()
assert popped == [(b"blocking list", b"value")], popped

# Other databases and users: clients in the same setting share a connection, and none gets another's own.
before = 2
# The connection of BLPOP is closed, and those of the transaction and of the subscription are left.
while client.info("proxy")["clients_own"] != before:
    pass
others = [(redis.Redis(port=port, db=db, username=user, password=user and "secret"), db, user)
          for db in (0, 3, 5) for user in (None, "bea") for _ in range(4)]
for number, (other, db, user) in enumerate(others):
    assert other.set(f"database {db}", number) is True
    assert other.execute_command("ACL", "WHOAMI") == (user or "default").encode()
    assert other.get(f"database {db}") == b"%d" % number
    assert all(there.get(f"database {db}") in (None, b"%d" % number) for there, _, _ in others)
for other, db, _ in others:
    assert other.exists("database 0", "database 3", "database 5") == 1 and other.exists(f"database {db}") == 1
with_own = client.info("proxy")["clients_own"]
assert with_own == before, (before, with_own)
for arguments in ({"password": "guess", "username": "bea"}, {"db": 99}):
    try:
        redis.Redis(port=port, **arguments).ping()
    except (redis.AuthenticationError, redis.ResponseError):
        pass
    else:
        raise AssertionError(f"{arguments} were accepted")
