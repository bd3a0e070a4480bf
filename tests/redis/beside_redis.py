"""Tests a server of this repository with python3-redis: beside_redis.py PORT"""

import sys

import redis

client = redis.Redis(host="127.0.0.1", port=int(sys.argv[1]))
assert client.ping() is True
assert client.set("key", b"\x00\r\n\xff") is True
assert client.get("key") == b"\x00\r\n\xff"
assert client.set("key", "other", nx=True) is None
assert client.set("new", "value", xx=True) is None
assert client.echo("a word") == b"a word"

pipeline = client.pipeline(transaction=False)
for number in range(1_000):
    pipeline.set(f"key:{number}", number)
    pipeline.get(f"key:{number}")
answers = pipeline.execute()
assert answers == [answer for number in range(1_000) for answer in (True, str(number).encode())]
assert client.delete(*(f"key:{number}" for number in range(1_000))) == 1_000

great = bytes(range(256)) * 4_096
assert client.set("great", great) is True
assert client.get("great") == great
try:
    client.incr("key")
except redis.ResponseError as error:
    assert str(error) == "unknown command", error
else:
    raise AssertionError("an unknown command was answered")
