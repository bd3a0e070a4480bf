"""Tests `resp serve --test-server` with python3-redis: redis_py.py PORT. The server must have no key."""

import sys

import redis

port = int(sys.argv[1])


def connected(**others):
    return redis.Redis(host="127.0.0.1", port=port, **others)


first = connected(client_name="first")
assert first.client_getname() in ("first", b"first"), first.client_getname()
assert first.set("key", b"\x00\r\n\xff") is True
assert first.get("key") == b"\x00\r\n\xff"
assert first.get("none") is None
assert first.exists("key", "key", "none") == 2
assert first.dbsize() == 1
assert isinstance(first.client_id(), int)

other = connected(db=5, decode_responses=True)
assert other.get("key") is None
assert other.set("key", "five") is True and other.get("key") == "five"
assert other.flushdb(asynchronous=True) is True
assert other.dbsize() == 0 and first.dbsize() == 1

pipeline = other.pipeline(transaction=False)
for number in range(1_000):
    pipeline.set(f"key:{number}", number)
    pipeline.get(f"key:{number}")
assert pipeline.execute() == [answer for number in range(1_000) for answer in (True, str(number))]
assert other.dbsize() == 1_000
try:
    connected(db=16).ping()
except redis.ResponseError as error:
    assert "DB index is out of range" in str(error), error
else:
    raise AssertionError("database 16 was selected")
assert first.flushall() is True
assert other.dbsize() == 0 and first.exists("key") == 0
