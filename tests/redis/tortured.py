"""Tests that python3-redis returns the same from `resp serve --torture SEED`, for the seeds 1 to 50, as from redis-server:
tortured.py RESP PORT, with the port of redis-server"""

import re
import subprocess
import sys
from concurrent.futures import ThreadPoolExecutor

import redis

PROGRAM, THEIRS = sys.argv[1], int(sys.argv[2])
SEEDS = range(1, 51)


def results(port, parser):
    """What a caller gets from commands that both servers have, in the same order."""
    pool = redis.ConnectionPool(host="127.0.0.1", port=port, db=0, parser_class=parser)
    client, named = redis.Redis(connection_pool=pool), f"tortured:{port}:"
    texts = [b"", b"plain", b"\x00\r\n\xff", b"+OK", b"long " * 30]
    got = [client.ping(), client.get(named + "none"), client.set(named + "none", "x", xx=True)]
    for text in texts:
        got += [client.echo(text), client.set(named + "key", text), client.get(named + "key")]
        got += [client.set(named + "key", "other", nx=True), client.delete(named + "key", named + "none"), client.delete(named + "key")]
    pipeline = client.pipeline(transaction=False)
    for number in range(20):
        pipeline.set(named + str(number), number).get(named + str(number)).delete(named + str(number)).get(named + str(number))
    got += pipeline.execute()
    try:
        client.execute_command("NO.SUCH.COMMAND")
    except redis.ResponseError as error:
        got.append(str(error).startswith("unknown command"))
    client.close()
    return got


def tortured(seed, parser):
    words = [PROGRAM, "serve", "--torture", str(seed), "127.0.0.1:0"]
    with subprocess.Popen(words, stdout=subprocess.PIPE, text=True) as server:
        try:
            port = int(re.fullmatch(r"listening on 127\.0\.0\.1:(\d+)\n", server.stdout.readline())[1])
            return results(port, parser)
        finally:
            server.kill()


parsers = [redis.connection.PythonParser] + ([redis.connection.HiredisParser] if redis.utils.HIREDIS_AVAILABLE else [])
for parser in parsers:
    wanted = results(THEIRS, parser)
    with ThreadPoolExecutor(5) as pool:
        for seed, got in zip(SEEDS, pool.map(lambda seed, parser=parser: tortured(seed, parser), SEEDS)):
            assert got == wanted, (seed, [pair for pair in zip(got, wanted) if pair[0] != pair[1]][:3])
print(f"{len(SEEDS)} seeds with {len(parsers)} parsers")
