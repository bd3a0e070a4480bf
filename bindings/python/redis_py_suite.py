"""Runs redis-py's own tests with its own parsers, and with those of resp.redis_parser:

    redis_py_suite.py SOURCE PORT

SOURCE is the folder of redis-py's source, with `redis` and `tests`. A redis-server listens on PORT. Prints how many
tests pass with each, in each protocol that the tests have an option for, and ends with status 1 if fewer pass with ours.
Needs pytest. As a plugin of pytest (`-p redis_py_suite`) it lets each connection use our parsers.
"""
import os
import re
import subprocess
import sys

PASSED = re.compile(r"\b(\d+) passed\b")


def use_ours():
    """Lets connections that name no parser use those of resp.redis_parser."""
    import redis.asyncio.connection
    import redis.connection

    from resp import redis_parser

    for module, parser in (redis.connection, redis_parser.Parser), (redis.asyncio.connection, redis_parser.AsyncParser):
        # AbstractConnection in redis-py 5, and Connection before.
        base = getattr(module, "AbstractConnection", module.Connection)
        begin = base.__init__

        def init(self, *words, begin=begin, parser=parser, **named):
            named.setdefault("parser_class", parser)
            begin(self, *words, **named)

        base.__init__ = init


def passed(source, port, flags):
    """Returns how many tests pass."""
    here = os.path.dirname(os.path.realpath(__file__))
    words = [sys.executable, "-m", "pytest", "-q", "-p", "no:cacheprovider", *flags, "tests"]
    path = os.pathsep.join([here, source, os.environ.get("PYTHONPATH", "")])
    how = {"cwd": source, "env": {**os.environ, "PYTHONPATH": path}, "capture_output": True, "text": True}
    run = subprocess.run([*words, f"--redis-url=redis://127.0.0.1:{port}/0"], **how)
    found = PASSED.search(run.stdout)
    if not found:
        sys.exit(f"no test passed\n{run.stdout[-2000:]}{run.stderr[-2000:]}")
    return int(found[1])


def main():
    source, port = sys.argv[1:]
    with open(f"{source}/tests/conftest.py", encoding="utf-8") as file:
        protocols = (["--protocol=2"], ["--protocol=3"]) if '"--protocol"' in file.read() else ([],)
    fewer = False
    for protocol in protocols:
        theirs = passed(source, port, protocol)
        ours = passed(source, port, [*protocol, "-p", "redis_py_suite"])
        print(f"{' '.join(protocol) or 'protocol 2'}: {theirs} pass with redis-py's parsers, {ours} with ours")
        fewer = fewer or ours < theirs
    sys.exit(fewer)


if __name__ == "__main__":
    main()
else:
    use_ours()
