"""Measures Python modules that read replies as Python objects, each with a Reader like that of hiredis.

python_readers.py times NAMES.. prints nanoseconds of processor time for a reply, the least of the turns that the modules
make alternately. python_readers.py once NAME TEXT PIECE ROUNDS reads one text ROUNDS times and prints the number of
replies."""
import importlib
import sys
import time

# Debian's hiredis for Python knows no maps, so both modules read an array of twenty in place of a map of ten pairs.
PAIRS = b"$8\r\nxxxxxxxx\r\n:7\r\n" * 10
TEXTS = {
    "simple string `OK`": b"+OK\r\n",
    "integer of six digits": b":123456\r\n",
    "simple string of 80 bytes": b"+" + b"x" * 80 + b"\r\n",
    "bulk string of 16 bytes": b"$16\r\n" + b"x" * 16 + b"\r\n",
    "bulk string of 1 KiB": b"$1024\r\n" + b"x" * 1024 + b"\r\n",
    "bulk string of 64 KiB": b"$65536\r\n" + b"x" * 65536 + b"\r\n",
    "array of three bulk strings of three bytes": b"*3\r\n" + b"$3\r\nxxx\r\n" * 3,
    "array of ten bulk strings of eight bytes and integers": b"*20\r\n" + PAIRS,
}
# The bytes of a piece; 0 for one reply a piece.
PIECES = (4096, 16384, 0)
LEAST, TURNS = 262144, 40


def pieces_of(value, size):
    """Returns pieces of this size with the value repeated, and the number of repetitions."""
    count = -(-LEAST // len(value))
    text = value * count
    size = size or len(value)
    return [text[at : at + size] for at in range(0, len(text), size)], count


def read(reader, pieces):
    replies = 0
    feed, gets = reader.feed, reader.gets
    for piece in pieces:
        feed(piece)
        while gets() is not False:
            replies += 1
    return replies


def seconds(module, pieces, count):
    reader = module.Reader()
    begin = time.process_time()
    replies = read(reader, pieces)
    end = time.process_time()
    if replies != count:
        sys.exit(f"bench: {module.__name__} read {replies} replies, and not {count}")
    return end - begin


def times(names):
    modules = [importlib.import_module(name) for name in names]
    for name, value in TEXTS.items():
        for size in PIECES:
            pieces, count = pieces_of(value, size)
            least = dict.fromkeys(modules, float("inf"))
            for _ in range(TURNS):
                for module in modules:
                    least[module] = min(least[module], seconds(module, pieces, count))
            nanoseconds = [f"{least[module] * 1e9 / count:.0f}" for module in modules]
            print(name, size, *nanoseconds, sep="\t", flush=True)


def once(name, text, size, rounds):
    pieces, _ = pieces_of([*TEXTS.values()][text], size)
    reader = importlib.import_module(name).Reader()
    print(sum(read(reader, pieces) for _ in range(rounds)))


if __name__ == "__main__":
    if sys.argv[1] == "times":
        times(sys.argv[2:])
    else:
        once(sys.argv[2], *map(int, sys.argv[3:]))
