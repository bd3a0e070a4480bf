"""What the drivers in Python share: lines in, lines out, and a socket that gives each piece after the one before."""
import json
import sys


class Dry(Exception):
    """The parser wants more bytes than there are. No parser catches it."""


class Pieces:
    """A socket of pieces, of which one call reads one."""

    def __init__(self, pieces):
        self.pieces, self.is_over = [piece for piece in pieces if piece is not None], None in pieces

    def recv(self, size):
        if not self.pieces:
            if self.is_over:
                return b""
            raise Dry
        piece = self.pieces.pop(0)
        if len(piece) > size:
            self.pieces.insert(0, piece[size:])
        return piece[:size]

    def recv_into(self, room):
        piece = self.recv(len(room))
        room[:len(piece)] = piece
        return len(piece)


def text(value):
    return value if isinstance(value, str) else value.decode("latin-1")


def run(about, judged):
    """`judged(version, pieces, values)` adds the values to the list, and returns how the input ended. A piece that is None
    is the end of the connection."""
    if sys.argv[1:] == ["--about"]:
        print(json.dumps(about))
        return
    for line in sys.stdin:
        name, version, pieces = (line.rstrip("\n").split(" ") + [""])[:3]
        values = []
        pieces = [None if piece == "end" else bytes.fromhex(piece) for piece in pieces.split(",") if piece]
        end = judged(int(version), pieces, values)
        print(json.dumps({"id": name, "values": values, "end": end}), flush=True)
