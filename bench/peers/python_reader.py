"""Measures hiredis for Python: reads standard input in pieces of 16,384 bytes, gets each reply as a Python object, and
prints the number of replies."""
import sys

import hiredis

reader = hiredis.Reader()
replies = 0
while piece := sys.stdin.buffer.read(16384):
    reader.feed(piece)
    while reader.gets() is not False:
        replies += 1
print(replies)
