#!/usr/bin/env python3
"""Writes the captures of tests/cases/replay-*, each into the folder of its case: captures.py

The captures are written here byte by byte, and not by the program. The expected output of a case is written by hand.
"""
import os
import struct

CASES = f"{os.path.dirname(os.path.realpath(__file__))}/../cases"
FIN, SYN, RST, ACK = 1, 2, 4, 16
CLIENT, SERVER = ("10.0.0.1", 50000), ("10.0.0.2", 6379)


def tcp(source, target, sequence, flags, data=b"", options=b""):
    """Returns a segment, without a checksum."""
    words = (20 + len(options)) // 4
    return struct.pack(">HHIIBBHHH", source, target, sequence % 2**32, 0, words << 4, flags, 65535, 0, 0) + options + data


def address(text):
    return bytes(int(part) for part in text.split("."))


def ip(source, target, segment, options=b"", fragment=0, padding=b"", length=None):
    """Returns a packet of version 4 with a segment."""
    head = 20 + len(options)
    size = head + len(segment) if length is None else length
    return struct.pack(">BBHHHBBH", 0x40 + head // 4, 0, size, 1, fragment, 64, 6, 0) + \
        address(source) + address(target) + options + segment + padding


def packet(source, target, sequence, flags, data=b"", **more):
    """Returns a packet of version 4 from one end to the other."""
    return ip(source[0], target[0], tcp(source[1], target[1], sequence, flags, data), **more)


def ip6(source, target, segment, headers=b"", first=6):
    """Returns a packet of version 6 between two addresses of one last byte each."""
    size = len(headers) + len(segment)
    return struct.pack(">IHBB", 6 << 28, size, first, 64) + bytes(15) + bytes([source]) + bytes(15) + bytes([target]) + \
        headers + segment


def ethernet(inner, kind=0x0800, tags=()):
    head = bytes(12)
    for tag in tags:
        head += struct.pack(">HH", tag, 7)
    return head + struct.pack(">H", kind) + inner


def pcap(frames, link=1, order="<", nano=False):
    """Returns a file of the format pcap with frames, each with its time in seconds and in parts of a second."""
    magic = 0xA1B23C4D if nano else 0xA1B2C3D4
    text = struct.pack(order + "IHHiIII", magic, 2, 4, 0, 0, 65535, link)
    for seconds, parts, frame in frames:
        text += struct.pack(order + "IIII", seconds, parts, len(frame), len(frame)) + frame
    return text


def block(order, kind, body):
    body += bytes(-len(body) % 4)
    size = len(body) + 12
    return struct.pack(order + "II", kind, size) + body + struct.pack(order + "I", size)


def section(order):
    return block(order, 0x0A0D0D0A, struct.pack(order + "IHHq", 0x1A2B3C4D, 1, 0, -1))


def interface(order, link, resolution=None, offset=None):
    options = b""
    if resolution is not None:
        options += struct.pack(order + "HHB3x", 9, 1, resolution)
    if offset is not None:
        options += struct.pack(order + "HHq", 14, 8, offset)
    if options:
        options += struct.pack(order + "HH", 0, 0)
    return block(order, 1, struct.pack(order + "HHI", link, 0, 0) + options)


def enhanced(order, number, ticks, frame):
    return block(order, 6, struct.pack(order + "IIIII", number, ticks >> 32, ticks % 2**32, len(frame), len(frame)) + frame)


def older(order, number, ticks, frame):
    """Returns a packet block, which enhanced packet blocks have replaced. It says that three packets were lost."""
    head = struct.pack(order + "HHIIII", number, 3, ticks >> 32, ticks % 2**32, len(frame), len(frame))
    return block(order, 2, head + frame)


def simple(order, frame):
    return block(order, 3, struct.pack(order + "I", len(frame)) + frame)


def talk(client=1000, server=5000, commands=(), ends=True):
    """Returns the packets of a connection with commands and their replies, one after another."""
    packets = [packet(CLIENT, SERVER, client, SYN), packet(SERVER, CLIENT, server, SYN | ACK)]
    sent, heard = client + 1, server + 1
    for command, reply in commands:
        packets.append(packet(CLIENT, SERVER, sent, ACK, command))
        packets.append(packet(SERVER, CLIENT, heard, ACK, reply))
        sent, heard = sent + len(command), heard + len(reply)
    if ends:
        packets.append(packet(CLIENT, SERVER, sent, ACK | FIN))
        packets.append(packet(SERVER, CLIENT, heard, ACK | FIN))
    return packets


PING, PONG = b"*1\r\n$4\r\nPING\r\n", b"+PONG\r\n"
GET, BULK = b"*2\r\n$3\r\nGET\r\n$1\r\nk\r\n", b"$5\r\nvalue\r\n"


def timed(packets, wrap=ethernet, start=86399, step=250):
    """Returns the frames of packets, of which the first comes 0.9 seconds after a second, and each other so many
    microseconds later."""
    ticks = [start * 1_000_000 + 900_000 + index * step for index in range(len(packets))]
    return [(tick // 1_000_000, tick % 1_000_000, wrap(it)) for tick, it in zip(ticks, packets)]


def plain():
    return pcap(timed(talk(commands=[(PING, PONG), (GET, BULK)])))


def kinds():
    """Commands and replies of many kinds: a password, a null, bytes that are not UTF-8, a line, a map, an attribute."""
    return pcap(timed(talk(commands=[
        (b"*3\r\n$4\r\nAUTH\r\n$3\r\nann\r\n$2\r\npw\r\n", b"+OK\r\n"),
        (b"*2\r\n$3\r\nget\r\n$1\r\nk\r\n", b"$-1\r\n"),
        (b"*1\r\n$2\r\n\xff\xfe\r\n", b'-ERR "\\\r\n'),
        (b"PING\r\n", PONG),
        (b"*2\r\n$5\r\nHELLO\r\n$1\r\n3\r\n", b"%1\r\n$5\r\nproto\r\n:3\r\n"),
        (b"*1\r\n$1\r\nx\r\n", b"|1\r\n+ttl\r\n:1\r\n!4\r\nERR\xff\r\n"),
        (b"*2\r\n$9\r\nSUBSCRIBE\r\n$1\r\nc\r\n", b">3\r\n$9\r\nsubscribe\r\n$1\r\nc\r\n:1\r\n"),
        (b"*1\r\n:1\r\n", b"?\r\n"),
    ])))


def reordered():
    """The client's sequence numbers wrap. Its segments come in another order, twice, and they overlap."""
    order, first, text = ">", 2**32 - 9, PING + GET
    begin = [packet(CLIENT, SERVER, first - 1, SYN), packet(SERVER, CLIENT, 5000, SYN | ACK)]
    parts = [(20, 34), (0, 8), (0, 8), (12, 22), (4, 13)]
    sent = [packet(CLIENT, SERVER, first + here, ACK, text[here:there]) for here, there in parts]
    replies = [packet(SERVER, CLIENT, 5001 + 7, ACK, BULK), packet(SERVER, CLIENT, 5001, ACK, PONG)]
    end = [packet(SERVER, CLIENT, 5001 + 18, ACK | FIN), packet(CLIENT, SERVER, first + len(text), ACK | FIN)]
    text = section(order) + interface(order, 101, 9) + block(order, 0xBAD, b"unknown")
    for index, it in enumerate(begin + sent + replies + end):
        text += enhanced(order, 0, 86399_000_000_000 + index * 1_000_000, it)
    return text


def gap():
    """Ten bytes of the client are missing."""
    packets = talk(commands=[(PING, PONG)], ends=False)
    packets.append(packet(CLIENT, SERVER, 1001 + len(PING) + 10, ACK, GET))
    packets.append(packet(SERVER, CLIENT, 5001 + len(PONG), ACK, BULK))
    packets.append(packet(SERVER, CLIENT, 5001 + len(PONG) + len(BULK), ACK | RST))
    return pcap(timed(packets))


def middle(here, there):
    """The capture has no beginning of the connection, and begins with the reply to an earlier command."""
    packets = [packet(there, here, 900, ACK, BULK), packet(here, there, 100, ACK, PING), packet(there, here, 911, ACK, PONG)]
    return pcap(timed(packets))


def links():
    """A connection of version 6 whose segments come over five links, with headers and tags."""
    order = "<"
    text = section(order) + b"".join(interface(order, number) for number in (0, 1, 101, 113, 276, 108, 228, 229))
    here, there = (1, 50000), (2, 6379)

    def six(source, target, sequence, flags, data=b"", headers=b"", first=6):
        return ip6(source[0], target[0], tcp(source[1], target[1], sequence, flags, data, options=bytes(4)), headers, first)

    hop = bytes([60, 0]) + bytes(6)
    destination = bytes([6, 1]) + bytes(14)
    packets = [
        (0, struct.pack("<I", 30) + six(here, there, 0, SYN)),
        (1, ethernet(six(there, here, 0, SYN | ACK), 0x86DD)),
        (1, ethernet(six(here, there, 1, ACK, PING[:5]), 0x86DD, (0x88A8, 0x8100))),
        (2, six(here, there, 6, ACK, PING[5:], hop + destination, 0)),
        (3, bytes(14) + struct.pack(">H", 0x86DD) + six(there, here, 1, ACK, PONG[:3])),
        (4, struct.pack(">H", 0x86DD) + bytes(18) + six(there, here, 4, ACK, PONG[3:])),
        (1, ethernet(b"something else", 0x0806)),
        (7, six(here, there, 1 + len(PING), ACK, GET)),
        (5, struct.pack(">I", 24) + six(there, here, 1 + len(PONG), ACK, BULK)),
    ] + [(6, it) for it in talk(commands=[(PING, PONG)], ends=False)]
    for index, (number, frame) in enumerate(packets):
        text += enhanced(order, number, 1_000_000 + index, frame)
    return text


def fragments():
    """A fragment is not read. Bytes that pad a frame, and options of a packet, are not data."""
    packets = talk(commands=[(PING, PONG)], ends=False)
    packets[2] = packet(CLIENT, SERVER, 1001, ACK, PING, options=bytes(8))
    packets[3] = packet(SERVER, CLIENT, 5001, ACK, PONG, padding=b"xxxx")
    packets.append(packet(CLIENT, SERVER, 1001 + len(PING), ACK, GET, fragment=0x2000))
    packets.append(packet(CLIENT, SERVER, 1001 + len(PING), ACK, GET, fragment=185))
    return pcap(timed(packets))


def over_leap_day():
    """A connection that begins at the end of 29 February 2024, and ends on 1 March."""
    return pcap(timed(talk(commands=[(PING, PONG)]), start=1709251199, step=33_000))


def offsets():
    """A connection on two interfaces, one after the other. Their times are an hour later and a second earlier than their
    ticks say."""
    frames = timed(talk(commands=[(PING, PONG), (GET, BULK)]))
    blocks = [enhanced(">", index // 4, seconds * 1_000_000 + micros, frame) for index, (seconds, micros, frame) in enumerate(frames)]
    return section(">") + interface(">", 1, 6, 3_600) + interface(">", 1, None, -1) + b"".join(blocks)


def older_blocks(order=">"):
    """A connection in packet blocks of an older form, on the second of two interfaces. An enhanced one is between them."""
    text = section(order) + interface(order, 0) + interface(order, 1, 9)
    for index, (seconds, micros, frame) in enumerate(timed(talk(commands=[(PING, PONG), (GET, BULK)]))):
        write = enhanced if index == 3 else older
        text += write(order, 1, (seconds * 1_000_000 + micros) * 1_000, frame)
    return text


def main():
    files = {
        "replay": plain(),
        "replay-time": plain(),
        "replay-date": over_leap_day(),
        "replay-json": kinds(),
        "replay-json-errors": kinds(),
        "replay-json-gap": gap(),
        "replay-connections": plain(),
        "replay-stats": plain(),
        "replay-stats-of-days": pcap(timed(talk(commands=[(PING, PONG)]), step=100_000_000_000)),
        "replay-of-another-order": reordered(),
        "replay-gap": gap(),
        "replay-in-the-middle": middle(CLIENT, SERVER),
        "replay-with-port": middle(("10.0.0.1", 6000), ("10.0.0.2", 7000)),
        "replay-links": links(),
        "replay-fragments": fragments(),
        "replay-cut": plain()[:-5],
        "replay-of-nanoseconds": pcap(timed(talk(commands=[(PING, PONG)])), order=">", nano=True),
        "replay-with-offsets": offsets(),
        "replay-of-older-blocks": older_blocks(),
        "replay-of-older-blocks-little": older_blocks("<"),
        "replay-with-a-long-block": plain()[:32] + struct.pack("<I", 1_048_561) + plain()[36:],
        "replay-of-another-link": pcap(timed(talk()), link=105),
    }
    for name, text in files.items():
        os.makedirs(f"{CASES}/{name}", exist_ok=True)
        with open(f"{CASES}/{name}/traffic.pcap", "wb") as file:
            file.write(text)


if __name__ == "__main__":
    main()
