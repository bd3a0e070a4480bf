"""Tests `resp tap --cut` over TCP on this machine; tests/over_tcp runs it. It tests that

- all bytes of the server arrive in order, in pieces of at most N bytes with a pause of 1 ms after each, and then its end;
- the pieces of `random:SEED` end where the sizes of the generator say, in each connection;
- the commands of the client are not cut;
- what is printed, recorded and counted is the same as without the option;
- a client that reads nothing delays no other, and a tap whose clients have all bytes uses no processor;
- a tap that drains sends the rest first.
"""
import contextlib
import signal
import socket
import subprocess
import tempfile
import time

from drains_over_tcp import blocking
from tcp_programs import LIMIT, PING, PONG, PROGRAM, Peer, connect, hear, hear_end, running, until

PAUSE = 0.001
REPLY = b"$190\r\n" + bytes(range(32, 127)) * 2 + b"\r\n"


def pieces_of(stream, size):
    """Reads this many bytes, and returns them as they came."""
    pieces = []
    while sum(map(len, pieces)) < size:
        pieces.append(stream.recv(65_536))
        assert pieces[-1], f"the end of the stream after {pieces}"
    return pieces


@contextlib.contextmanager
def tapped(peer, *words):
    """Runs a tap with these options, and gives it with a client and the connection of this client to the server."""
    with running("tap", *words, "127.0.0.1:0", peer.address) as tap, connect(tap.port) as client:
        client.sendall(PING)
        with peer.accept() as server:
            hear(server, PING)
            yield tap, client, server


def pieces_of_a_number():
    """A piece has at most N bytes. A client may find two pieces that wait for it, but never finds them early."""
    for most in (1, 2, 7, 100):
        with tapped(Peer(), "--cut", str(most)) as (_, client, server):
            begin = time.monotonic()
            server.sendall(REPLY)
            server.shutdown(socket.SHUT_WR)
            pieces = pieces_of(client, len(REPLY))
            passed = time.monotonic() - begin
            assert b"".join(pieces) == REPLY and client.recv(1) == b"", pieces
            least = -(-len(REPLY) // most)
            assert passed >= (least - 1) * PAUSE, f"{least} pieces of at most {most} bytes in {passed} s"
            assert len(pieces) > least / 2, f"{len(pieces)} pieces of at most {most} bytes"
    with tapped(Peer()) as (_, client, server):
        server.sendall(REPLY)
        assert client.recv(65_536) == REPLY, "bytes are cut without the option"


def words_of_pcg32(seed, stream):
    """The words of the generator PCG32, as its reference implementation in C makes them (pcg_basic.c)."""
    state, step = 0, stream << 1 | 1

    def word():
        nonlocal state
        old, state = state, (state * 6_364_136_223_846_793_005 + step) % 2**64
        mixed, turn = (old >> 18 ^ old) >> 27 & 0xFFFF_FFFF, old >> 59
        return (mixed >> turn | mixed << (32 - turn)) & 0xFFFF_FFFF

    word()
    state = (state + seed) % 2**64
    word()
    while True:
        yield word()


def places_of(seed, size):
    """The places before this one at which docs/program.md says that bytes are cut."""
    places, place = set(), 0
    for word in words_of_pcg32(seed, 54):
        place += word // 4 % (2, 8, 32, 256)[word % 4] + 1
        if place >= size:
            return places
        places.add(place)


def pieces_of_a_seed():
    """Each piece ends at a place of the seed, and two connections have the same places. Bytes that the server sends later
    begin a new piece."""
    reply = REPLY * 5
    for seed in (0, 7, 2**64 - 1):
        places = places_of(seed, len(reply))
        with running("tap", "--cut", f"random:{seed}", "127.0.0.1:0", (peer := Peer()).address) as tap:
            for _ in range(2):
                with peer.accept_on(tap.port) as (client, server):
                    server.sendall(reply)
                    pieces = pieces_of(client, len(reply))
                    assert b"".join(pieces) == reply, pieces
                    ends = {sum(map(len, pieces[:count])) for count in range(1, len(pieces))}
                    assert ends <= places and len(ends) > len(places) / 2, (seed, ends, places)
                    server.sendall(PONG)
                    assert b"".join(pieces_of(client, len(PONG))) == PONG


def commands_are_whole():
    with tapped(Peer(), "--cut", "1") as (_, client, server):
        client.sendall(PING * 3)
        assert server.recv(65_536) == PING * 3, "a command is cut"


def traffic_is_the_same():
    """The lines, the capture and the counts have what the server has sent, and not the pieces."""
    printed = []
    for words in ([], ["--cut", "1"]):
        with tempfile.TemporaryDirectory() as work:
            file = f"{work}/traffic.pcap"
            with tapped(Peer(), "--record", file, *words) as (tap, client, server):
                server.sendall(REPLY)
                hear(client, REPLY)
                client.close()
                server.close()
                until(lambda tap=tap: tap.printed().endswith(b"client 1 gone\n"), "client 1 isn't gone")
                printed.append(tap.printed().partition(b"\n")[2])
            with open(file, "rb") as capture:
                assert REPLY in capture.read(), "the packet of the reply"
            done = subprocess.run([PROGRAM, "tap", "--replay", file], capture_output=True, timeout=LIMIT, check=True)
            assert done.stdout == printed[-1], (done.stdout, printed[-1])
    assert printed[0] == printed[1], printed
    with tapped(Peer(), "--cut", "1", "--stats") as (tap, client, server):
        server.sendall(REPLY)
        hear(client, REPLY)
        client.close()
        server.close()
        until(lambda: b"(all)" in tap.printed(), "no table")
        row = tap.printed().partition(b"PING")[2].split()
        assert row[:4] == [b"1", b"0", b"%d" % len(PING), b"%d" % len(REPLY)], tap.printed()
        # The delay ends when the reply arrives from the server, and not when its last byte was sent on.
        assert row[5] == b"us" or row[5] == b"ms" and float(row[4]) < 100, tap.printed()


def rests(tap):
    """Whether a program uses less than 3 ticks of its processor in half a second."""
    before = tap.ticks()
    time.sleep(0.5)
    return tap.ticks() - before < 3


def clients_beside_each_other():
    """A client that reads nothing keeps no other from its bytes. Then nothing is left to do."""
    peer = Peer()
    with running("tap", "--cut", "5000", "127.0.0.1:0", peer.address) as tap, contextlib.ExitStack() as closing:
        stuck, from_server = closing.enter_context(peer.accept_on(tap.port))
        from_server.setblocking(False)
        with contextlib.suppress(BlockingIOError):
            while from_server.send(b"a" * 65_536):
                time.sleep(0.01)
        with peer.accept_on(tap.port) as (client, server):
            for _ in range(20):
                server.sendall(REPLY)
                hear(client, REPLY)
        until(lambda: rests(tap), "it uses a processor without work")
        stuck.recv(100)


def drain_sends_the_rest():
    """The replies to the commands that were read are sent in pieces before the end."""
    peer = Peer()
    with blocking("tap", "--cut", "1", "127.0.0.1:0", peer.address) as (ran, port, _), peer.accept_on(port) as (client, server):
        client.sendall(PING)
        hear(server, PING)
        server.sendall(REPLY)
        hear(client, REPLY[:1])
        ran.send_signal(signal.SIGTERM)
        assert hear_end(client) == REPLY[1:]
        client.close()
        assert ran.wait(LIMIT) == 0


TESTS = [pieces_of_a_number, pieces_of_a_seed, commands_are_whole, traffic_is_the_same, clients_beside_each_other,
         drain_sends_the_rest]
