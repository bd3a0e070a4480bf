"""Tests of the module resp in rows: texts and their replies, at every cut; and of its other calls."""
import array
import ast
import contextlib
import enum
import gc
import math
import pickle
import random
import sys
import tracemalloc
import unittest
import weakref

import resp

try:
    import _testcapi
except ImportError:
    _testcapi = None



class Number(enum.IntEnum):
    SEVEN = 7


def nested(value, depth):
    """Returns the value inside this many lists."""
    return [nested(value, depth - 1)] if depth else value


# The protocol, a text, and its replies.
ROWS = [
    (2, b"+OK\r\n", [b"OK"]),
    (2, b"+\r\n", [b""]),
    (2, b":-7\r\n:0\r\n", [-7, 0]),
    (2, b":9223372036854775807\r\n", [9223372036854775807]),
    (2, b"$5\r\nhe\r\no\r\n", [b"he\r\no"]),
    (2, b"$0\r\n\r\n", [b""]),
    (2, b"$-1\r\n*-1\r\n", [None, None]),
    (2, b"*0\r\n", [[]]),
    (2, b"*2\r\n*1\r\n+a\r\n:-1\r\n", [[[b"a"], -1]]),
    (3, b"_\r\n#t\r\n#f\r\n", [None, True, False]),
    (3, b",1.5\r\n,-inf\r\n,1e3\r\n", [1.5, -math.inf, 1000.0]),
    (3, b"(-0012\r\n(0\r\n", [-12, 0]),
    (3, b"(3492890328409238509324850943850943825024385\r\n", [3492890328409238509324850943850943825024385]),
    (3, b"=7\r\ntxt:abc\r\n", [b"abc"]),
    (3, b"$?\r\n;4\r\nhell\r\n;1\r\no\r\n;0\r\n", [b"hello"]),
    (3, b"*?\r\n:1\r\n.\r\n", [[1]]),
    (3, b"%2\r\n+a\r\n:1\r\n+b\r\n*1\r\n:2\r\n", [{b"a": 1, b"b": [2]}]),
    (3, b"%1\r\n*2\r\n+a\r\n%1\r\n:1\r\n:2\r\n:3\r\n", [{(b"a", ((1, 2),)): 3}]),
    (3, b"~3\r\n:1\r\n:3\r\n*1\r\n:2\r\n", [{1, 3, (2,)}]),
    (3, b"~3\r\n:1\r\n:1\r\n*1\r\n:2\r\n", [[1, 1, [2]]]),
    (3, b"|1\r\n+a\r\n*1\r\n:1\r\n+v\r\n:2\r\n", [b"v", 2]),
    (3, b"*2\r\n|2\r\n+a\r\n:1\r\n+b\r\n:2\r\n+v\r\n:3\r\n", [[b"v", 3]]),
    (3, b">2\r\n+m\r\n+n\r\n", [[b"m", b"n"]]),
    (3, b">0\r\n%0\r\n~0\r\n|0\r\n*0\r\n", [[], {}, set(), []]),
    (3, b"%2\r\n~1\r\n:1\r\n:2\r\n,0.5\r\n_\r\n", [{frozenset([1]): 2, 0.5: None}]),
    (3, b"|1\r\n+a\r\n+b\r\n*2\r\n|1\r\n*1\r\n+c\r\n:1\r\n:2\r\n$2\r\nOK\r\n", [[2, b"OK"]]),
    (2, b"*70\r\n" + b":1\r\n" * 70 + b"+b\r\n", [[1] * 70, b"b"]),
    (2, b"*20\r\n" + b"*2\r\n$1\r\na\r\n:1\r\n" * 20, [[[b"a", 1]] * 20]),
    (2, b"*1\r\n" * 32 + b"+a\r\n+b\r\n", [nested(b"a", 32), b"b"]),
]


def cuts(text):
    """Returns the pieces of a text: whole, cut in two at each byte, and byte by byte with empty pieces between."""
    yield [text]
    yield from ([text[:at], text[at:]] for at in range(1, len(text)))
    yield [piece for at in range(len(text)) for piece in (text[at : at + 1], b"")]


def replies(reader, pieces):
    """Returns the replies of a reader that is fed the pieces."""
    given = []
    for piece in pieces:
        reader.feed(piece)
        while (reply := reader.gets()) is not reader_waits:
            given.append(reply)
    return given


reader_waits = object()


def reader(**words):
    return resp.Reader(notEnoughData=reader_waits, **words)


def mixed(chance, count):
    """Returns a text of this many values of RESP3, and the values."""
    kinds = [(b"+OK\r\n", b"OK"), (b":%d\r\n", None), (b"$16\r\n" + b"x" * 16 + b"\r\n", b"x" * 16), (b"_\r\n", None),
             (b"*3\r\n:1\r\n+a\r\n$2\r\nOK\r\n", [1, b"a", b"OK"]), (b"%1\r\n+k\r\n*0\r\n", {b"k": []}),
             (b"$300\r\n" + b"y" * 300 + b"\r\n", b"y" * 300), (b"=5\r\ntxt:z\r\n", b"z"), (b"(-1\r\n", -1)]
    texts, values = [], []
    for number in range(count):
        text, value = chance.choice(kinds)
        if b"%d" in text:
            text, value = text % number, number
        texts.append(text)
        values.append(value)
    return b"".join(texts), values


# The protocol that each command asks for, or 0; the text received, its pairs, and the protocol after it.
CONVERSATIONS = [
    ((0, 0), b"+OK\r\n$-1\r\n", [(1, b"OK"), (2, None)], 2),
    ((0, 3, 0), b"$-1\r\n%1\r\n+a\r\n_\r\n#t\r\n", [(1, None), (2, {b"a": None}), (3, True)], 3),
    ((3, 0), b">1\r\n+a\r\n%0\r\n>1\r\n:1\r\n:2\r\n", [(None, [b"a"]), (1, {}), (None, [1]), (2, 2)], 3),
    ((3, 0), b"-NOPROTO\r\n:7\r\n", [(1, "NOPROTO"), (2, 7)], 2),
    ((3, 0, 0), b"|1\r\n+a\r\n+b\r\n+OK\r\n|1\r\n+a\r\n:1\r\n,1.5\r\n_\r\n", [(1, b"OK"), (2, 1.5), (3, None)], 3),
    ((0, 0, 3, 0, 0), b"+a\r\n*1\r\n$1\r\nb\r\n%1\r\n+c\r\n:1\r\n#f\r\n$?\r\n;1\r\nd\r\n;0\r\n",
     [(1, b"a"), (2, [b"b"]), (3, {b"c": 1}), (4, False), (5, b"d")], 3),
    ((0, 3, 0), b"-ERR a\r\n!1\r\nE\r\n$1\r\nb\r\n", [(1, "ERR a"), (2, "E"), (3, b"b")], 2),
    ((3,) + (0,) * 40, b"%0\r\n" + b"_\r\n#t\r\n>1\r\n:1\r\n" * 20,
     [(1, {})] + [pair for it in range(20) for pair in [(2 * it + 2, None), (2 * it + 3, True), (None, [1])]], 3),
    ((0,) * 70 + (3, 0), b":1\r\n" * 70 + b"%0\r\n_\r\n", [(it + 1, 1) for it in range(70)] + [(71, {}), (72, None)], 3),
]



class Pairs(unittest.TestCase):
    def test_conversations_at_every_cut(self):
        for asked, text, wanted, protocol in CONVERSATIONS:
            for pieces in cuts(text):
                pairing = resp.Pairing(notEnoughData=reader_waits, replyError=str)
                self.assertEqual([pairing.queue(hello) for hello in asked], [*range(1, len(asked) + 1)])
                self.assertEqual(replies(pairing, pieces), wanted, (text, pieces))
                self.assertEqual(pairing.protocol(), protocol)

    def test_refusals(self):
        pairing = resp.Pairing(notEnoughData=reader_waits)
        pairing.feed(b"+OK\r\n_\r\n")
        with self.assertRaises(resp.ProtocolError) as raised:
            pairing.gets()
        self.assertEqual(raised.exception.cause, "Unasked")
        self.assertEqual(pairing.queue(2), 1)
        with self.assertRaises(ValueError):
            pairing.queue(3)
        with self.assertRaises(ValueError):
            pairing.queue(4)
        self.assertEqual(pairing.gets(), (1, b"OK"))
        self.assertEqual(pairing.queue(), 2)
        with self.assertRaises(resp.ProtocolError) as raised:
            pairing.gets()
        self.assertEqual((raised.exception.cause, raised.exception.at), ("Version", 0))


    def test_the_protocol_goes_back(self):
        text = b"%0\r\n_\r\n*0\r\n:1\r\n*1\r\n_\r\n"
        for pieces in cuts(text):
            pairing = resp.Pairing(notEnoughData=reader_waits)
            pairing.queue(3), pairing.queue()
            given = []
            for piece in pieces:
                pairing.feed(piece)
                try:
                    while (pair := pairing.gets()) is not reader_waits:
                        given.append(pair)
                        if len(given) == 2:
                            pairing.queue(2), pairing.queue(), pairing.queue()
                except resp.ProtocolError as error:
                    given.append((error.cause, error.at))
                    break
            self.assertEqual(given, [(1, {}), (2, None), (3, []), (4, 1), ("Version", 4)], pieces)

    def test_unasked_amid_a_buffer(self):
        for pieces in cuts(b"%0\r\n+b\r\n>1\r\n:1\r\n+c\r\n"):
            pairing = resp.Pairing(notEnoughData=reader_waits)
            pairing.queue(3)
            given = []
            for piece in pieces:
                pairing.feed(piece)
                for _ in range(9):
                    try:
                        given.append(pairing.gets())
                    except resp.ProtocolError as error:
                        self.assertEqual((error.cause, error.at), ("Unasked", 0))
                        pairing.queue()
            given = [it for it in given if it is not reader_waits]
            self.assertEqual(given, [(1, {}), (2, b"b"), (None, [1]), (3, b"c")], pieces)


class Rows(unittest.TestCase):
    def test_rows_at_every_cut(self):
        for protocol, text, wanted in ROWS:
            for pieces in cuts(text):
                self.assertEqual(replies(reader(protocol=protocol), pieces), wanted, (text, pieces))

    def test_types(self):
        given = replies(reader(protocol=3), [b"#t\r\n:1\r\n,1\r\n>1\r\n+m\r\n-ERR x\r\n!4\r\nE\r\ny\r\n"])
        self.assertEqual([type(it) for it in given], [bool, int, float, resp.Push, resp.ReplyError, resp.ReplyError])
        self.assertEqual([str(given[4]), str(given[5])], ["ERR x", "E\r\ny"])

    def test_nan(self):
        for text in (b",nan\r\n", b",-nan\r\n"):
            self.assertTrue(math.isnan(replies(reader(protocol=3), [text])[0]))

    def test_doubles_of_the_grammar(self):
        for text in (b"0", b"-0", b"+1.5", b"1.50", b"1e3", b"1E+3", b"-1.7976931348623157e+308", b"5e-324"):
            self.assertEqual(replies(reader(protocol=3), [b"," + text + b"\r\n"]), [float(text)])
        self.assertEqual(replies(reader(protocol=3), [b",inf\r\n,-inf\r\n"]), [math.inf, -math.inf])

    def test_what_waits_is_no_reply(self):
        """In protocol 3 `False` is a reply, so an object of its own says that none is complete."""
        read = resp.Reader(protocol=3)
        read.feed(b"#f\r\n#")
        self.assertIs(read.gets(), False)
        self.assertIs(read.gets(), resp.NO_REPLY)
        read.feed(b"f\r\n")
        self.assertIs(read.gets(), False)
        self.assertIs(read.gets(), resp.NO_REPLY)
        self.assertFalse(resp.NO_REPLY)
        self.assertEqual(repr(resp.NO_REPLY), "resp.NO_REPLY")
        read.set_protocol(2)
        self.assertIs(read.gets(), False)
        self.assertIs(resp.Reader().gets(), False)
        self.assertIsNone(resp.Reader(protocol=3, notEnoughData=None).gets())
        given = resp.Reader(notEnoughData=None)
        given.set_protocol(3)
        self.assertIsNone(given.gets())

    def test_equal_keys_and_members_are_kept(self):
        """Keys and members that are equal in Python, as 1 and True are, become a list: nothing is lost."""
        rows = [
            (b"%2\r\n:1\r\n+a\r\n#t\r\n+b\r\n", resp.Pairs([(1, b"a"), (True, b"b")])),
            (b"%2\r\n+a\r\n:1\r\n+a\r\n:2\r\n", resp.Pairs([(b"a", 1), (b"a", 2)])),
            (b"%1\r\n+a\r\n%2\r\n:0\r\n:1\r\n#f\r\n:2\r\n", {b"a": resp.Pairs([(0, 1), (False, 2)])}),
            (b"~3\r\n:0\r\n#f\r\n,0\r\n", [0, False, 0.0]),
            (b"~2\r\n:0\r\n:1\r\n", {0, 1}),
            (b"*1\r\n~2\r\n*1\r\n:1\r\n*1\r\n#t\r\n", [[[1], [True]]]),
        ]
        for text, wanted in rows:
            for pieces in cuts(text):
                given, = replies(reader(protocol=3), pieces)
                self.assertEqual(repr(given), repr(wanted), pieces)
                self.assertIs(type(given), type(wanted))

    def test_big_numbers_of_many_digits(self):
        """Python's int() refuses more than 4,300 digits at once. A big number may have 65,536."""
        for count in (1, 3999, 4000, 4001, 4300, 4301, 8000, 12345, 65536):
            for sign in (b"", b"-"):
                given, = replies(reader(protocol=3), [b"(" + sign + b"7" * count + b"\r\n"])
                self.assertEqual(given, (10**count - 1) // 9 * (-7 if sign else 7), count)
        long = reader(protocol=3)
        long.feed(b":1\r\n(" + b"7" * 65537 + b"\r\n:2\r\n")
        self.assertEqual(long.gets(), 1)
        for _ in range(2):
            with self.assertRaises(resp.ProtocolError) as raised:
                long.gets()
            self.assertEqual((raised.exception.cause, raised.exception.at), ("Length", None))

    def test_a_refusal_names_cause_and_byte_for_good(self):
        rows = [
            (2, b"+a\r\n_\r\n", "Version", 0),
            (2, b"*1\r\n:x", "Syntax", 5),
            (2, b":9223372036854775808\r\n", "Range", 19),
            (3, b"*1\r\n>", "NestedPush", 4),
        ]
        for protocol, text, cause, at in rows:
            for pieces in cuts(text):
                read = reader(protocol=protocol)
                with self.assertRaises(resp.ProtocolError) as raised:
                    replies(read, pieces)
                self.assertEqual((raised.exception.cause, raised.exception.at), (cause, at), (text, pieces))
                self.assertEqual(str(raised.exception), f"{cause} at byte {at} of the value")
                with self.assertRaises(resp.ProtocolError):
                    read.gets()

    def test_a_fault_comes_after_the_replies_before_it(self):
        for count in (1, 2, 62, 63, 64, 65, 200):
            read = reader()
            read.feed(b":5\r\n" * count + b"*2\r\n+a\r\n:x")
            self.assertEqual([read.gets() for _ in range(count)], [5] * count)
            for _ in range(2):
                with self.assertRaises(resp.ProtocolError) as raised:
                    read.gets()
                self.assertEqual((raised.exception.cause, raised.exception.at), ("Syntax", 9))
            with self.assertRaises(ValueError):
                read.set_protocol(3)

    def test_the_protocol_changes_between_two_replies_of_a_buffer(self):
        # After how many replies which protocol is set, the text received, and the replies with the error that ends them.
        for changes, text, wanted in [
            ({2: 3}, b"$-1\r\n+a\r\n_\r\n#t\r\n", [None, b"a", None, True]),
            ({1: 3}, b"+a\r\n*2\r\n:1\r\n_\r\n+b\r\n", [b"a", [1, None], b"b"]),
            ({1: 3, 2: 2}, b"+a\r\n_\r\n+b\r\n_\r\n", [b"a", None, b"b", ("Version", 0)]),
            ({1: 3, 3: 2}, b"+a\r\n_\r\n%0\r\n*1\r\n:1\r\n*1\r\n_", [b"a", None, {}, [1], ("Version", 4)]),
            ({0: 3, 1: 2, 2: 3}, b"#f\r\n+a\r\n%1\r\n:1\r\n:2\r\n", [False, b"a", {1: 2}]),
            ({70: 3}, b":1\r\n" * 70 + b"_\r\n", [1] * 70 + [None]),
        ]:
            for pieces in cuts(text):
                read, given = reader(), []
                try:
                    for piece in pieces:
                        read.feed(piece)
                        reply = None
                        while reply is not reader_waits:
                            with contextlib.suppress(ValueError):
                                # If a reply was begun, the protocol was set before.
                                read.set_protocol(changes.get(len(given), 4))
                            reply = read.gets()
                            given += [reply] * (reply is not reader_waits)
                except resp.ProtocolError as error:
                    given.append((error.cause, error.at))
                self.assertEqual(given, wanted, (text, pieces))

    def test_the_protocol_changes_at_each_reply(self):
        read = reader()
        read.feed(b"*1\r\n$-1\r\n*1\r\n_\r\n" * 100)
        for _ in range(100):
            read.set_protocol(2)
            self.assertEqual(read.gets(), [None])
            read.set_protocol(3)
            self.assertEqual(read.gets(), [None])

    def test_feeds_and_gets_in_any_order(self):
        chance = random.Random(33)
        for _ in range(300):
            text, wanted = mixed(chance, chance.randrange(1, 300))
            read, given, at = reader(protocol=3), [], 0
            while at < len(text):
                size = chance.choice((1, 7, 100, 5000))
                piece = text[at : at + size]
                how = chance.randrange(4)
                if how == 0:
                    read.feed(bytearray(piece))
                elif how == 1:
                    read.feed(text, at, len(piece))
                elif how == 2:
                    read.feed(memoryview(text), at, len(piece))
                else:
                    read.feed(piece)
                at += size
                for _ in range(chance.choice((0, 1, 1000))):
                    reply = read.gets()
                    if reply is reader_waits:
                        break
                    given.append(reply)
            given += replies(read, [b""])
            self.assertEqual(given, wanted)
            self.assertFalse(read.has_data())

    def test_bytes_that_change_were_copied(self):
        piece = bytearray(b"+ab\r\n+c")
        read = reader()
        read.feed(piece)
        piece[:] = b"-------"
        self.assertEqual(read.gets(), b"ab")
        read.feed(b"d\r\n")
        self.assertEqual(read.gets(), b"cd")

    def test_nothing_is_held_that_was_read(self):
        read = reader()
        piece = b"$3\r\nabc\r\n" * 100
        before = sys.getrefcount(piece)
        self.assertEqual(replies(read, [piece]), [b"abc"] * 100)
        self.assertEqual(sys.getrefcount(piece), before)
        read.feed(piece)
        read.gets()
        del read
        self.assertEqual(sys.getrefcount(piece), before)

    def test_a_cycle_is_collected(self):
        class Parser:
            def __init__(self):
                self.reader = resp.Reader(replyError=self.error)

            def error(self, text):
                return self

        parser = Parser()
        parser.reader.feed(b"*2\r\n-a\r\n+b")
        self.assertIs(parser.reader.gets(), False)
        held = weakref.ref(parser)
        del parser
        gc.collect()
        self.assertIsNone(held())

    def test_a_list_that_is_begun_is_hidden(self):
        read = reader()
        read.feed(b"*987\r\n*654\r\n" + b":1\r\n" * 600)
        self.assertIs(read.gets(), reader_waits)
        gc.collect()
        self.assertFalse([it for it in gc.get_objects() if type(it) is list and len(it) in (987, 654)])
        read.feed(b":1\r\n" * 1040)
        reply = read.gets()
        self.assertEqual(reply, [[1] * 654] + [1] * 986)
        self.assertTrue(gc.is_tracked(reply) and gc.is_tracked(reply[0]))

    def test_a_head_is_not_believed(self):
        tracemalloc.start()
        try:
            read = reader()
            for text in (b"*100000000\r\n:1\r\n", b"*10000000\r\n$536870912\r\nabc"):
                read.feed(text)
                self.assertIs(read.gets(), reader_waits)
            self.assertLess(tracemalloc.get_traced_memory()[1], 1_000_000)
        finally:
            tracemalloc.stop()

    def test_a_reader_in_use_refuses_calls(self):
        calls = lambda: read.gets(), lambda: read.feed(b"+c\r\n"), lambda: read.set_protocol(3), lambda: read.__init__()
        for call in calls:
            read = resp.Reader(replyError=lambda text: call())
            read.feed(b"+a\r\n-b\r\n+c\r\n")
            self.assertEqual(read.gets(), b"a")
            with self.assertRaises(RuntimeError):
                read.gets()
            self.assertEqual(read.gets(), b"c")
        for kind in (resp.Reader, resp.Pairing):
            read = kind.__new__(kind)
            for call in (lambda: read.gets(), lambda: read.feed(b"+c\r\n")):
                with self.assertRaises(RuntimeError):
                    call()

    def test_a_reader_begins_anew(self):
        read = reader(encoding="utf-8")
        read.feed(b"*3\r\n+a\r\n+b")
        self.assertIs(read.gets(), reader_waits)
        with self.assertRaises(ValueError):
            read.__init__(depth=3)
        read.feed(b"\r\n+c\r\n")
        self.assertEqual(read.gets(), ["a", "b", "c"])
        read.feed(b"*3\r\n+a\r\n+b")
        read.__init__(protocol=3)
        read.feed(b"_\r\n+c\r\n")
        self.assertEqual([read.gets(), read.gets(), read.gets()], [None, b"c", resp.NO_REPLY])

    @unittest.skipUnless(_testcapi, "this Python can't refuse memory")
    def test_each_piece_of_memory_refused(self):
        text, wanted = mixed(random.Random(7), 80)
        text += b"$9000\r\n" + b"z" * 9000 + b"\r\n*1000\r\n" + b":1000\r\n" * 1000 + b"+end\r\n"
        wanted += [b"z" * 9000, [1000] * 1000, b"end"]
        pieces = [bytearray(text[at : at + 2000]) for at in range(0, len(text), 2000)]
        gc.disable()
        self.addCleanup(gc.enable)
        number, losses, was_refused = 0, 0, True
        while was_refused:
            given, was_refused = self.given_without(number, pieces, len(wanted))
            lost = [at for at, reply in enumerate(given) if reply is MemoryError]
            self.assertLessEqual(len(lost), was_refused)
            self.assertEqual([given[at] for at in range(len(given)) if at not in lost],
                             [wanted[at] for at in range(len(given)) if at not in lost])
            number, losses = number + 1, losses + len(lost)
        self.assertGreater(losses, 50)

    def given_without(self, number, pieces, count):
        """Returns the replies of a reader while the allocation of this number fails, with MemoryError if a reply is lost,
        and whether any allocation failed. A feed that fails is repeated."""
        read, given = reader(protocol=3), [None] * count
        feeds, replies, was_fed, was_refused = 0, 0, False, False
        _testcapi.set_nomemory(number, number + 1)
        while feeds < len(pieces):
            try:
                if not was_fed:
                    read.feed(pieces[feeds])
                    was_fed = True
                reply = read.gets()
            except MemoryError:
                was_refused = True
                if not was_fed:
                    continue
                reply = MemoryError
            if reply is reader_waits:
                feeds, was_fed = feeds + 1, False
            else:
                given[replies] = reply
                replies += 1
        _testcapi.remove_mem_hooks()
        return given, was_refused

    def test_limits(self):
        for words in [{"depth": 3}, {"length": 0}, {"total": 255}, {"items": 15}, {"protocol": 4}]:
            with self.assertRaises(ValueError):
                resp.Reader(**words)
        for words, text, cause in [
            ({"doubles": False}, b",1\r\n", "Double"),
            ({"streamed": False}, b"*?\r\n", "Streamed"),
            ({"length": 64}, b"$65\r\n", "Length"),
            ({"items": 16}, b"*17\r\n", "Items"),
        ]:
            with self.assertRaises(resp.ProtocolError) as raised:
                replies(reader(protocol=3, **words), [text])
            self.assertEqual(raised.exception.cause, cause)

    def test_encoding(self):
        given = replies(reader(encoding="utf-8"), [b"$2\r\n\xc3\xa4\r\n+a\r\n"])
        self.assertEqual(given, ["\xe4", "a"])
        read = reader(encoding="utf-8")
        read.feed(b"$2\r\n\xc3\xa4\r\n")
        self.assertEqual(read.gets(False), b"\xc3\xa4")

    def test_a_reply_that_cannot_be_made_raises_and_the_next_is_read(self):
        for pieces in cuts(b"*2\r\n$1\r\n\xff\r\n:1\r\n:2\r\n"):
            read = reader(encoding="utf-8")
            given = []
            for piece in pieces:
                read.feed(piece)
                for _ in range(3):
                    try:
                        reply = read.gets()
                        if reply is not reader_waits:
                            given.append(reply)
                    except UnicodeDecodeError:
                        given.append("not text")
            self.assertEqual(given, ["not text", 2])

    def test_errors_of_the_caller(self):
        class Refused(Exception):
            pass

        read = resp.Reader(protocolError=Refused, replyError=lambda text: text.upper())
        read.feed(b"-err\r\nx")
        self.assertEqual(read.gets(), "ERR")
        with self.assertRaises(Refused):
            read.gets()
        with self.assertRaises(TypeError):
            resp.Reader(replyError=1)

    def test_calls(self):
        read = resp.Reader()
        self.assertIs(read.gets(), False)
        self.assertFalse(read.has_data())
        read.feed(bytearray(b"xx+ab"), 2, 3)
        self.assertTrue(read.has_data())
        with self.assertRaises(ValueError):
            read.feed(b"abc", 2, 2)
        self.assertIs(read.gets(), False)
        with self.assertRaises(ValueError):
            read.set_protocol(3)
        read.feed(b"\r\n")
        self.assertEqual(read.gets(), b"ab")
        read.set_protocol(3)
        read.feed(b"_\r\n")
        self.assertIsNone(read.gets())

    def test_the_stubs_name_all(self):
        with open(resp.__file__.replace("__init__.py", "__init__.pyi"), encoding="utf-8") as file:
            stubs = ast.parse(file.read())
        named = {it.name: it for it in stubs.body if isinstance(it, (ast.ClassDef, ast.FunctionDef))}
        constants = {it.target.id for it in stubs.body if isinstance(it, ast.AnnAssign)}
        self.assertEqual({*named} - {"NoReply"} | constants, {*resp.__all__})
        for name in ("Reader", "Pairing"):
            methods = {it.name for it in named[name].body if isinstance(it, ast.FunctionDef)} - {"__init__"}
            self.assertEqual(methods, {it for it in vars(getattr(resp, name)) if not it.startswith("__")})

    def test_a_type_without_its_module(self):
        class Changed(resp.Reader):
            pass

        kept = Changed(protocol=3)
        for other in (None, sys):
            Changed.__resp__ = other
            with self.assertRaises(TypeError):
                Changed()
            with self.assertRaises(TypeError):
                kept.__init__()
        kept.feed(b">1\r\n+a\r\n")
        self.assertIsInstance(kept.gets(), resp.Push)

    def test_doubles(self):
        for text, wanted in [(b"1.5", 1.5), (b"-1", -1.0), (b"+1.0", 1.0), (b"0.5", 0.5), (b"1e3", 1000.0), (b"1.5E-1", 0.15),
                             (b"inf", math.inf), (b"-inf", -math.inf), (b"1e400", math.inf)]:
            for pieces in cuts(b"," + text + b"\r\n:1\r\n"):
                self.assertEqual(replies(reader(protocol=3), pieces), [wanted, 1], text)
        for text, at in [(b"abc", 1), (b"1_0", 2), (b" 12", 1), (b"12 ", 3), (b"1,5", 2), (b"", 1), (b".", 1), (b"-", 2), (b"1e", 3),
                         (b"1e+", 4), (b"e1", 1), (b"0x1p3", 2), (b"infinity", 4), (b"1.5.2", 4), (b".5", 1), (b"1.", 3),
                         (b"-.5", 2), (b"+inf", 2), (b"+nan", 2), (b"nan(1)", 4), (b"\xc2\xb2", 1), (b"1\0", 2)]:
            for given, before in ((b":1\r\n," + text + b"\r\n:2\r\n", 0), (b":1\r\n*2\r\n," + text + b"\r\n:3\r\n:2\r\n", 4)):
                for pieces in cuts(given):
                    broken, said = reader(protocol=3), []
                    for piece in pieces:
                        broken.feed(piece)
                        with contextlib.suppress(resp.ProtocolError):
                            while (reply := broken.gets()) is not reader_waits:
                                said.append(reply)
                    self.assertEqual(said, [1], (text, pieces))
                    for _ in range(2):
                        with self.assertRaises(resp.ProtocolError) as raised:
                            broken.gets()
                        self.assertEqual((raised.exception.cause, raised.exception.at), ("Syntax", before + at))

    def test_a_small_reader(self):
        """Until the first bytes arrive a reader needs little memory."""
        gc.collect()
        tracemalloc.start()
        try:
            held = [resp.Reader() for _ in range(100)]
            self.assertLess(tracemalloc.get_traced_memory()[0], 100 * 1536)
            self.assertFalse(held[0].gets())
        finally:
            tracemalloc.stop()

    def test_as_hiredis(self):
        given = resp.Reader()
        self.assertEqual((given.len(), given.getmaxbuf()), (0, 65536))
        given.feed(b":1\r\n:2\r\n")
        self.assertEqual((given.gets(), given.len(), given.gets(), given.len()), (1, 4, 2, 0))
        given.setmaxbuf(0)
        self.assertEqual(given.getmaxbuf(), 0)
        given.setmaxbuf(10)
        given.feed(b"$100\r\n")
        given.feed(b"x" * 100)
        given.feed(b"\r\n")
        self.assertEqual((given.gets(), given.getmaxbuf()), (b"x" * 100, 10))
        given.setmaxbuf(None)
        self.assertEqual(given.getmaxbuf(), 65536)
        with self.assertRaises(ValueError):
            given.setmaxbuf(-1)
        with self.assertRaises(TypeError):
            given.setmaxbuf("1")
        lists = resp.Reader(protocol=3, convertSetsToLists=True)
        lists.feed(b"~2\r\n:1\r\n:1\r\n")
        self.assertEqual(lists.gets(), [1, 1])

    def test_set_encoding(self):
        given = resp.Reader()
        for words, wanted in [({}, b"\xe4"), ({"encoding": "latin-1"}, "\xe4"),
                              ({"encoding": "utf-8", "errors": "replace"}, "\ufffd"),
                              ({"encoding": "ascii", "errors": "ignore"}, ""), ({}, b"\xe4")]:
            given.set_encoding(**words)
            given.feed(b"+\xe4\r\n")
            self.assertEqual(given.gets(), wanted)
        for words in ({"encoding": "no such"}, {"encoding": "utf-8", "errors": "no such"}, {"errors": "no such"}):
            for call in (given.set_encoding, resp.Reader, resp.Pairing):
                with self.assertRaises(LookupError):
                    call(**words)
        given.feed(b"+\xe4\r\n")
        self.assertEqual(given.gets(), b"\xe4")

    def test_a_type_of_its_own(self):
        class Own(resp.Reader):
            def __init__(self, **words):
                super().__init__(**words)
                self.count = 0

            def gets(self, *words):
                self.count += 1
                return super().gets(*words)

        own = Own(protocol=3)
        own.feed(b">1\r\n:1\r\n+OK\r\n:7\r\n")
        self.assertEqual([own.gets() for _ in range(4)], [[1], b"OK", 7, resp.NO_REPLY])
        self.assertEqual(own.count, 4)
        own.self = own
        seen = weakref.ref(own)
        del own
        gc.collect()
        self.assertIsNone(seen())

    def test_queue_by_words(self):
        pairing = resp.Pairing()
        paired = [("GET", "a"), (b"get",), ("HELLO",), ("CLIENT", "ID"), ("SET", "a", 1.5), ("GET", memoryview(b"a"))]
        for number, words in enumerate(paired):
            self.assertEqual(pairing.queue(*words), number + 1)
        for words in [("SUBSCRIBE", "a"), ("unsubscribe",), ("PSUBSCRIBE", "a"), ("PUNSUBSCRIBE",), (b"SSUBSCRIBE", b"a"),
                      ("SUNSUBSCRIBE",), ("MONITOR",), ("SYNC",), ("PSYNC", "?", -1), ("RESET",), ("CLIENT", "REPLY", "OFF"),
                      (bytearray(b"reset"),)]:
            with self.assertRaisesRegex(ValueError, "exactly one reply"):
                pairing.queue(*words)
        with self.assertRaises(TypeError):
            pairing.queue(None, "a")
        for hello in (1, 4, 16, 17, 2**32, 2**32 + 3):
            with self.assertRaisesRegex(ValueError, "neither"):
                pairing.queue(hello)
        self.assertEqual(pairing.queue("hello", 3), 7)
        with self.assertRaisesRegex(ValueError, "waits"):
            pairing.queue("HELLO", b"2", "SETNAME", "a")
        pairing.feed(b"+1\r\n+2\r\n+3\r\n+4\r\n+5\r\n+6\r\n%0\r\n")
        self.assertEqual([pairing.gets() for _ in range(7)][-1], (7, {}))
        self.assertEqual(pairing.protocol(), 3)

    def test_subscriptions(self):
        subscribed = b">3\r\n+subscribe\r\n+a\r\n:1\r\n"
        pairing = resp.Pairing(notEnoughData=reader_waits, replyError=str)
        self.assertEqual(pairing.queue("HELLO", 3), 1)
        pairing.feed(b"%0\r\n")
        self.assertEqual(pairing.gets(), (1, {}))
        self.assertEqual([pairing.queue("GET", "a"), pairing.queue("SUBSCRIBE", "a", "b"), pairing.queue("GET", "b")], [2, 3, 4])
        with self.assertRaisesRegex(ValueError, "pushes answer waits"):
            pairing.queue("PSUBSCRIBE", "c")
        given = replies(pairing, [b":1\r\n" + subscribed, subscribed + b":2\r\n"])
        self.assertEqual([number for number, _ in given], [2, None, None, 4])
        self.assertEqual([pairing.queue("SUBSCRIBE", "c"), pairing.queue("GET", "b")], [5, 6])
        self.assertEqual(replies(pairing, [b"-NOPERM\r\n", b"_\r\n"]), [(5, "NOPERM"), (6, None)])
        with self.assertRaisesRegex(ValueError, "exactly one reply"):
            pairing.queue("UNSUBSCRIBE")

    def test_an_interpreter_of_its_own(self):
        if not _testcapi:
            self.skipTest("this Python has no _testcapi")
        code = "import resp; r = resp.Reader(protocol=3); r.feed(b'>1\\r\\n:7\\r\\n-no\\r\\n'); assert r.gets() == [7]; r.gets()"
        for _ in range(3):
            self.assertEqual(_testcapi.run_in_subinterp(code), 0)
        given = resp.Reader()
        given.feed(b":7\r\n+OK\r\n-no\r\n")
        self.assertEqual([given.gets(), given.gets(), type(given.gets())], [7, b"OK", resp.ReplyError])

    def test_pack(self):
        self.assertEqual(resp.pack("SET", b"\xff", 1, 1.5, "\xe4"),
                         b"*5\r\n$3\r\nSET\r\n$1\r\n\xff\r\n$1\r\n1\r\n$3\r\n1.5\r\n$2\r\n\xc3\xa4\r\n")
        self.assertEqual(resp.pack("SET", b"", b"x" * 1000), b"*3\r\n$3\r\nSET\r\n$0\r\n\r\n$1000\r\n" + b"x" * 1000 + b"\r\n")
        self.assertEqual(resp.pack(bytearray(b"xy"), memoryview(b"azzb")[1:3], memoryview(b""), array.array("B", [1])),
                         b"*4\r\n$2\r\nxy\r\n$2\r\nzz\r\n$0\r\n\r\n$1\r\n\x01\r\n")
        self.assertEqual(resp.pack(-5, 10 ** 30, 1e300, float("-inf"), Number.SEVEN),
                         b"*5\r\n$2\r\n-5\r\n$31\r\n1" + b"0" * 30 + b"\r\n$6\r\n1e+300\r\n$4\r\n-inf\r\n$1\r\n7\r\n")
        for word in (True, None, [], {}, object(), 1j):
            with self.assertRaisesRegex(TypeError, "a word of a command is"):
                resp.pack("SET", word)
        with self.assertRaises(BufferError):
            resp.pack(memoryview(b"abcd")[::2])
        with self.assertRaises(UnicodeEncodeError):
            resp.pack("\ud800")
        with self.assertRaises(ValueError):
            resp.pack()

    def test_push_is_pickled(self):
        read = resp.Reader(protocol=3)
        read.feed(b">2\r\n+m\r\n:1\r\n")
        push = read.gets()
        again = pickle.loads(pickle.dumps(push))
        self.assertIsInstance(again, resp.Push)
        self.assertEqual(again, [b"m", 1])


if __name__ == "__main__":
    unittest.main()
