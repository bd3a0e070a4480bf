#!/usr/bin/env python3
"""A reader of RESP with one planted error: reader.py ERROR.

`none` is the reader without an error. It was written from the texts, as the cases were, and decides none of them.
`--names` prints the names of the errors. Each has to be found by a case, or the cases miss what such a reader does.
"""
import json
import sys

ERRORS = """
error_in_array_stops error_cut_is_success empty_array_cut lf_ends_a_line cr_ends_a_line bulk_end_unchecked
bulk_length_in_characters negative_length_is_null length_wraps_at_32_bits integer_wraps_at_64_bits
integer_through_double integer_as_python_reads_it plus_is_refused null_bulk_is_empty null_array_is_empty empty_bulk_is_null
end_of_input_ends_a_line blank_lines_are_skipped depth_of_7 map_counts_items attribute_is_a_value push_inside_is_read
push_is_an_array boolean_by_its_first_letter false_is_no_reply double_as_python_reads_it big_wraps_at_64_bits
verbatim_with_its_encoding bulk_error_is_a_string set_loses_equal_numbers map_loses_equal_keys streamed_end_with_crlf
streamed_map_ends_after_a_key text_is_stripped text_is_utf_8 nul_ends_a_text unknown_type_is_a_line error_drops_the_rest
crlf_cut_in_two length_with_plus zeros_are_octal null_with_text depth_without_limit room_for_the_whole_length
error_is_a_string minus_zero_is_one_less integer_of_32_bits array_null_element_ends_it chunk_end_unchecked
rejected_bytes_are_skipped
""".split()
MORE = object()
DEPTH = 150


class Bad(Exception):
    """Bytes that no valid input has."""


class Short(Exception):
    """More bytes are needed."""


class Reader:
    def __init__(self, version, error):
        self.version, self.error = version, error
        self.text, self.at, self.depth, self.is_over = b"", 0, 0, False

    def byte(self):
        if self.at >= len(self.text):
            raise Short
        self.at += 1
        return self.text[self.at - 1:self.at]

    def line(self):
        begin = self.at
        while True:
            if self.at >= len(self.text) and self.is_over and self.error == "end_of_input_ends_a_line":
                return self.text[begin:]
            byte = self.byte()
            if byte == b"\n":
                if self.error == "lf_ends_a_line":
                    return self.text[begin:self.at - 1]
                raise Bad
            if byte == b"\r":
                end = self.at - 1
                if self.error == "crlf_cut_in_two" and self.at == len(self.text):
                    return self.text[begin:end]
                if self.byte() != b"\n" and self.error != "cr_ends_a_line":
                    raise Bad
                return self.text[begin:end]

    def number(self, signs=b""):
        """An optional sign of these, and digits."""
        text = self.line()
        digits = text[1:] if text[:1] and text[:1] in signs else text
        if not digits or not all(48 <= byte <= 57 for byte in digits):
            raise Bad
        if self.error == "zeros_are_octal" and len(digits) > 1 and digits[:1] == b"0" and all(byte < 56 for byte in digits):
            return (-1 if text[:1] == b"-" else 1) * int(digits, 8)
        return int(text) if len(text) < 4000 else text.decode()

    def length(self):
        if self.error == "length_with_plus":
            return self.number(b"+")
        number = self.number()
        return number % 2**32 if self.error == "length_wraps_at_32_bits" and not isinstance(number, str) else number

    def content(self, count):
        if self.error == "room_for_the_whole_length" and not isinstance(count, str):
            self.room = bytearray(min(count, 1 << 29))
        if isinstance(count, str) or self.at + count > len(self.text):
            raise Short
        text = self.text[self.at:self.at + count]
        if self.error == "bulk_length_in_characters":
            text = self.text[self.at:].decode("utf-8", "replace")[:count].encode("utf-8")
            count = len(text)
        self.at += count
        if self.at + 2 > len(self.text):
            if self.at < len(self.text) and self.text[self.at:] != b"\r" and self.error != "bulk_end_unchecked":
                raise Bad
            raise Short
        if self.text[self.at:self.at + 2] != b"\r\n" and self.error != "bulk_end_unchecked":
            raise Bad
        self.at += 2
        return text

    def text_of(self, text):
        if self.error == "text_is_stripped":
            text = text.strip()
        if self.error == "text_is_utf_8":
            text = text.decode("utf-8", "replace").encode("utf-8")
        if self.error == "nul_ends_a_text":
            text = text.split(b"\0")[0]
        return text.decode("latin-1")

    def items(self, count, is_map=False):
        """So many items, or those up to the end of a streamed aggregate if the count is None."""
        self.depth += 1
        if self.depth > (7 if self.error == "depth_of_7" else 10**9 if self.error == "depth_without_limit" else DEPTH):
            raise Bad
        found = []
        while count is None or len(found) < count:
            if count is None and self.text[self.at:self.at + 1] == b".":
                if is_map and len(found) % 2 and self.error != "streamed_map_ends_after_a_key":
                    raise Bad
                self.byte()
                if self.line():
                    raise Bad
                break
            item = self.value()
            found.append(item)
            if self.error == "error_in_array_stops" and item[0] == "error":
                break
            if self.error == "array_null_element_ends_it" and item[0] == "nullbulk":
                break
        self.depth -= 1
        return found

    def pairs(self, found):
        pairs = [[found[at], found[at + 1]] for at in range(0, len(found) - 1, 2)]
        if self.error == "map_loses_equal_keys":
            pairs = list({key_of(key): [key, item] for key, item in pairs}.values())
        return pairs

    def value(self):
        begin = self.at
        kind = self.byte()
        if self.error == "blank_lines_are_skipped":
            while kind in (b"\r", b"\n"):
                kind = self.byte()
        read = KINDS.get(kind)
        if read is None or (kind == b">" and self.depth and self.error != "push_inside_is_read"):
            if self.error == "unknown_type_is_a_line" and read is None:
                self.at = begin
                return ["simple", self.text_of(self.line())]
            raise Bad
        return read(self)

    def simple(self):
        return ["simple", self.text_of(self.line())]

    def failure(self):
        begin = self.at
        text = self.line()
        is_cut = self.error == "error_cut_is_success" and begin < self.last
        return ["simple" if is_cut or self.error == "error_is_a_string" else "error", self.text_of(text)]

    def integer(self):
        if self.error == "integer_as_python_reads_it":
            try:
                return ["integer", str(int(self.line()))]
            except ValueError:
                raise Bad
        number = int(self.number(b"-" if self.error == "plus_is_refused" else b"+-"))
        if self.error == "integer_through_double":
            return ["integer", str(int(float(number)))]
        if self.error == "integer_of_32_bits":
            return ["integer", str((number + 2**31) % 2**32 - 2**31)]
        if self.error == "minus_zero_is_one_less" and self.text[:self.at].endswith(b":-0\r\n"):
            return ["integer", "-1"]
        if not -2**63 <= number < 2**63:
            if self.error != "integer_wraps_at_64_bits":
                raise Bad
            number = (number + 2**63) % 2**64 - 2**63
        return ["integer", str(number)]

    def bulk(self):
        begin = self.at
        if self.text[begin:begin + 1] == b"-":
            if self.text[begin:begin + 4] == b"-1\r\n":
                self.at += 4
                return ["bulk", ""] if self.error == "null_bulk_is_empty" else ["nullbulk"]
            text = self.line()
            if self.error == "negative_length_is_null":
                return ["nullbulk"]
            raise Bad
        if self.text[begin:begin + 1] == b"?":
            if self.line() != b"?":
                raise Bad
            return ["bulk", self.chunks()]
        text = self.content(self.length())
        return ["nullbulk"] if self.error == "empty_bulk_is_null" and not text else ["bulk", self.text_of(text)]

    def chunks(self):
        joined = b""
        while True:
            if self.byte() != b";":
                raise Bad
            count = self.length()
            if count == 0:
                if self.error == "streamed_end_with_crlf":
                    self.content(0)
                return self.text_of(joined)
            if self.error == "chunk_end_unchecked":
                joined += self.text[self.at:self.at + count]
                self.at += count + 2
                if self.at > len(self.text):
                    raise Short
            else:
                joined += self.content(count)

    def count(self):
        if self.text[self.at:self.at + 1] == b"?":
            if self.line() != b"?":
                raise Bad
            return None
        number = self.length()
        return 2**63 if isinstance(number, str) else number

    def array(self):
        if self.text[self.at:self.at + 1] == b"-":
            if self.line() != b"-1":
                raise Bad
            return ["array", []] if self.error == "null_array_is_empty" else ["nullarray"]
        begin = self.at
        count = self.count()
        if self.error == "empty_array_cut" and count == 0 and begin < self.last < self.at:
            raise Short
        return ["array", self.items(count)]

    def set(self):
        found = self.items(self.count())
        if self.error == "set_loses_equal_numbers":
            found = list({key_of(item): item for item in found}.values())
        return ["set", found]

    def map(self):
        count = self.count()
        if self.error == "map_counts_items" and count:
            return ["map", self.pairs(self.items(count))]
        return ["map", self.pairs(self.items(None if count is None else 2 * count, True))]

    def attribute(self):
        pairs = self.pairs(self.items(2 * self.length(), True))
        if self.error == "attribute_is_a_value":
            return ["map", pairs]
        self.depth += 1
        value = self.value()
        self.depth -= 1
        return ["attribute", pairs, value]

    def push(self):
        return ["array" if self.error == "push_is_an_array" else "push", self.items(self.length())]

    def null(self):
        if self.line() and self.error != "null_with_text":
            raise Bad
        return ["null"]

    def boolean(self):
        text = self.line()
        if text[:1] in (b"t", b"f") and (len(text) == 1 or self.error == "boolean_by_its_first_letter"):
            return ["boolean", text[:1] == b"t"]
        raise Bad

    def double(self):
        text = self.line()
        if self.error == "double_as_python_reads_it":
            try:
                return ["double", repr(float(text))]
            except ValueError:
                raise Bad
        if text in (b"inf", b"-inf", b"nan"):
            return ["double", text.decode()]
        rest = text[1:] if text[:1] in (b"+", b"-") else text
        mantissa, e, exponent = rest.replace(b"E", b"e").partition(b"e")
        whole, point, part = mantissa.partition(b".")
        exponent = exponent[1:] if exponent[:1] in (b"+", b"-") else exponent
        if not whole.isdigit() or bool(point) != part.isdigit() or bool(e) != exponent.isdigit():
            raise Bad
        return ["double", text.decode()]

    def big(self):
        number = str(self.number(b"+-"))
        if self.error == "big_wraps_at_64_bits" and len(number) < 4000:
            number = str((int(number) + 2**63) % 2**64 - 2**63)
        return ["big", number]

    def bulk_error(self):
        return ["bulk" if self.error == "bulk_error_is_a_string" else "bulkerror", self.text_of(self.content(self.length()))]

    def verbatim(self):
        count = self.length()
        if not isinstance(count, str) and count < 4:
            raise Bad
        text = self.content(count)
        if text[3:4] != b":":
            raise Bad
        return ["verbatim", text[:3].decode("latin-1"), self.text_of(text if self.error == "verbatim_with_its_encoding" else text[4:])]

    def feed(self, piece, values):
        """Reads what ends in these bytes. Returns how it ended."""
        self.last = len(self.text)
        self.text += piece
        while self.text:
            self.at = self.depth = 0
            try:
                value = self.value()
            except Short:
                break
            except Bad:
                if self.error == "rejected_bytes_are_skipped" and b"\n" in self.text:
                    self.text = self.text.split(b"\n", 1)[1]
                    continue
                return "error"
            except RecursionError:
                sys.stdout.flush()
                import os
                os._exit(139)
            self.text = self.text[self.at:]
            self.last = max(0, self.last - self.at)
            if self.error == "error_drops_the_rest" and value[0] == "error":
                self.text = b""
            if self.error != "false_is_no_reply" or value != ["boolean", False]:
                values.append(value)
        return "more" if self.text else "clean"


KINDS = {b"+": Reader.simple, b"-": Reader.failure, b":": Reader.integer, b"$": Reader.bulk, b"*": Reader.array,
         b"_": Reader.null, b"#": Reader.boolean, b",": Reader.double, b"(": Reader.big, b"!": Reader.bulk_error,
         b"=": Reader.verbatim, b"%": Reader.map, b"~": Reader.set, b"|": Reader.attribute, b">": Reader.push}


def key_of(value):
    """What Python's dict holds equal: 1 and True and 1.0."""
    if value[0] in ("integer", "boolean", "double"):
        return float(value[1])
    return json.dumps(value)


def main():
    if sys.argv[1] == "--names":
        print(*ERRORS, sep="\n")
        return
    error = sys.argv[1]
    if sys.argv[2:] == ["--about"]:
        print(json.dumps({"parser": f"planted {error}", "profiles": ["resp2", "resp3", "streamed"]}))
        return
    for line in sys.stdin:
        name, version, pieces = (line.rstrip("\n").split(" ") + [""])[:3]
        reader, values, end = Reader(int(version), error), [], "clean"
        for piece in pieces.split(","):
            reader.is_over = piece == "end"
            end = reader.feed(b"" if piece == "end" else bytes.fromhex(piece), values)
            if end == "error":
                break
        print(json.dumps({"id": name, "values": values, "end": end}), flush=True)


if __name__ == "__main__":
    sys.setrecursionlimit(3000)
    main()
