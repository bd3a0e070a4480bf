"""The cases, the ways of feeding one, and what a parser's answer to one is worth."""
import json
import os
import re

HERE = os.path.dirname(os.path.realpath(__file__))
# A reply that no case has. It shows who gets the reply that follows the bytes of a case.
KNOWN = b"$8\r\nKNOWN-42\r\n"
KNOWN_VALUE = ["bulk", "KNOWN-42"]
# What a cell can say, from the worst to the best, with the sentence of the legend.
VERDICTS = {
    "crash": "the process died or took too much memory",
    "other": "a caller gets the reply to another caller's command",
    "wrong": "a value that the bytes do not have",
    "silent": "valid bytes, and no reply",
    "rejected": "valid bytes are rejected",
    "accepted": "invalid bytes are accepted",
    "waits": "invalid bytes are not rejected yet, though no valid reply begins so",
    "right": "as the texts say",
    "outside": "a form that the parser does not claim to read",
}
WORST_FIRST = list(VERDICTS)
# The sections that speak of a client's side, by the names that the cases give the two texts.
SECTIONS = {
    "RPS": ("Request-Response model", "RESP protocol description", "RESP versions", "Simple strings", "Simple errors", "Integers",
            "Bulk strings", "Null bulk strings", "Arrays", "Null arrays", "Null elements in arrays", "Nulls", "Booleans", "Doubles",
            "Big numbers", "Bulk errors", "Verbatim strings", "Maps", "Attributes", "Sets", "Pushes"),
    "RESP3": ("Double", "Map type", "Set type", "Push type", "Streamed strings", "Streamed aggregated data types"),
}
# Cases up to this length are cut at each place, longer ones near both ends and around powers of two.
CUT_EVERYWHERE = 160
BYTE_BY_BYTE = 700


def read_cases(path=None):
    with open(path or os.path.join(HERE, "cases.json"), encoding="ascii") as file:
        return json.load(file)


def bytes_of(case):
    return bytes.fromhex(case["hex"]) * case.get("times", 1)


def cuts_of(length):
    """Returns the places at which a text of this length is cut in two."""
    if length <= CUT_EVERYWHERE:
        return range(1, length)
    places = {*range(1, 33), *range(length - 32, length)}
    for power in range(6, 15):
        places |= {2**power - 1, 2**power, 2**power + 1}
    return sorted(place for place in places if 0 < place < length)


def feeds_of(case, only=None):
    """Returns the ways in which a parser gets the bytes: a name, the pieces, and whether the known reply follows and the
    connection ends. `only` names the ways that the driver has time for."""
    text = bytes_of(case)
    feeds = [("whole", [text], False, False)]
    if "times" not in case:
        if case["must"] in ("accept", "reject", "may"):
            feeds.append(("known", [text, KNOWN], True, False))
            feeds.append(("joined", [text + KNOWN], True, False))
        feeds.append(("end", [text], False, True))
        feeds += [(f"cut {at}", [text[:at], text[at:]], False, False) for at in cuts_of(len(text))]
        if 2 < len(text) <= BYTE_BY_BYTE:
            feeds.append(("bytes", [bytes([byte]) for byte in text], False, False))
    return [feed for feed in feeds if not only or feed[0].split()[0] in only]


def line_of(number, case, feed):
    """Returns the line that a driver reads for a case and a way of feeding it."""
    _, pieces, _, has_end = feed
    return f"{number} {case['version']} {','.join(piece.hex() for piece in pieces)}{',end' if has_end else ''}\n"


def alike(value, about):
    """Returns a value in the form in which it is compared: what the driver can't distinguish is the same."""
    tag = value[0]
    if tag == "attribute" and "attribute" in about.get("drops", ()):
        return alike(value[2], about)
    body = value[1] if len(value) > 1 else None
    if tag == "verbatim" and "format" in about.get("drops", ()):
        tag, body = "verbatim", value[-1]
    elif tag == "verbatim":
        body = f"{value[1]}:{value[2]}"
    name = next((group[0] for group in about.get("same", ()) if tag in group), tag)
    if tag in ("map", "attribute"):
        pairs = [[alike(key, about), alike(item, about)] for key, item in body]
        if name != tag:
            return [name, [item for pair in pairs for item in pair]]
        body = sorted(pairs, key=json.dumps) if about.get("unordered") else pairs
        return [name, body] + ([alike(value[2], about)] if tag == "attribute" else [])
    if tag in ("array", "set", "push"):
        items = [alike(item, about) for item in body]
        return [name, sorted(items, key=json.dumps) if tag == "set" and about.get("unordered") else items]
    if about.get("integers") == "text" and tag in ("simple", "bulk", "integer") and re.fullmatch(r"[+-]?\d{1,99}", body):
        body = str(int(body))
        return [name, body]
    if tag in ("double", "boolean", "integer", "big"):
        return [name, number_of(tag, body)]
    if tag in ("error", "bulkerror"):
        if about.get("errors") == "utf-8":
            body = body.encode("latin-1").decode("utf-8", "replace").encode("utf-8").decode("latin-1")
        word, _, rest = body.partition(" ")
        body = rest if word in about.get("error_words", ()) and rest else body
    return [name] if body is None else [name, body]


def number_of(tag, body):
    """Returns a number as a text that is the same for equal numbers."""
    if tag == "boolean":
        return "1" if body else "0"
    if tag == "double":
        try:
            number = float(body)
        except ValueError:
            return body
        return str(int(number)) if number.is_integer() and abs(number) < 1e15 else repr(number)
    return body.lstrip("+")


def listed(values, about):
    """Returns the values that a caller gets, in the form in which they are compared."""
    dropped = about.get("drops", ())
    return [alike(value, about) for value in values if not (value[0] == "push" and "push" in dropped)]


def verdict(case, feed, got, about):
    """Returns what an answer is worth: a key of VERDICTS."""
    _, _, has_known, has_end = feed
    must = case["must"]
    values = listed(got["values"], about)
    known = [alike(KNOWN_VALUE, about)] if has_known else []
    due = listed(case["values"], about)
    is_error = got["end"] == "error"
    if must == "accept":
        return of_valid(values, due, known, is_error and not (has_end and values == due))
    if must == "reject":
        return of_invalid(values, due, known, is_error or (has_end and values == due))
    if must == "wait":
        if values != due:
            return "wrong" if values[:len(due)] == due else of_valid(values, due, [], is_error)
        return "rejected" if is_error and not has_end else "right"
    if must == "novalue":
        return "right" if values == due else "accepted" if values[:len(due)] == due else of_valid(values, due, [], is_error)
    choices = [due] + [listed(other, about) for other in case.get("other", ())]
    if is_error and not values or any(values == choice + known and (has_end or not is_error) for choice in choices):
        return "right"
    return min((of_valid(values, choice, known, is_error) for choice in choices), key=lambda it: -WORST_FIRST.index(it))


def of_valid(values, due, known, is_error):
    """What the answer to valid bytes is worth."""
    want = due + known
    if values == want:
        return "rejected" if is_error else "right"
    if values == want[:len(values)]:
        return "rejected" if is_error else "silent"
    if len(values) > len(want) or known and known[0] in values[:len(due)]:
        return "other"
    return "wrong"


def of_invalid(values, due, known, is_error):
    """What the answer to invalid bytes is worth."""
    if values == due:
        return "right" if is_error else "waits"
    if values == due[:len(values)]:
        return "rejected" if is_error else "silent"
    if values[:len(due)] != due:
        return "wrong"
    more = len(values) - len(due) - len(known)
    return "other" if more > 1 or known and not is_error and (more < 1 or values[-1] != known[0]) else "accepted"


def problems_of(cases):
    """Returns what is wrong with the form of the cases: each has all keys, a name of its own, bytes in two forms, sections of
    the two texts, and a rule."""
    keys = {"id", "version", "profile", "bytes", "hex", "must", "values", "section", "rule", "flags"}
    found, names = [], set()
    for case in cases:
        name = case.get("id", "?")
        extra = set(case) - keys - {"at", "other", "times"}
        if not keys <= set(case) or extra:
            found.append(f"{name}: keys {sorted(keys ^ set(case))}")
        elif name in names:
            found.append(f"{name}: twice")
        elif case["must"] not in ("accept", "reject", "wait", "novalue", "may") or case["profile"] not in ("resp2", "resp3", "streamed"):
            found.append(f"{name}: must or profile")
        elif not sections_of(case["section"]):
            found.append(f"{name}: section")
        elif not case["rule"].endswith("."):
            found.append(f"{name}: rule")
        elif shown(bytes.fromhex(case["hex"])) != case["bytes"]:
            found.append(f"{name}: bytes and hex differ")
        elif case["must"] == "reject" and not all(0 <= at < len(bytes_of(case)) for at in case.get("at") or [-1]):
            found.append(f"{name}: at")
        names.add(name)
    return found


def sections_of(section):
    """Returns the sections of the two texts that a case names, or nothing if a text has no such section."""
    named = [tuple(it.split(", ", 1)) for it in section.split("; ")]
    return named if all(len(it) == 2 and it[1] in SECTIONS.get(it[0], ()) for it in named) else []


def shown(text):
    """Returns bytes as `bytes` of a case has them."""
    named = {13: "\\r", 10: "\\n", 9: "\\t", 92: "\\\\"}
    return "".join(named.get(byte) or (chr(byte) if 32 <= byte < 127 else f"\\x{byte:02x}") for byte in text)
