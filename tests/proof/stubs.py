"""Replaces functions of a copy of a crate by stubs, so that a check of the others proves nothing but the others.

A stub calls a foreign function whose contract is false, so it meets every contract at once. A caller of a stub is
proved from the stub's contract, as a caller of any function is. Therefore the goals of the functions that are kept are
the same as in the crate itself. What a check over stubs proves is no proof: it only shows which goals it refuses.
"""
import os
import re
import shutil

# What stands in the body of a stub, and what the crate declares for it.
BODY = "{ crate::never(); unreachable!() }"
NEVER = '\nunsafe extern "C" {\n    pub(crate) safe fn never()\n        ensures { ⊥ };\n}\n'
# The value of the option --links of a crate that declares a foreign function.
LINKED = "never"

FUNCTION = re.compile(r"^( *)(?:pub(?:\([a-z]+\))? )?fn (\w+)", re.M)
TOKEN = re.compile(r"""//[^\n]*|"(?:\\.|[^"\\])*"|r"[^"]*"|b?'(?:\\.[^']*|[^'\\])'|\b(?:requires|ensures)\b|[()\[\]{};]""", re.S)


def body_of(text, at):
    """Returns the begin and the end of the body of the function whose line begins at this place; None if it has none."""
    depth, begin, in_clause = 0, None, False
    for token in TOKEN.finditer(text, at):
        sign = token[0]
        if sign in ("requires", "ensures"):
            in_clause |= depth == 0
        elif sign == ";" and depth == 0:
            return None
        elif sign in ("(", "[", "{"):
            if sign == "{" and depth == 0 and not in_clause:
                begin = token.start()
            depth += 1
        elif sign in (")", "]", "}"):
            depth -= 1
            if depth == 0 and begin is not None:
                return begin, token.end()
            in_clause &= depth > 0 or sign != "}"
    return None


def cycle_of(text, at):
    """Returns the attribute that names the cycle of calls of the function whose line begins at this place, and its place,
    or an empty text."""
    for line in reversed(text[:at].splitlines(True)):
        at -= len(line)
        if re.match(r" *#\[cycle\(\w+\)\]$", line.rstrip("\n")):
            return line, at
        if not line.lstrip().startswith(("#[", "//")):
            break
    return "", at


def stub(room, kept, name_of):
    """Replaces each function of the crate in the folder `room` by a stub, except those of `kept` and those in a cycle of
    calls with one of them, and removes the proof files of what it replaces. `name_of` returns the path of the function
    at a place of the text of a file."""
    texts = {}
    for at, _, files in os.walk(f"{room}/src"):
        for path in (f"{at}/{file}" for file in files if file.endswith(".rt")):
            with open(path, encoding="utf-8") as it:
                texts[os.path.relpath(path, room)] = it.read()
    for path, text in texts.items():
        found = [(it.start(), it[2], name_of(path, text, it.end()), *cycle_of(text, it.start())) for it in FUNCTION.finditer(text)]
        cycles = {cycle.strip() for _, _, name, cycle, _ in found if cycle and name in kept}
        for begin, last, name, cycle, place in reversed(found):
            body = body_of(text, begin)
            if not body or name in kept or cycle.strip() in cycles:
                continue
            text = text[: body[0]] + BODY + text[body[1] :]
            text = text[:place] + text[place + len(cycle) :] if cycle else text
            remove_proof(room, name, {last, *re.findall(r"\((\w+)\)", cycle)})
        root = path in ("src/lib.rt", "src/main.rt")
        with open(f"{room}/{path}", "w", encoding="utf-8") as it:
            it.write(text + (NEVER if root else ""))


def remove_proof(room, name, cycles):
    """Removes the proof files of a function, and those of the cycles of these names in its module."""
    place = name.replace("::", "/")
    for it in [place, *(f"{os.path.dirname(place)}/+{cycle}" for cycle in cycles)]:
        shutil.rmtree(f"{room}/proofs/{it}", ignore_errors=True)
