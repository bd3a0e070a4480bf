"""Compares resp_commands with redis-server: commands_of_redis.py FOLDER

The script runs two servers of its own, one as a node of a cluster. It asks test_commands for each command and each
subcommand of the table, for the places of the keys of commands that are drawn at random, for the slots of 10,000 keys,
and for the keys that globs match, as KEYS finds them. A command that only the server has is a warning, since a newer server has more commands. Any other difference is a
failure. The table is also made anew, and has the same bytes if the server has the version of the table.

COMMAND GETKEYS refuses many of the drawn commands, for example for too few words. These are not compared. No word is a
number with other letters, as `2x`: COMMAND GETKEYS reads it as 2, though the commands refuse it. The last word of a
drawn MIGRATE is not KEYS: COMMAND GETKEYS does not find it there, though MIGRATE does.
"""
import importlib.machinery
import importlib.util
import random
import subprocess
import sys

sys.dont_write_bytecode = True
HERE = sys.argv[1]
KEYS = 10_000
# The commands that are drawn for each row of the table, and the words of which they are made.
DRAWN = 25
WORDS = "a b c d 0 1 2 3 4 STREAMS streams Store STOREDIST count block -1 by GET Limit".split()
# The globs that are drawn, and the bytes of which they and the keys are made.
GLOBS = 400
GLOB_BYTES = "**??[[]]^--\\\\abcd"
# The options of MIGRATE that are drawn.
MIGRATED = 400
MIGRATE_OPTIONS = "COPY replace AUTH auth2 keys KEYS a b".split()
# The commands whose words are no keys but channels.
CHANNELS = {"spublish", "ssubscribe", "sunsubscribe"}


def loaded(path):
    """Returns the script as a module."""
    loader = importlib.machinery.SourceFileLoader("commands", path)
    module = importlib.util.module_from_spec(importlib.util.spec_from_loader("commands", loader))
    loader.exec_module(module)
    return module


def printed(lines):
    """Returns the lines that test_commands prints for these lines."""
    run = subprocess.run(
        [f"{HERE}/tests/gate/try"], cwd=f"{HERE}/crates/test_commands", input=b"".join(line + b"\n" for line in lines),
        stdout=subprocess.PIPE, stderr=subprocess.DEVNULL, check=True,
    )
    return run.stdout.decode().splitlines()


def keys():
    """Returns keys that are drawn from a seed, many of them with braces, without a line end."""
    draw = random.Random(1)
    alphabet = bytes(byte for byte in range(256) if byte != 10)
    made = []
    for _ in range(KEYS):
        letters = draw.choice((b"{}", b"{}ab", b"{}abcdefgh", alphabet))
        made.append(bytes(draw.choice(letters) for _ in range(draw.randrange(1, 24))))
    return made


def drawn(names):
    """Returns commands with these names and words that are drawn from a seed."""
    draw = random.Random(2)
    made = []
    for name in names:
        for _ in range(DRAWN):
            made.append([*name.split("|"), *(draw.choice(WORDS) for _ in range(draw.randrange(1, 9)))])
    return made


def drawn_options():
    """Returns MIGRATE with options that are drawn from a seed."""
    draw = random.Random(5)
    made = []
    for _ in range(MIGRATED):
        options = [draw.choice(MIGRATE_OPTIONS) for _ in range(draw.randrange(0, 7))]
        made.append(["migrate", "h", "1", draw.choice(["", "k"]), "0", "5", *options, draw.choice("cd")])
    return made


def texts(count, most, letters, seed):
    """Returns texts of these letters that are drawn from a seed."""
    draw = random.Random(seed)
    return sorted({"".join(draw.choice(letters) for _ in range(draw.randrange(1, most + 1))) for _ in range(count)})


def compare_globs(commands, port):
    """Prints each glob that matches other keys than KEYS of the server finds; returns the numbers compared and wrong."""
    globs, names = texts(GLOBS, 9, GLOB_BYTES, 3), texts(25, 6, "aabbcd]-^*?[\\", 4)
    commands.ask_all(port, [[b"SET", name.encode(), b""] for name in names])
    replies = commands.ask_all(port, [[b"KEYS", glob.encode()] for glob in globs])
    lines = printed([f"glob {glob} {name}".encode() for glob in globs for name in names])
    wrong = 0
    for index, (glob, reply) in enumerate(zip(globs, replies)):
        ours = lines[index * len(names) : (index + 1) * len(names)]
        found = [name for name, line in zip(names, ours) if line == "matches"]
        if found != sorted(reply):
            print(f"the glob {glob} matches {sorted(reply)}, not {found}")
            wrong += 1
    return len(globs), wrong


def lines_of(commands, rows, inner):
    """Returns the lines that test_commands would print for the rows of the server, by name."""
    containers = {row[1]: row[0] for row in rows if row[1]}
    lines = {}
    for row in [*rows, *inner]:
        name, container, kind, _, arity, first, last, step, movable, search, start, split, merge = row
        name = name if len(lines) < len(rows) else f"{containers[container]}|{name}"
        places = f"{first} {last} {step} {str(movable).lower()} {search} {start}"
        lines[name] = f"{name} {kind} {arity} {places} {split} {merge}"
    return lines


def compare_rows(ours, theirs, version):
    """Prints each row that differs, and returns their number."""
    wrong = 0
    for name in sorted(ours.keys() | theirs.keys()):
        if name not in ours:
            print(f"warning: the table has no {name}: {theirs[name]}")
        elif ours[name] != theirs.get(name):
            print(f"the table has {ours[name]!r}, and redis-server {version} {theirs.get(name)!r}")
            wrong += 1
    return wrong


def compare_keys(commands, port, asked, lines):
    """Prints each command whose keys differ from those that the server finds; returns the numbers compared and wrong."""
    replies = commands.ask_all(port, [[b"COMMAND", b"GETKEYS", *map(str.encode, words)] for words in asked])
    compared = wrong = 0
    for words, reply, line in zip(asked, replies, lines):
        kind, *places = line.split()
        found = sorted(words[int(place)] for place in places)
        if isinstance(reply, commands.Refusal):
            has_none = "no key arguments" in reply and words[0] not in CHANNELS
            has_none |= words[0] == "migrate" and "Invalid arguments" in reply
            wanted, skipped = [], not has_none
        else:
            wanted, skipped = sorted(reply), False
        if skipped:
            continue
        compared += 1
        if found != wanted or (kind == "none" and wanted):
            print(f"the keys of {words} are {wanted}, not {line!r}")
            wrong += 1
    return compared, wrong


def main():
    """Compares the table, the keys and the slots, and prints each difference."""
    commands = loaded(f"{HERE}/tools/commands")
    wanted = keys()
    with commands.server() as port:
        rows, inner = commands.rows_of(port)
        theirs = lines_of(commands, rows, inner)
        asked = drawn(sorted(theirs)) + drawn_options()
        every = [b"all", b"all subcommands"]
        every += [b"keys " + " ".join(words).encode() for words in asked] + [b"slot " + key for key in wanted]
        lines = printed(every)
        places, slots = lines[-KEYS - len(asked) : -KEYS], [int(line) for line in lines[-KEYS:]]
        ours = {line.split()[0]: line for line in lines[: -KEYS - len(asked)]}
        version = commands.version_of(port)
        text = commands.text_of(version, rows, inner)
        compared, wrong = compare_keys(commands, port, asked, places)
        globs, wrong_globs = compare_globs(commands, port)
        wrong += wrong_globs
    with open(commands.TABLE, encoding="utf-8") as file:
        table = file.read()
    if f"redis-server {version}." in table.splitlines()[0] and text != table:
        print("tools/commands makes another table")
        wrong += 1
    wrong += compare_rows(ours, theirs, version)
    with commands.server("--cluster-enabled", "yes") as port:
        found = commands.ask_all(port, [[b"CLUSTER", b"KEYSLOT", key] for key in wanted])
        for key, slot, right in zip(wanted, slots, found):
            if slot != right:
                print(f"the slot of {key!r} is {right}, not {slot}")
                wrong += 1
    print(f"{len(ours)} rows, the keys of {compared} commands, {KEYS} slots and {globs} globs compared, {wrong} differences")
    sys.exit(wrong != 0)


main()
