#!/usr/bin/env python3
"""This project's program: show --json.
ours
needs: {TOP}/crates/resp/out/resp
run: /usr/bin/python3 {FILE} {TOP}/resp
"""
import base64
import json
import subprocess
import sys

import fed

SHOW = [sys.argv.pop(1), "show", "--doubles", "--json"]
PAIRS = object()


def text(value):
    return base64.b64decode(value["base64"]).decode("latin-1") if isinstance(value, dict) else value.encode().decode("latin-1")


def pairs_of(value):
    return [[told(key), told(item)] for key, item in value] if isinstance(value, list) else [
        [["bulk", text(key)], told(item)] for key, item in value.items()]


def told(value):
    if value is None or isinstance(value, bool):
        return ["null"] if value is None else ["boolean", value]
    if isinstance(value, int):
        return ["integer", str(value)]
    if isinstance(value, list):
        return ["array", [told(item) for item in value]]
    if isinstance(value, str) or "base64" in value:
        return ["bulk", text(value)]
    for name, tag in (("simple", "simple"), ("error", "error"), ("bulk_error", "bulkerror"), ("double", "double"), ("big", "big")):
        if name in value:
            return [tag, text(value[name])]
    for name in ("set", "push"):
        if name in value:
            return [name, [told(item) for item in value[name]]]
    if "map" in value:
        return ["map", pairs_of(value["map"])]
    if "verbatim" in value:
        return ["verbatim", text(value["format"]), text(value["verbatim"])]
    return ["attribute", pairs_of(value["attribute"]), told(value["of"])]


def judged(version, pieces, values):
    run = subprocess.run([*SHOW, "--proto", str(version)], input=b"".join(piece or b"" for piece in pieces), stdout=subprocess.PIPE,
                         stderr=subprocess.PIPE)
    sys.set_int_max_str_digits(0)
    values += [told(json.loads(line)) for line in run.stdout.splitlines()]
    return "error" if run.returncode and b"Truncated" not in run.stderr else "more"


fed.run({"parser": "resp show", "profiles": ["resp2", "resp3", "streamed"], "same": [["null", "nullbulk", "nullarray"]],
         "feeds": ["whole", "joined"]}, judged)
