#!/usr/bin/env python3
"""A client of this project's proxy: what it gets if its server sends the bytes.
ours
needs: {TOP}/crates/resp/out/resp
run: /usr/bin/python3 {FILE} {TOP}/crates/resp/out/resp
"""
import sys

import proxied

RESP = sys.argv.pop(1)


def start(work, port, server):
    return [RESP, "proxy", f"127.0.0.1:{port}", f"127.0.0.1:{server}"]


proxied.run({"parser": "resp proxy", "profiles": ["resp2"]}, start, r"ERR (connection to|cannot connect to) server.*")
