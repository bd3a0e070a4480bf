#!/usr/bin/env python3
"""A client of twemproxy 0.5.0 (nutcracker): what it gets if its server sends the bytes.
needs: /usr/sbin/nutcracker
run: /usr/bin/python3 {FILE}
"""
import proxied

POOL = """all:
  listen: 127.0.0.1:{port}
  hash: fnv1a_64
  distribution: ketama
  redis: true
  servers:
   - 127.0.0.1:{server}:1
"""


def start(work, port, server):
    with open(f"{work}/pool", "w", encoding="ascii") as file:
        file.write(POOL.format(port=port, server=server))
    return ["/usr/sbin/nutcracker", "-c", f"{work}/pool", "-s", str(proxied.free_port()), "-o", "/dev/null"]


proxied.run({"parser": "twemproxy 0.5.0", "profiles": ["resp2"]}, start, r"ERR (unknown|Connection \w+( by peer| out)?|Broken pipe|Invalid argument|Protocol error)")
