"""Builds redis' own resp_parser.c with peers/resp_parser.c.

REDIS_SOURCE names a folder with the source of redis, as `apt-get source redis` makes it.
"""
import os
import re
import shutil
import subprocess


def built(out):
    """Builds the parser in a folder, with the one function of redis that it needs: the test for a number. Returns the
    path of the program, or None if there is no source."""
    source = os.environ.get("REDIS_SOURCE")
    if not source or not os.path.exists(f"{source}/src/resp_parser.c"):
        return None
    os.makedirs(out, exist_ok=True)
    for file in ("resp_parser.c", "resp_parser.h"):
        shutil.copy(f"{source}/src/{file}", f"{out}/{file}")
    with open(f"{source}/src/util.c", encoding="utf-8") as file:
        number = re.search(r"^int string2ll\(.*?^}\n", file.read(), re.M | re.S)[0]
    with open(f"{out}/server.h", "w", encoding="utf-8") as file:
        file.write("#include <limits.h>\n#include <math.h>\n#include <stdio.h>\n#include <stdlib.h>\n#include <string.h>\n"
                   "#include <strings.h>\n#define C_OK 0\n#define C_ERR -1\n#define MAX_LONG_DOUBLE_CHARS 5*1024\n#define LONG_STR_SIZE 21\n"
                   "int string2ll(const char *s, size_t slen, long long *value);\n")
    with open(f"{out}/string2ll.c", "w", encoding="utf-8") as file:
        file.write('#include "server.h"\n' + number)
    subprocess.run(["gcc", "-O2", "-w", f"-I{out}", "-o", f"{out}/parser", "peers/resp_parser.c", f"{out}/resp_parser.c",
                    f"{out}/string2ll.c", "-lm"], check=True)
    return f"{out}/parser"
