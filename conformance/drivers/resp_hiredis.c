/* This project's reader in hiredis' shape, under libhiredis 0.14. A reply there has no type of RESP3, so a map is an array and
 * a boolean is an integer.
 * ours
 * needs: cc {C}/lib/libresp.a /usr/include/hiredis/hiredis.h
 * make: cc -O1 -I{C}/include -I/usr/include/hiredis -o {OUT} {FILE} {TOP}/bindings/hiredis/read.c {C}/lib/libresp.a -lhiredis
 * run: {OUT} */
#define ABOUT "{\"parser\": \"resp, under hiredis\", \"profiles\": [\"resp2\"], \"drops\": [\"attribute\", \"format\"], " \
    "\"same\": [[\"nullbulk\", \"nullarray\", \"null\"], [\"array\", \"set\", \"map\", \"push\"], [\"bulk\", \"double\", \"big\", \"verbatim\"], " \
    "[\"error\", \"bulkerror\"], [\"integer\", \"boolean\"]]}"
#include "hiredis_0_14.c"
