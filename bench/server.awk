# Reads the lines `NAME: N commands, ..; N us` of bench server, and the lines `NAME RATE SECONDS` of redis-benchmark for
# a million commands. Prints for each kind the commands a second of each and their ratio.

/ us$/ {
    kind = tolower($1)
    sub(/:/, "", kind)
    ours[kind] = $2 * 1000000 / $(NF - 1)
    next
}

{
    kind = $1
    sub(/_mbulk/, "", kind)
    theirs[kind] = $2
    seconds[kind] = $3
}

END {
    count = split("set get ping", kinds, " ")
    for (i = 1; i <= count; i++) {
        kind = kinds[i]
        printf "%s: %d commands a second, by redis-benchmark %d, ratio %.1f; of redis-server's processor %d, ratio %.1f\n",
               kind, ours[kind], theirs[kind], ours[kind] / theirs[kind],
               1000000 / seconds[kind], ours[kind] * seconds[kind] / 1000000
    }
}
