# Reads the lines `TEXT: COUNTS; N` of several files. Prints a row for each text: the number of each file, and the ratios
# to the last file. `names` has a name for each file. Instructions are divided by the number of replies. Fails if the
# counts differ.

{
    split($0, half, "; ")
    text = half[1]
    sub(/:.*/, "", text)
    number = half[2] + 0
    if (FNR == 1) side++
    if (!(text in counted)) {
        counted[text] = half[1]
        texts[++many] = text
    }
    if (counted[text] != half[1]) {
        print "bench: counted differently: " half[1] > "/dev/stderr"
        failed = 1
        exit 1
    }
    if (unit == "instructions") {
        replies = half[1]
        sub(/.*: /, "", replies)
        number /= replies
    }
    of[side, text] = number
}

END {
    if (failed) exit 1
    sides = split(names, name, " ")
    printf "| %s |", unit
    for (i = 1; i <= sides; i++) printf " %s |", name[i]
    for (i = 1; i < sides; i++) printf " %s/%s |", name[i], name[sides]
    printf "\n|"
    for (i = 0; i < 2 * sides; i++) printf "---|"
    printf "\n"
    for (t = 1; t <= many; t++) {
        text = texts[t]
        printf "| %s |", text
        for (i = 1; i <= sides; i++) printf " %d |", of[i, text]
        for (i = 1; i < sides; i++) printf " %.3f |", of[i, text] / of[sides, text]
        printf "\n"
    }
}
