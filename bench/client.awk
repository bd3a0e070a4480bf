# Reads the lines `NAME: COUNTS; N us` of two files. Prints for each file the time for a command with its reply, and the
# ratio of the first file to the second. Fails if the counts differ.

{
    split($0, half, "; ")
    if (counted == "") {
        counted = half[1]
        commands = half[1]
        sub(/ replies.*/, "", commands)
        sub(/.* /, "", commands)
    }
    if (counted != half[1]) {
        print "bench: counted differently: " half[1] > "/dev/stderr"
        failed = 1
        exit 1
    }
    if (FNR == 1) side++
    time[side] = half[2] + 0
}

END {
    if (failed) exit 1
    printf "a command and its reply: %.1f ns, by hiredis %.1f ns, ratio %.2f\n",
           time[1] * 1000 / commands, time[2] * 1000 / commands, time[1] / time[2]
}
