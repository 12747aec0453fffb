# Makes a script of the TCP sockets that ss(8) lists on a Linux host, so that inet says which of them a packet finds:
#
#   ss -Htan4 | awk -f examples/host/ss.awk | ./inet run
#   (ss -Htan4 | awk -f examples/host/ss.awk; echo capture; cat CAPTURE) | ./inet run
#
# A listener is bound and listens. What stands at a listener's end was accepted there, is its request (SYN-RECV), or was
# accepted and closed (TIME-WAIT). All else was bound and connected. Labels are the numbers of ss's lines: l1, c2, ..
# Listeners of one end share it by reuseport. What ss doesn't say is left out: users, namespaces, and the numbers of
# devices (of 10.0.0.1%eth0 the address stays).

{
    sub(/%[^:]*/, "", $4)
    state[NR] = $1
    here[NR] = $4
    there[NR] = $5
    if ($1 == "LISTEN" && ++listens[$4] == 1)
        first[$4] = "l" NR
}

# The listener at an end, or at its port and 0.0.0.0; none: "".
function listener(end) {
    if (end in first)
        return first[end]
    sub(/^[^:]*/, "0.0.0.0", end)
    return end in first ? first[end] : ""
}

function listening(row) {
    print "socket l" row " reuseaddr" (listens[here[row]] > 1 ? " reuseport" : "")
    print "bind l" row " " here[row]
    print "listen l" row
}

function connected(row, by) {
    if (state[row] == "SYN-RECV") {
        print (by == "" ? "# no listener: " : "") "syn " by " c" row " from " there[row] " at " here[row]
        return
    }
    if (by != "")
        print "accept " by " c" row " from " there[row] " at " here[row]
    else {
        print "socket c" row " reuseaddr"
        print "bind c" row " " here[row]
        print "connect c" row " to " there[row]
    }
    if (state[row] == "TIME-WAIT")
        print "close c" row
}

END {
    print "table slots 65536 bind 256 hash 65536 listen 4096"
    print "script 1"
    for (row = 1; row <= NR; row++)
        if (state[row] == "LISTEN")
            listening(row)
    for (row = 1; row <= NR; row++)
        if (state[row] != "LISTEN")
            connected(row, listener(here[row]))
}
