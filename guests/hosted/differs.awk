# Puts the lines of the first file in the place of those of the second that are the same up to the last colon. Each must
# have one line to replace, which is another.
function what(line) {
    sub(/: [^:]*$/, "", line)
    return line
}

function fail(why) {
    print "differs: " why >"/dev/stderr"
    failed = 1
}

NR == FNR {
    instead[what($0)] = $0
    next
}

what($0) in instead {
    if (instead[what($0)] == $0)
        fail("the same: " $0)
    used[what($0)]++
    $0 = instead[what($0)]
}

{
    print
}

END {
    for (line in instead)
        if (used[line] != 1)
            fail(used[line] + 0 " lines: " line)
    exit failed
}
