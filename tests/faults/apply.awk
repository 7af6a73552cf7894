# Prints a file with one fault put in: awk -v name='the fault' -f apply.awk faults.txt file
# Without a name it prints nothing, and only sees that each fault applies, under a name of its own.
# A fault's lines with '=' and '-' must stand in the file one after the other, in exactly one place (indents aside); there its
# lines with '=' and '+' are printed instead.
FNR == 1 { file++ }
file == 1 && /^# / {
    chosen = name == "" || substr($0, 3) == name
    if (chosen) { names[++faults] = substr($0, 3); times[names[faults]]++ }
    next
}
file == 1 && chosen && /^[=-] / { find[faults, ++finds[faults]] = substr($0, 3) }
file == 1 && chosen && /^[=+] / { put[faults] = put[faults] substr($0, 3) "\n" }
file == 2 { line[FNR] = $0; bare[FNR] = $0; sub(/^[ \t]+/, "", bare[FNR]); lines = FNR }

# In how many places the lines of fault n stand; the last of them becomes the place.
function places_of(n,    at, i, count) {
    count = 0
    for (at = 1; finds[n] > 0 && at + finds[n] - 1 <= lines; at++) {
        for (i = 1; i <= finds[n] && bare[at + i - 1] == find[n, i]; i++)
            ;
        if (i > finds[n]) { count++; place = at }
    }
    return count
}

function wrong(why) {
    print "faults: " why > "/dev/stderr"
    failed = 1
}

END {
    if (faults == 0)
        wrong("there is none '" name "'")
    for (n = 1; n <= faults; n++) {
        places = places_of(n)
        if (places != 1)
            wrong("'" names[n] "': its lines stand in " places " places")
        if (times[names[n]] > 1)
            wrong("'" names[n] "': the name of " times[names[n]])
    }
    if (failed)
        exit 1
    for (at = 1; name != "" && at <= lines; at++) {
        if (at == place) { printf "%s", put[1]; at += finds[1] - 1 }
        else print line[at]
    }
}
