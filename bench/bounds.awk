# Fails where a ratio passes its bound, or where a line that has a bound wasn't measured.
# usage: awk -f bounds.awk bounds.txt MEASUREMENTS

FNR == NR {
    if (!/^#/ && split($0, row, "|") == 2)
        most[row[1]] = row[2]
    next
}

{
    for (name in most)
        if (index($0, name) == 1 && match($0, /ratio [0-9.]+/)) {
            ratio = substr($0, RSTART + 6, RLENGTH - 6) + 0
            if (!(name in least) || ratio < least[name])
                least[name] = ratio
        }
}

END {
    for (name in most) {
        bounds++
        if (!(name in least))
            print "bench: " name ": not measured"
        else if (least[name] > most[name])
            print "bench: " name ": ratio " least[name] ", which is over " most[name]
        else
            held++
    }
    print "bench: " held + 0 " of " bounds + 0 " bounds hold"
    exit held + 0 == 0 || held != bounds
}
