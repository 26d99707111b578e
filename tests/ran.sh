#!/bin/sh
# Compares what was run with the list in git, .ci/ran.txt: the scripts and crates that have to run, and of their checks,
# tests and wrong bodies the least counts. Of the list the lines count whose names PATTERN means. Standard input has a
# line for each one that ran: `check SCRIPT: ..`, `wrong body CRATE/..`, `test ..`. The status is 1 if one of the list
# is gone, or a count is less. More is no fault; what the list doesn't have yet is printed.
# usage: sh tests/ran.sh PATTERN < LINES
set -eu

awk -F ': ' -v pattern="$1" '
    FNR == NR      { least[$1] = NF > 1 ? $2 : 1; next }
    /^check /      { sub(/^check/, "checks", $1) }
    /^test /       { $1 = "tests" }
    /^wrong body / { many["wrong bodies"]++; sub("/.*", "", $1); sub(/body/, "bodies", $1) }
                   { many[$1]++ }
    END {
        for (what in least)
            if (what ~ pattern && many[what] < least[what]) {
                print "ran: " what ": " many[what] + 0 ", and .ci/ran.txt has " least[what] > "/dev/stderr"
                status = 1
            }
        for (what in many)
            if (what ~ pattern && ! (what in least)) print "ran: .ci/ran.txt has no line for " what ": " many[what]
        exit status
    }' "$(dirname "$0")/../.ci/ran.txt" -
