#!/bin/sh
# Tries the bounds of `make bench`: one that is passed, a line that is missing and a measurement that fails each end it.
# usage: sh tests/cli/measured.sh PROGRAM
# runs: everywhere
# fails where: bench/bounds.awk|s/ratio < least/ratio > least/

. "$(dirname "$0")/../helpers.sh"

# Each stub of a measurement writes each fifth line of the file `lines`, and fails where FAILS has its name.
bench=$top/bench
mkdir stubs
cp "$bench/all.sh" "$bench/bounds.awk" "$bench/bounds.txt" stubs
grep -v '^#' "$bench/bounds.txt" > bounds
count=$(wc -l < bounds)
check 'no bound is gone' [ "$count" = 50 ]
# measured CHANGE [NAME]: a line for each bound, or for this one, with the ratio that it allows and so much more. A
# second ratio on a line doesn't count.
measured() {
    awk -F '|' -v change="$1" -v name="${2:-}" 'name == "" || $1 == name {
        printf "%s best 3 ms beside 4 ms, ratio %.3f; medians 5, 6, ratio 9\n", $1, $2 + change }' bounds
}
# bounds_say NAME STATUS: whether this is said of the measurements in the file `lines`, in any order: the file `wanted`
bounds_say() {
    does sh stubs/all.sh "$program"
    grep '^bench: ' out | sort > said
    sort wanted | cmp - said || cp out err
    check "$1" [ "$status$(cat err)" = "$2" ]
}
{ measured 1; measured 0; } > lines
number=0
for name in lines fields library stream rust; do
    echo "awk 'NR % 5 == $number' lines; [ \"\${FAILS:-}\" != $name ]" > stubs/$name.sh
    echo "import subprocess, sys; sys.exit(subprocess.call(['sh', 'stubs/$name.sh']))" > stubs/$name.py
    number=$((number + 1))
done
for name in lines fields library stream rust; do
    does env FAILS="$name" sh stubs/all.sh "$program"
    check "the measurement $name fails" [ "$status $(grep -c "^bench: .*$name.* failed\$" err)" = '1 1' ]
done
echo "bench: $count of $count bounds hold" > wanted
bounds_say 'each holds with the most that it may be, and of several lines the least counts' 0
measured 0.01 > lines
awk -F '|' '{ print "bench: " $1 ": ratio " $2 + 0.01 ", which is over " $2 }' bounds > wanted
echo "bench: 0 of $count bounds hold" >> wanted
bounds_say 'each ratio is over its bound' 1
measured 0 'rust show' > lines
awk -F '|' '$1 != "rust show" { print "bench: " $1 ": not measured" }' bounds > wanted
echo "bench: 1 of $count bounds hold" >> wanted
bounds_say 'each line but one is missing' 1
for files in 'empty lines' "$bench/bounds.txt empty"; do
    does awk -f "$bench/bounds.awk" $files
    check "no bounds, or no measurement: ${files##*/}" [ "$status" = 1 ]
done
finish
