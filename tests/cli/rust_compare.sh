#!/bin/sh
# Compares the Rust program and library with the proved ones, on the same drawn, damaged and random input: words of the
# command line, streams and lines, rows of words, metadata, and calls of the library; and sees that a difference is
# found. COMPARE_RUNS is how many times the usual number of runs it makes, COMPARE_SEED where they begin (1 and 1 where
# the environment doesn't say); COMPARE_RUNNER runs the program, as wine64 or qemu-aarch64 do, and then the library,
# which is of another machine, is left out.
# usage: sh tests/cli/rust_compare.sh PROGRAM
# runs: rust
# fails where: ldvbi|s/short line/shirt line/g

. "$(dirname "$0")/../helpers.sh"

proved=$top/ldvbi
times=${COMPARE_RUNS:-1}
[ -x "$proved" ] || stop "the proved program $proved, which isn't there"

# compared WHAT PROVED OTHER COUNT: makes so many runs of both, and answers whether none differs
compared() {
    status=0
    python3 "$here/rust_compare.py" "$1" "$2" "$3" $(($4 * times)) "${COMPARE_SEED:-1}" ${COMPARE_RUNNER:-} \
        > said 2> err || status=$?
    sed "s/^/$script: /" said
    [ "$status" = 0 ] && [ ! -s err ]
}
for what in words:1000 streams:60 rows:150 metadata:400; do
    check "the same of ${what%:*}" compared ${what%:*} "$proved" "$program" ${what#*:}
done
if [ "${COMPARE_RUNNER:-}" ]; then
    leave_out 1
else
    check 'the same of the library' compared library "$top/libldvbi.so.3" "$built/libldvbi.so.3" 2500
fi

# A difference is found: in the letters of help, in a status, in what is said, and in what a library writes
different() {
    ! (COMPARE_SEED=1 COMPARE_RUNNER=${5:-} times=1 && compared "$1" "$2" "$3" "$4") > found &&
        grep -q "^$script:   other: " found && [ ! -s err ]
}
while read -r what count altering; do
    stub altering "$altering"
    check "$what: a difference is found: $altering" different $what "$proved" "$proved" $count "$work/altering"
done << 'END'
words 50 "$@" > all || exit; sed 's/^Usage: /Use: /' all
words 50 "$@" || exit 1
words 50 "$@" 2> said || { status=$?; sed 's/^ldvbi: /ldvbi, /' said >&2; exit $status; }
streams 2 "$@" > all; status=$?; sed 's/[0-9A-F]\(.\?\)$/~\1/' all; exit $status
END
echo 'unsigned ldvbi_classify(unsigned word, void *code) { return word >> 23 == 1 ? 0 : 4; }' |
    "${CC:-cc}" -shared -fPIC -o other.so -x c - -x none -Wl,--no-as-needed,-rpath,"$top" "$top/libldvbi.so.3" || exit 1
check 'library: a difference is found' different library "$top/libldvbi.so.3" "$work/other.so" 1
finish
