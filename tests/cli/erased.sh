#!/bin/sh
# Compares the plain Rust that rust/erase.py writes with what a second way makes of the proved source, token by token.
# usage: sh tests/cli/erased.sh PROGRAM
# runs: everywhere
# fails where: rust/erase.py|s/(samples, low)"/(samples, 0)"/

. "$(dirname "$0")/../helpers.sh"

does sh -c 'cd "$1" && exec python3 tests/proofs/erased.py' - "$top"
check 'plain Rust is the proved source without what is ghost' [ "$status" = 0 ]
count=$(find "$top"/crates/vbi_*/src -name '*.rt' ! -name '*laws.rt' ! -path '*_test*' | wc -l)
check 'all files are compared' [ "$(cat out)" = "erased: $count files compared" ]
finish
