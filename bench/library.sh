#!/bin/sh
# Times the library for C and in Python, each call beside a plain way to do the same in C; then a drawn stream of FIELDS
# fields (2,240, which are 1.07 GB, unless it is given), first where it is not in memory, then where it is, read in
# several ways in turn. Works in a folder of its own on DISK (/var/tmp unless it is given), since a folder of /tmp may
# lie in memory.
# usage: sh bench/library.sh [FIELDS]
set -eu
top=$(cd "$(dirname "$0")/.." && pwd)
work=$(mktemp -d "${DISK:-/var/tmp}/ldvbi.XXXXXX")
trap 'rm -rf "$work"' EXIT
for part in library near recover judge mapped; do
    "${CC:-cc}" -std=c11 -O2 -Wall -Wno-unused-function -o "$work/$part" -I"$top/include" "$top/bench/$part.c" \
        "$top/libldvbi.a"
done
"$work/library"
"$work/near"
"$work/recover"
"$work/judge"
"$work/mapped" draw "$work/side.tbc" "${1:-2240}"
"$work/mapped" stream "$work/side.tbc" cold 9
"$work/mapped" stream "$work/side.tbc" warm 25
LDVBI_LIBRARY=$top/libldvbi.so.3 PYTHONPATH=$top/python PYTHONDONTWRITEBYTECODE=1 \
    python3 "$top/bench/library.py" "$work/side.tbc"
