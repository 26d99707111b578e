#!/bin/sh
# Runs all measurements, and then holds the ratios that have a bound against it (bounds.txt).
# usage: sh bench/all.sh PROGRAM
set -eu
here=$(cd "$(dirname "$0")" && pwd)
work=$(mktemp -d)
trap 'rm -rf "$work"' EXIT

# measured COMMAND..: runs a measurement, and keeps what it says
measured() {
    { "$@" || echo "bench: $* failed" >> "$work/failed"; } | tee -a "$work/said"
    [ ! -s "$work/failed" ] || { cat "$work/failed" >&2; exit 1; }
}

measured sh "$here/lines.sh"
measured sh "$here/fields.sh"
measured sh "$here/library.sh"
measured python3 "$here/stream.py" "$1"
measured python3 "$here/rust.py" "$(dirname "$1")" "$here/../rust"
awk -f "$here/bounds.awk" "$here/bounds.txt" "$work/said"
