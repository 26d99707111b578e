#!/bin/sh
# Has MAME's decoder, libzvbi's bit slicer and a reader by edges read what `ldvbi` and its library read (see
# compare.py), and prints the tables; where all was read as it has to be, also into FILE, from which texts/write.py cuts
# those of docs/MEASURED.md. It needs Debian's packages mame-tools and libzvbi-dev, a C compiler, python3, and
# libldvbi.so beside the program, or at the top of the repository (`make lib`).
# usage: sh bench/peers/compare.sh PROGRAM [FIELDS [FILE]]
set -eu

here=$(cd "$(dirname "$0")" && pwd)
library=$(cd "$(dirname "$1")" && pwd)
[ -e "$library/libldvbi.so" ] || library=$(dirname "$(dirname "$here")")
work=$(mktemp -d)
trap 'rm -rf "$work"' EXIT

# built READER WORD..: builds one of the readers, with these words for the compiler
built() {
    reader=$1
    shift
    "${CC:-cc}" -std=c99 -O2 -Wall -o "$work/$reader" "$here/$reader.c" "$@"
}
built edges
built recovered "-I$here/../../include" "-L$library" -lldvbi "-Wl,-rpath,$library"
built zvbi -lzvbi
PYTHONDONTWRITEBYTECODE=1 python3 "$here/compare.py" "$1" "$work" "${2:-200}" > "$work/tables" ||
    { cat "$work/tables"; exit 1; }
cat "$work/tables"
[ -z "${3:-}" ] || cp "$work/tables" "$3"
