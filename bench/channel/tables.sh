#!/bin/sh
# Writes the tables of simulated lines of worn discs: of NTSC and of PAL what a library makes of them (measure.py), and
# of lines without a word (without_words.py), as FILES_ntsc.txt, FILES_ntsc_none.txt, FILES_pal.txt, FILES_pal_none.txt.
# LIBRARY is libldvbi.so.3, also an older one: beside.py compares the files of two of them, since each row has a seed of
# its own. With the word `peers` in its place they are the tables of MAME's decoder and of the reader by edges, which
# see the same lines. It needs Debian's python3-numpy and python3-scipy, for peers mame-tools and a C compiler as well.
# With 200 fields a row and 20,000 lines of each kind without a word a library takes 20 minutes of one processor, peers
# 40.
# usage: sh bench/channel/tables.sh LIBRARY | peers FILES [FIELDS [LINES]]
set -eu

here=$(cd "$(dirname "$0")" && pwd)
python=${PYTHON:-/usr/bin/python3}
work=$(mktemp -d)
trap 'rm -rf "$work"' EXIT
readers="--library=$1"
if [ "$1" = peers ]; then
    "${CC:-cc}" -std=c99 -O2 -Wall -o "$work/edges" "$here/../peers/edges.c"
    readers="--peers=$work"
fi

# One processor is enough, and memory that is used again and again isn't handed back.
PYTHONDONTWRITEBYTECODE=1 OMP_NUM_THREADS=1 OPENBLAS_NUM_THREADS=1
MALLOC_TRIM_THRESHOLD_=1000000000 MALLOC_MMAP_THRESHOLD_=1000000000
export PYTHONDONTWRITEBYTECODE OMP_NUM_THREADS OPENBLAS_NUM_THREADS MALLOC_TRIM_THRESHOLD_ MALLOC_MMAP_THRESHOLD_

# written FILE SCRIPT WORD..: runs a script, and keeps what it prints where it comes to its end
written() {
    file=$1
    script=$2
    shift 2
    "$python" "$here/$script" "$@" "$readers" > "$work/said"
    cp "$work/said" "$file"
}
for system in NTSC PAL; do
    files=$2_$(echo "$system" | tr '[:upper:]' '[:lower:]')
    written "$files.txt" measure.py "$system" "${3:-200}" 1
    written "${files}_none.txt" without_words.py "$system" "${4:-20000}" 1
done
