#!/bin/sh
# Asks the examples in C, C++ and Python, and `ldvbi-side` for pictures, times, chapters and stops of drawn sides,
# whether they are whole, and for their gaps. Each has to answer what the table answers.txt has (answers.py).
# Needs libldvbi.so.3 beside the program, or at the top of the repository (`make lib`).
# usage: sh tests/cli/answers.sh PROGRAM
# runs: library rust
# fails where: tests/cli/answers.txt|s/ = field 29;/ = field 27;/

. "$(dirname "$0")/../helpers.sh"
. "$tests/library/library_helpers.sh"
. "$here/table.sh"

with_python

for name in seek stops whole player; do
    check "$name is built" does $cc -std=c99 $strict -o ${name}_c "$top/examples/$name.c" $linked
    source=$top/examples/$name.cpp
    [ -e "$source" ] || source="-x c++ $top/examples/$name.c"
    check "$name is built in C++" does $cxx -std=c++17 $strict -o ${name}_cpp $source $linked
done
draws_sides
asks c c++ python player.c player.py ldvbi-side
finish
