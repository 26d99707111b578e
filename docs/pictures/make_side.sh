#!/bin/sh
# Makes README's pictures of sides, both drawn by the standards' lines. It needs the library.
#
# side.svg: the CAV disc with faults that examples/side.sh draws.
# clv.svg: a CLV disc around the end of its first hour, with its mark on line 17; five pictures are lost.
# usage: sh docs/pictures/make_side.sh PROGRAM FOLDER
set -eu

program=$(cd "$(dirname "$1")" && pwd)/$(basename "$1")
top=$(cd "$(dirname "$0")/../.." && pwd)
cd "$2"
work=$(mktemp -d)
trap 'rm -rf "$work"' EXIT

cav_levels='--system NTSC --black 16384 --white 51200'
clv_levels='--system PAL --black 16384 --white 54016'

# The CAV disc is the side of examples/side.sh.
(cd "$work" && sh "$top/examples/side.sh" "$program")

# ends CODE: eight fields of lead-in or lead-out
ends() {
    for field in 1 2 3 4 5 6 7 8; do
        printf -- '- %s %s\n' "$1" "$1"
    done
}
{
    ends 88FFFF
    awk 'BEGIN {
        for (picture = 0; picture < 90; picture++) {
            if (50 <= picture && picture < 55)
                continue
            number = 3598 * 25 + picture
            second = int(number / 25)
            minute = int(second / 60)
            tens = substr("ABCDEF", int(second % 60 / 10) + 1, 1)
            printf "8%sE%d%02d 87FFFF F%dDD%02d\n", tens, second % 10, number % 25, minute / 60, minute % 60
            printf "8DC0A1 87FFFF 80%dDDD\n", 3 + int(picture / 50)
        }
    }'
    ends 80EEEE
} > "$work/clv.words"
# shellcheck disable=SC2086
"$program" draw $clv_levels "$work/clv.words" > "$work/clv.tbc"

for side in side clv; do
    levels=$cav_levels
    [ $side = side ] || levels=$clv_levels
    # shellcheck disable=SC2086
    PYTHONDONTWRITEBYTECODE=1 "$top/python/ldvbi-side" "$work/$side.tbc" $levels --svg $side.svg
done
