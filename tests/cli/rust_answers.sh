#!/bin/sh
# Asks the crate of `make rust` what answers.sh asks others, by the programs in examples/rust and its example `answers`.
# usage: sh tests/cli/rust_answers.sh PROGRAM
# runs: rust
# fails where: tests/cli/answers.txt|s/ = field 29;/ = field 27;/

. "$(dirname "$0")/../helpers.sh"
. "$tests/library/library_helpers.sh"
. "$here/table.sh"

with_python
cp -r "$top/examples/rust" project
[ ! -d "$top/rust/crate/.cargo" ] || cp -r "$top/rust/crate/.cargo" project
sed -i "s|\"../../rust/crate\"|\"$top/rust/crate\"|" project/Cargo.toml
export CARGO_TARGET_DIR="$top/rust/out" RUSTFLAGS=
for place in "$top/rust/crate" project; do
    # By the settings of the folder
    check "cargo builds in $(basename "$place")" does sh -c 'cd "$1" && cargo build --quiet --examples --bins' sh $place
done
for name in examples/answers player whole; do
    cp "$CARGO_TARGET_DIR/debug/$name" . || exit 1
done
draws_sides
asks rust Side::seek

# What `whole` writes line by line, what it refuses, and what it asks of the system for a file; and where a player goes
# that finds no time, or, on the side `both`, a stop on all fields of a picture. What else it plays rust_crate.sh has.
printf '%s\n' '- F00001 F00001' '82CFFF - -' '82CFFF F00002 F00002' '82CFFF F00002 F00002' '82CFFF F00003 F00003' \
    '82CFFF - -' '- F00004 -' '- F00004 -' | bounded "$program" draw $ntsc - > both.tbc
settles both $on_cav
bounded $cc -std=c99 -shared -fPIC -I"$top/include" -o advised.so "$tests/library/advised.c" -ldl
while IFS='|' read -r name ending words wrote said; do
    check "$name $words" answers_so $name "$ending" "$wrote" "$said" "./$name $words"
done << END
player|1|clock.tbc search 1:00:00.00 search 1:00:00.01|search: not found, field 23;search: not found, field 25|
player|1|tenbit.tbc search 0:00:02.05 search 0:00:02.04|search: not found, field 121;search: not found, field 99|
player|1|both.tbc play play play play|play: field 2;play: field 3 picture 2;play: field 5 picture 3;play: not found|
whole|1|side.tbc $on_cav cut|whole: no [IsLost, IsOff];lost 8: field 25 has 9, field 27 has 14\
;still 2: field 41 has 21, field 43 has 21;still 2: field 43 has 21, field 45 has 21\
;still 2: field 45 has 21, field 47 has 21|
whole|4|scratch.tbc $on_cav cut|whole: can't tell [IsOpen];replaced 0: field 119 has 60, field 121 has 40061\
;replaced 0: field 139 has 40070, field 141 has 71$(for number in 1 2 3 4 5 6 7 8 9 10; do
    printf ';aside: field %d has %d' $((119 + 2 * number)) $((40060 + number)); done)|
whole|4|film.tbc $on_cav|whole: can't tell [EndUnseen]|
whole|0|film.tbc $on_cav cut|whole: yes []|
whole|4|empty $on_cav|whole: can't tell [NoNumbers]|
whole|2|side.tbc NTSC||usage: whole FILE NTSC|PAL BLACK WHITE [cut]
whole|2|side.tbc SECAM 16384 51200||system is neither NTSC nor PAL
END
does env ADVISED=whole.advice LD_PRELOAD="$work/advised.so" ./whole side.tbc $on_cav
check 'whole has nothing read ahead' [ "$(cat whole.advice)" = "random 0 $(wc -c < side.tbc)" ]
finish
