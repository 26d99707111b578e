#!/bin/sh
# Runs the examples that search on a sparse side of 10 GB that is out of memory: each answer is that of the whole side's
# judge, and 1 to 12 MB are fetched for it. Needs libldvbi.so.3 beside the program, or at the top of the repository
# (`make lib`), and 200 MB of disk in TMPDIR. The player in Rust is tried with the program of `make rust`.
# usage: sh tests/library/fetched.sh PROGRAM
# runs: library rust
# fails where: examples/player.c|s/MADV_RANDOM/MADV_NORMAL/

. "$(dirname "$0")/../helpers.sh"
. "$here/library_helpers.sh"
. "$tests/cli/table.sh"

with_python
for name in seek player; do
    bounded $cc -std=c99 $strict -o $name "$top/examples/$name.c" $linked
done
settles great $on_cav
bounded python3 "$here/great.py" draw great.tbc
bounded python3 "$here/great.py" answers great.tbc > answers
check 'the whole side is judged' [ "$(wc -l < answers)" = 8 ]
players="./player|great.map;python3 $top/examples/player.py|"
if [ "$built" = "$top/rust" ]; then
    cp -r "$top/examples/rust" project
    [ ! -d "$top/rust/crate/.cargo" ] || cp -r "$top/rust/crate/.cargo" project
    sed -i "s|\"../../rust/crate\"|\"$top/rust/crate\"|" project/Cargo.toml
    export CARGO_TARGET_DIR="$top/rust/out" RUSTFLAGS=
    check 'the player in Rust is built' does sh -c 'cd project && cargo build --quiet'
    players="$players;$CARGO_TARGET_DIR/debug/player|"
else
    leave_out 9
fi

# fetches NAME STATUS COMMAND..: checks that a command ends so, writes what is in `wanted`, and fetches 1 to 12 MB
fetches() {
    fetching=$1
    ending=$2
    shift 2
    does python3 "$here/great.py" run great.tbc "$@" || :
    [ "$status" = "$ending" ] && cmp -s out wanted || echo 'another status or answer' >> err
    check "$fetching, and 1 to 12 MB" awk 'END { exit !(NR == 1 && 1 <= $1 && $1 <= 12) }' err
}
while IFS='|' read -r words said; do
    echo "$said" | tr '|' '\n' > wanted
    ending=0
    ! grep -q 'not found' wanted || ending=1
    echo "$players" | tr ';' '\n' > commands
    while IFS='|' read -r player map; do
        fetches "$(basename "${player#python3 }") $words" $ending $player great.tbc $map $words
    done < commands
    # seek prints the field alone, or `not found`.
    case $words in
        'search '*' '*) continue ;;
    esac
    sed 's/.*not found.*/not found/; s/.*\(field [0-9]*\).*/\1/' wanted > sought
    mv sought wanted
    for command in ./seek "python3 $top/examples/seek.py"; do
        fetches "$(basename "${command#python3 }") $words" $ending $command great.tbc $on_cav ${words#search }
    done
done < answers
finish
