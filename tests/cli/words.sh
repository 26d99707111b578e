#!/bin/sh
# Runs the built program on a few words that it refuses, on each kind of path, and on words that ask for help.
# usage: sh tests/cli/words.sh PROGRAM
# runs: everywhere rust
# fails where: crates/vbi_cli/src/commands.rt|s/Turns rows/Turns words/

. "$(dirname "$0")/../helpers.sh"

cp "$stored/stdin" line.raw
printf '{"videoParameters":{"fieldWidth":911}}' > width.json
printf '{"videoParameters":{"system":"NTSC","black16bIre":8224,"white16bIre":16448}}' > videos.json

# Words that are refused: what else is, and how, is tested where the words are read (crates/vbi_cli_tests), and of other
# words it is compared by rust_compare.sh
run
check 'no command' is_refused
run line $levels "$(printf '\377')"
judge 'a word that is not text' 2 empty 'ldvbi: arguments are not UTF-8'

# Paths: an input that is a dash alone is standard input, and every other word is a path. What is there when the row is
# run (a file, and its name), the answer, and the words as a shell has them: 82CFFF, or what is said.
while IFS='|' read -r there answer words; do
    rm -rf paths
    mkdir paths
    cp line.raw paths
    [ ! "$there" ] || cp "${there%% *}" "paths/${there#* }"
    cd paths || exit 1
    eval "run_with ../line.raw line $words"
    mv out err ..
    cd ..
    judge_line "line $words, beside $there" "$answer"
done << END
videos.json -|82CFFF|--meta -
videos.json -|82CFFF|$levels -
videos.json -|short line: 76 of 1820 bytes|$levels ./-
line.raw line.raw |82CFFF|$levels 'line.raw '
width.json width.json |field width differs|$levels --meta 'width.json ' line.raw
|cannot read metadata|$levels --meta '' line.raw
|cannot open input|$levels ''
line.raw --black|82CFFF|$levels -- --black
END

# helped WORDS: whether the last run printed the help that these words ask for, in lines that are no longer than those
# of its texts. Of the Rust program, whose clap may be of any version, the words have to be the same, but for what clap
# says of its own options.
helped() {
    python3 "$here/help.py" $1 | lines_of > wanted
    lines_of < out > lines
    [ "$status" = 0 ] && [ ! -s err ] && cmp -s lines wanted && [ "$(wc -L < out)" -le 105 ]
}
lines_of() {
    if [ "${DIFFERENCES:-}" ]; then
        tr -s ' \n' ' ' | sed -E 's/Print (help|version)( information)?( \((see|use) [^()]*\))?//g'
    else
        tr -s ' ' | sed 's/^ //; /^$/d'
    fi
}

# Words that ask for help, and others that ask for the same
while IFS='|' read -r same words; do
    run $words
    check "the help by $words" helped "${same:-$words}"
done << END
$(for name in line extract show draw; do printf '|%s\n' "$name --help" "$name -h"; done)
line --help|line --meta absent.json --help --black dark
line --help|help line
|--help
--help|help
|-h
END
kind=${DIFFERENCES:+plain Rust}
sed -n "s/^VERSION := \(.*\)/ldvbi \1 (${kind:-proved})/p" "$top/Makefile" > version
judge_rows << 'END'
the version|--version|0|version|
the version in short|-V|0|version|
END

# Help that can't be written is a fault; a word that is refused is one, wherever that is said. The status of each with
# what the other stream has, and which stream has no room, or is closed.
while IFS='|' read -r ended full words; do
    for place in /dev/full '&-'; do
        status=0
        eval "output_of $words $full>$place $((3 - full))> said" || status=$?
        : > out
        : > err
        check "$words, where stream $full goes to $place" [ "$status$(cat said)" = "$ended" ]
    done
done << 'END'
1ldvbi: cannot write output|1|--help
1ldvbi: cannot write output|1|--version
2|2|lines
2|2|line "$(printf '\377')"
1|2|line --meta absent.json line.raw
1|2|line $levels --meta width.json line.raw
END
finish
