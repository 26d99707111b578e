#!/bin/sh
# Refuses each allocation of the built program in turn. Each answer has to be the whole one, or `ldvbi: out of memory`
# with status 1, nothing written, and nothing read from the input. Where no allocation was refused, that is never said,
# whatever the length of the metadata; metadata of 10 MB is read with 20 times its bytes of memory.
# usage: sh tests/cli/want_of_memory.sh PROGRAM
# runs: everywhere rust
# fails where: tests/cli/want_of_memory.sh|s/out of memory/out of memori/

. "$(dirname "$0")/../helpers.sh"

"${CC:-cc}" -std=c99 -shared -fPIC -O2 -Wall -o devices.so "$here/devices.c" -ldl || exit 1
echo 'ldvbi: out of memory' > wanting
REFUSE_MARK=$work/mark
export REFUSE_MARK
printf '{"a":NaN}' > nan.json
printf '{"videoParameters":{"system":"NTSC","fieldWidth":910,"fieldHeight":263,"black16bIre":8224,%s' \
    '"white16bIre":16448,"sampleRate":14318181.5},"fields":[]}' > line.json
echo '-|-|-' | signal NTSC 1 8224 16448 > beside.tbc
cp line.json beside.tbc.json

# Each of the allocations of a run is refused in turn. The runs have 50 to 150 of them, by the program. Here nothing
# bounds a run: that would take longer than the runs do.
while IFS='|' read -r input words; do
    run_with "$input" $words
    whole=$status
    cp out whole.out
    cp err whole.err
    : > wrong
    number=0
    : > mark
    while [ -e mark ]; do
        number=$((number + 1))
        rm -f mark
        status=0
        {
            REFUSE_AT=$number LD_PRELOAD=$work/devices.so "$program" $words > out 2> err || status=$?
            cat > rest
        } < "$input"
        ended "$whole" whole.out whole.err || { ended 1 empty wanting && cmp -s rest "$input"; } ||
            echo "allocation $number refused: status $status" >> wrong
    done
    cp wrong err
    check "$words: each of over 40 allocations may be refused" [ "$(cat wrong)$((number > 40))" = 1 ]
done << END
$stored/stdin|$(paste -s -d " " "$stored/args")
empty|line --help
empty|line --black 65536
$stored/stdin|line --meta nan.json
$stored/stdin|line --meta line.json
empty|extract --recover beside.tbc
END

# What the program says of metadata by its length: a quote and letters, a text without its end. No allocation may be
# refused then. One shell is for all, since to bound each run by itself takes longer than the runs do.
{ seq 0 65; awk 'BEGIN { for (size = 128; size <= 33554432; size *= 2) {
    print size
    if (size <= 65536) print size - 1 "\n" size + 1
} }'; } > lengths
{ printf '"'; head -c 33554432 /dev/zero | tr '\000' a; } > letters
rm -f mark
does sh -c '
    while read -r length; do
        head -c $length letters > text.json
        LD_PRELOAD=$2 "$1" line --meta text.json < empty 2>&1
        echo "$length $?"
    done < lengths' sh "$program" "$work/devices.so"
sed 's/^/ldvbi: metadata is not JSON\n/; s/$/ 1/' lengths > wanted
diff wanted out | head -n 20 >> err
[ ! -e mark ] || echo 'an allocation was refused' >> err
check 'what is said of a text of each length' [ ! -s err ]

# Metadata of 10 MB, as ld-decode writes it; here what is wanted stands after the records of fields. Want of memory is
# said exactly where an allocation was refused, with so many times its bytes of memory at most.
field='"audioSamples":735,"diskLoc":1.1,"isFirstField":true,"medianBurstIRE":19.7,"seqNo":1,"syncConf":100'
{
    printf '{"fields":[0'
    yes ",{$field,\"vitsMetrics\":{\"bPSNR\":38.1}}" | head -c 10000000 | sed '$d'
    printf '],"videoParameters":{"system":"NTSC","black16bIre":8224,"white16bIre":16448}}'
} > long.json
for times in 2 8 14 20; do
    rm -f mark
    does sh -c 'ulimit -v $1; LD_PRELOAD=$2 "$3" line --meta long.json "$4"' \
        sh $((times * 10000000 / 1024)) "$work/devices.so" "$program" "$stored/stdin"
    set -- 0 "$stored/stdout" ''
    [ ! -e mark ] || set -- 1 empty 'ldvbi: out of memory'
    judge "10 MB of metadata within $times times its bytes" "$@"
    [ $times != 2 ] || check 'twice the bytes of metadata are too few' [ -e mark ]
done
check '20 times the bytes of metadata are enough' [ ! -e mark ]
finish
