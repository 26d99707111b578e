#!/bin/sh
# Runs the built program's commands as a user does: what each writes, in which ways its input comes and its output goes,
# where its settings come from, and in which order faults are found. Fields and texts that are expected are made here
# (by described.py and helpers.sh). What else streams, metadata, rows of words and lines come to, the crates test,
# and for the Rust program rust_compare.sh.
# usage: sh tests/cli/program.sh PROGRAM
# runs: everywhere rust
# fails where: tests/cli/program.sh|s/too many fields/too many fielts/g

. "$(dirname "$0")/../helpers.sh"

# ---- What the commands write: of fields of both systems, and of a cut one
echo '82CFFF|F12345|F12345' | signal NTSC 1 > drawn.tbc
echo '8AE012|87FFFF|F0DD00' | signal PAL 1 > pal.tbc
{ cat pal.tbc; head -c 710509 pal.tbc; } > cut_pal.tbc
document_head NTSC 910 263 16384 51200 > begun.json
record 1 8572927,15803205,15803205 '"word","word","word"' 1,1,1 >> begun.json
{ cat begun.json; cut_field null; } > drawn.json
{
    document_head PAL 1135 313 16384 54016
    record 1 9101330,8912895,15785216 '"word","word","word"' 1,1,1
    cut_field '{"seqNo":2,"bytes":710509}'
} > cut_pal.json
sed 's/{"seqNo":2,.*}}/null}/' cut_pal.json > pal.json
# with recovered words: each line shows one, so nothing else differs from what is written without them
sed 's/"version":2/"version":3/; /"vbiPass"/s/}$/,"vbiNear":[null,null,null]}/' cut_pal.json > recovered.json
cat > pal.txt << 'END'
system PAL 1135x313 black 16384 white 54016
field 1 clv
16 8AE012 clv picture 00 12
17 87FFFF clv
18 F0DD00 time 0:00
fields 1 cut none
END
echo '8AE012 87FFFF F0DD00' > pal.words
printf '82CFFF F12345 F12345\n82CFFF F12345' > malformed
cat drawn.tbc drawn.tbc > two.tbc
echo 87FFFF > pal.line
# Line 17 of PAL begins 36320 bytes in.
tail -c +36321 pal.tbc > pal.rest
judge_rows << END
more fields than may be|extract $ntsc --max-fields 1 two.tbc|1|begun.json|too many fields
a field of PAL drawn|draw $pal pal.words|0|pal.tbc|
the document of a field of PAL and a cut one|extract $pal cut_pal.tbc|3|cut_pal.json|
the same with recovered words|extract $pal --recover cut_pal.tbc|3|recovered.json|
the report|show $pal --recover pal.tbc|0|pal.txt|
a line of a field of PAL|line $pal pal.rest|0|pal.line|
a document as metadata|extract --meta drawn.json drawn.tbc|0|drawn.json|
words drawn by a document as metadata|draw --meta pal.json pal.words|0|pal.tbc|
no words|draw $ntsc|0|empty|
a row of words that ends early|draw $ntsc malformed|1|drawn.tbc|row 2 is malformed
more rows of words than may be|draw $ntsc --max-fields 1 malformed|1|drawn.tbc|too many fields
END

# How near lines are that are read as different words, as docs/FORMATS.md has it. The last two cells of 800000 are as
# wide as they may be, and with the change between them later they are those of 800001: four columns (NTSC) or six (PAL)
# where both words are of pass 1, one or two where the second is of pass 2, and one where both are. So many columns
# turned over after the change leave no four equal ones before 517 (NTSC), or 658 (PAL).
while IFS='|' read -r system options cells turned answer; do
    echo "$cells $turned|-|-" | signal $system 1 > near.tbc
    output_of extract $options near.tbc | jq -r '.fields[0] | "\(.vbi.vbiData[0] - 8388608) pass \(.vbiPass[0])"' > out
    check "$system, how near: $turned" [ "80000$(cat out)" = "$answer" ]
done << END
NTSC|$ntsc|800000/11/44 H11 L18 H18||800000 pass 1
NTSC|$ntsc|800000/11/44 H11 L18 H18|@513-516L|800001 pass 1
NTSC|$ntsc|800000/11/44 H11 L18 H18|@516-516L|800001 pass 2
NTSC|$ntsc|800000/11/44 H11 L18 H18|@516-516L @600-600H|800001 pass 2
PAL|$pal|800000/14/44 H14 L22 H22||800000 pass 1
PAL|$pal|800000/14/44 H14 L22 H22|@652-657L|800001 pass 1
PAL|$pal|800000/14/44 H14 L22 H22|@657-657L|800000 pass 2
PAL|$pal|800000/14/44 H14 L22 H22|@655-655L @657-657L|800001 pass 2
END

# ---- The stored line in each way that it can come, and where its word can't go
echo 82CFFF | signal NTSC 0 8224 16448 > line.raw
{ cat line.raw; echo rest; } > longer.raw
run_with line.raw line $levels -
judge 'standard input as -' 0 "$stored/stdout" ''
run_with longer.raw line $levels
judge 'a longer input' 0 "$stored/stdout" ''
check 'the rest is left unread' [ "$(cat rest)" = rest ]
run_inheriting line $levels <&-
judge 'standard input that is closed' 1 empty 'ldvbi: read failed at byte 0'
run line $levels .
judge 'a folder as input' 1 empty 'ldvbi: read failed at byte 0'
mkfifo unread_pipe
# shellcheck disable=SC2094
exec 3<> unread_pipe 4> unread_pipe 3<&-
for place in /dev/full '&-' '&4'; do
    status=0
    eval "output_of line $levels line.raw >$place 2> err" || status=$?
    cp empty out
    judge "standard output goes to $place" 1 empty 'ldvbi: write failed after 0 bytes'
done
exec 4>&-
for command in line extract show draw; do
    run_with longer.raw $command $levels line.raw
    check "$command: standard input beside a file" cmp rest longer.raw
done

# ---- Settings: the words, the metadata file, the input file, the metadata and the settings are looked at in this
# order. A run that is refused takes nothing of its input.
printf '{"a":NaN}' > nan.json
run line --meta absent.json --black 65536 absent.raw
check 'words before files' is_refused
while IFS='|' read -r words said; do
    run_with line.raw $words
    judge "$words" 1 empty "ldvbi: $said"
    check "$words: the input is left" cmp rest line.raw
done << END
line $levels --meta absent.json absent.raw|cannot read metadata
draw $levels --meta nan.json absent.raw|cannot open input
line $levels --meta nan.json|metadata is not JSON
show $levels --max-fields 0|max fields is not from 1 to 1000000
END

# Metadata that is named, or beside the input: INPUT.json is read unless other metadata or all three settings are given.
# The words, and what `line` prints of the stored line, 82CFFF by its metadata's levels, or what is said
mkdir folder.raw.json
# Nobody waits for a pipe that nobody named.
mkfifo pipe.raw.json
for name in beside absent; do
    cp line.raw $name.raw
    echo '{"videoParameters":{"system":"NTSC","black16bIre":8224,"white16bIre":16448}}' > $name.raw.json
done
rm absent.raw
cp line.raw wrong.json.raw
cp line.raw folder.raw
cp line.raw pipe.raw
cp nan.json wrong.json.raw.json
echo '{"videoParameters":{"system":"NTSC","black16bIre":8224,"white16bIre":65535,"fieldWidth":910}}' > far.json
# As many bytes as are allowed, which take no room on a disk, and one more
truncate -s 268435456 zeros.json
truncate -s 268435457 more.json
while IFS='|' read -r words answer; do
    run_with line.raw line $words
    judge_line "$words, metadata" "$answer"
done << END
./beside.raw|82CFFF
--black 8224 --max-fields 5 beside.raw|82CFFF
--system NTSC --white 65535 beside.raw|blank
--meta far.json beside.raw|blank
$levels wrong.json.raw|82CFFF
wrong.json.raw|wrong.json.raw.json: metadata is not JSON
folder.raw|folder.raw.json: cannot read metadata
pipe.raw|pipe.raw.json: cannot read metadata
--max-fields 0 beside.raw|max fields is not from 1 to 1000000
absent.raw|cannot open input
line.raw|no system given
line.raw/line.raw|cannot open input
-|no system given
$levels --meta zeros.json line.raw|metadata is not JSON
$levels --meta more.json line.raw|metadata too large
END
finish
