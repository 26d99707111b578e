#!/bin/sh
# Runs the examples in C, C++ and Python on drawn sides, beside what the table answers.txt asks of them: sides that few
# numbers are judged of, stops, gaps, cut fields, worn lines, long sides and want of memory; what they refuse; those in
# Python where nobody reads what they print; and pixels.c on lines of 8 bits at 13.5 MHz, as no TBC file has them.
# Needs libldvbi.so.3 beside the program, or at the top of the repository (`make lib`).
# usage: sh tests/library/examples.sh PROGRAM
# runs: library rust
# fails where: examples/seek.py|s/wanted, 79999/wanted, 80000/

. "$(dirname "$0")/../helpers.sh"
. "$here/library_helpers.sh"
. "$tests/cli/table.sh"

with_python

# The examples, of which some answer alike. That all are built, in C++, too, answers.sh checks; what a search fetches,
# fetched.sh.
seek='seek seek.py'
stops='stops stops_cpp'
player='player player.py'
whole='whole whole.py'
for name in say seek stops player whole pixels; do
    bounded $cc -std=c99 $strict -o $name "$top/examples/$name.c" $linked
done
bounded $cxx -std=c++17 $strict -D_GLIBCXX_DEBUG -o stops_cpp "$top/examples/stops.cpp" $linked
for most in player.c:120 seek.c:80; do
    check "${most%:*} has at most ${most#*:} lines" [ "$(wc -l < "$top/examples/${most%:*}")" -le ${most#*:} ]
done
# Discs by the standards' lines: stops and marks where the number is on line 18 alone, and lines 17 and 18 that differ,
# on a side whose numbers can be judged, and on some that have too few for that
output_of draw $ntsc "$top/examples/cav.words" > cav.tbc
output_of draw $pal "$top/examples/clv.words" > clv.tbc
: > empty.tbc
while IFS='|' read -r name options rows; do
    echo "$rows" | tr ';' '\n' | bounded "$program" draw $options - > $name.tbc
done << END
scant|$ntsc|- F00001 F00001;- 800DDD 800DDD;- F00002 F00007
differ|$ntsc|82CFFF F00009 -;82CFFF F00002 F00007;82CFFF F00003 F00003
both|$ntsc|- F00001 F00001;82CFFF - -;82CFFF F00002 F00002;82CFFF F00002 F00002;82CFFF F00003 F00003;82CFFF - -\
;- F00004 -;- F00004 -
stops|$ntsc|- F00001 F00001;- 800DDD 800DDD;- F00002 F00007;- 800DDD 800DDD;82CFFF 82CFFF F00003;- 801DDD 801DDD\
;- F00004 -;82CFFF 801DDD 801DDD;82CFFF F00005 F00005;- 802DDD 802DDD;- - 82CFFF;80EEEE 80EEEE 80EEEE
marks|$pal|8AE000 87FFFF F0DD00;- 800DDD 800DDD;8AE001 F0DD00 F0DD00;8AE002 F0DD00 F0DD01;8AE003 87FFFF F1DD09
END
# Sides of ten pictures in order, and lead-out; of twelve parts of five pictures, with a gap between two of these; of
# thirteen runs of five times, of which each second one is misread; on which numbers go back, another side begins, the
# beginning isn't seen, or a field is swapped; and of 129 fields, with all numbers; with few, so that the number of a
# stop is due 24 fields before one which another supports 24 fields on; and with chapters 24 fields before a stop, and a
# stop in lead-out
awk 'function draw(side, first, last) {
    for (; first <= last; first++) printf "- F%05d F%05d\n- - -\n", first, first > side ".words"
}
BEGIN {
    draw("ten", 1, 10); print "- 80EEEE 80EEEE" > "ten.words"
    for (part = 0; part < 12; part++) draw("gaps", 100 * part + 1, 100 * part + 5)
    for (run = 0; run < 13; run++) for (picture = 1; picture <= 5; picture++) {
        time = 5 * run + run % 2 * 40000 + picture
        second = sprintf("8%cE%d%02d", 65 + int(time / 250) % 6, int(time / 25) % 10, time % 25)
        printf "%s 87FFFF F0DD%02d\n- - -\n", second, int(time / 1500) > "runs.words"
    }
    draw("back", 1, 9); draw("back", 4, 12)
    draw("joined", 1, 9); print "- 80EEEE 80EEEE\n- 80EEEE 80EEEE" > "joined.words"; draw("joined", 1, 9)
    for (field = 1; field <= 101; field++) print "- - -" > "late.words"
    draw("late", 2, 9)
    draw("swapped", 1, 9); print "- - -\n- F00010 F00010" > "swapped.words"; draw("swapped", 11, 20)
    for (field = 1; field <= 129; field++) {
        number = sprintf("F%05d", (field + 1) / 2)
        print "- " number " -" > "long.words"
        line = field == 29 || field == 38 || field == 125 ? "82CFFF " : "- "
        print line (field ~ /^(21|23|27|53|77)$/ ? number " " number : field == 55 ? number " -" : "- -") \
            > "sparse.words"
        chapter = field ~ /^[1246]$/ ? "802DDD" : field ~ /^1[468]$/ ? "803DDD" : field ~ /^[67][02468]$/ ? "879DDD" : \
            field > 120 ? "80EEEE" : "-"
        print line (field % 2 && field > 1 && field < 120 ? number " -" : chapter " " chapter) > "reach.words"
    }
}'
for name in ten gaps back joined late swapped long reach; do output_of draw $ntsc $name.words > $name.tbc; done
for name in sparse runs; do output_of draw $pal $name.words > $name.tbc; done
# A worn side, where no line shows its word: whoever finds one has recovered it. A stop on line 16 alone isn't enough.
awk 'BEGIN { for (picture = 1; picture <= 24; picture++) {
    worn = " @170-174L"
    number = sprintf("F%05d", picture) worn
    is_stop = picture % 9 == 2
    print (is_stop || picture == 6 ? "82CFFF" worn : "-") "|" (is_stop ? "82CFFF" worn : number) "|" number
    print "-|800DDD" worn "|800DDD" worn
} }' | signal NTSC 1 > worn.tbc
run extract $ntsc worn.tbc
check 'a worn side: no line shows its word' [ "$(jq -c '[.fields[].vbi.vbiData[]] | [length, add]' out)" = '[144,0]' ]
mkdir folder.tbc
ln -s /dev/null null.tbc
bounded python3 "$tests/cli/answers.py" draw misread clock slow rare away dark few even minutely pairless || exit 1
does sh "$top/examples/side.sh" ./missing
check 'side.sh without its program' [ "$status" = 127 ]
bounded sh "$top/examples/side.sh" "$program"
# What the documents show of these sides comes of each of their samples.
check 'side.sh draws this side, and no other' [ "$(cat side.tbc side.tbc.json | cksum)" = '2606455723 56485998' ]
check 'sides of twelve fields and of eleven' [ "$(cat cav.tbc | wc -c) $(cat clv.tbc | wc -c)" = '5743920 7815610' ]
# Parts of sides: so many fields, and bytes of the next one
for part in stops_4_478659 stops_5_0 stops_5_1 stops_8_32760 ten_18_478659 ten_20_478659 gaps_110_0; do
    fields=${part#*_}
    head -c $((478660 * ${fields%_*} + ${fields#*_})) ${part%%_*}.tbc > $part.tbc
done
# The settings of all, as players take them: metadata, and the first rows of a map
for side in nowhere folder null empty cav side stops both misread worn long reach clock gaps \
    stops_4_478659 stops_5_0 ten_18_478659; do settles $side $on_cav; done
for side in clv sparse rare; do settles $side $on_clv; done

# A line that shows a picture, a line without a word, one that shows a chapter, and one that lacks a byte
while read -r field line bytes ending said; do
    tail -c +$((478660 * (field - 1) + 1820 * (line - 1) + 1)) cav.tbc | head -c $bytes > line.raw
    printf '%s' "${said:+picture $said
}" > said
    does sh -c './say < line.raw' || :
    check "say: line $line of field $field, $bytes bytes" [ "$status $(cmp out said 2>&1)" = "$ending " ]
done << END
7 18 1820 0 3
7 16 1820 0
4 17 1820 0
3 16 1820 0
7 18 1819 1
END

# What examples are asked (examples.py)
cut='the last field is cut: field'
off="first and last number don't fit"
low='black is not below white'
number='no level from 0 to 65535, picture from 0 to 79999, or chapter from 0 to 79'
no_system='system is neither NTSC nor PAL'
gaps=$(awk 'BEGIN { for (part = 0; part < 10; part++)
    printf "%slost 190: field %d has %d, field %d has %d", part ? ";" : "", 10 * part + 9, 100 * part + 5, \
        10 * part + 11, 100 * part + 101 }')
runs=$(awk 'BEGIN {
    for (run = 0; run < 10; run++) printf "replaced 0: field %d has %d, field %d has %d;", 10 * run + 9, \
        5 * run + run % 2 * 40000 + 5, 10 * run + 11, 5 * run + (run + 1) % 2 * 40000 + 6
    printf "gaps left out: 2"
    for (run = 1; run < 12; run += 2) for (picture = 1; picture <= 5; picture++)
        printf ";aside: field %d has %d", 10 * run + 2 * picture - 1, 5 * run + 40000 + picture }')
cat > rows << END
$seek|0|field 5|stops;stops_8_32760|@ 3;@ 000000003;NTSC 000016384 000051200 3|
$seek|1|not found|stops|@ 7;@ 79999;@ chapter 79;@ 9:59:59.29|
$seek|1|not found|scant;marks;clv|@ 1;@ 0:00:00.02;@ chapter 1;@ 9:59:59.24|
$seek|0|field 23|worn|@ 12|
$seek|0|field 19|ten|@ 10|
$seek|0|field 60|reach|@ chapter 79|
$seek|1|not found|ten_18_478659|@ 10|
$seek|1|not found|stops_4_478659|@ 3|
$seek|2||cav|@;@ chapter 3 4;@ 3 4;@ 3 chapter|usage: % FILE NTSC|PAL BLACK WHITE NUMBER|H:MM:SS.PP|chapter N
$seek|2||cav|@ xyz;@ 3x;@ 3~;@ -3;@ '';@ 80000;@ 0000000003;@ 4294967299;@ chapter 80;@ chapter -1|$number
$seek|2||cav|@ chapter 3x;@ chapter 256;@ chapter 0:00:00.00|$number
$seek|2||cav|NTSC 65536 51200 &;NTSC 16384 65536 &;NTSC -1 51200 &;NTSC 16384x 51200 &;NTSC 16384 xyz &|$number
$seek|2||cav|@ 0:00:60.00;@ 0:60:00.00;@ 0:00:00.30;@ 10:00:00.00;@ 0:00:00;@ 0:00:00.00.00|no time of a disc
$seek|2||cav|@ 0:00:00.0x;@ 0:00:00.0~;@ 0:+1:00.00|no time of a disc
$seek|2||clv|@ 0:00:00.25|no time of a disc
$seek $stops|2||empty|NTSC 51200 16384 &|$low*
seek player whole|2||nowhere;folder;null;empty|@ &|no field of the file can be mapped
seek.py player.py whole.py|2||nowhere;folder;null|@ &|*
player.py whole.py|2||empty|@ &|no field in empty.tbc
$stops|0|0 stops|clv;empty|@|
$stops|0|field 5 picture 3;field 8;field 9 picture 5;3 stops|stops|@;NTSC 000016384 000051200|
$stops|0|field 29 picture 15;field 38;field 125;3 stops|sparse|@|
$stops|0|field 1 picture 9;field 2;field 3 picture 3;3 stops|differ|@|
$stops|0|field 3 picture 2;field 21 picture 11;field 39 picture 20;3 stops|worn|@|
$stops|0|0 stops|stops_4_478659|@|$cut 5 has 478659 of 478660 bytes
$stops|0|field 5 picture 3;1 stops|stops_5_0|@|
$stops|0|field 5 picture 3;1 stops|stops_5_1|@|$cut 6 has 1 of 478660 bytes
stops|2||folder|@|Is a directory
stops_cpp|2||folder|@|standard input: Is a directory
$stops|2||cav|NTSC 16384;@ cav.tbc|usage: stops NTSC|PAL BLACK WHITE < FILE
$stops|2||cav|NTSC -1 51200;NTSC 1x 51200;NTSC 1~ 51200;NTSC '' 51200;NTSC 0000016384 51200|black is not a whole number
$stops|2||cav|NTSC 16384 4294967297;NTSC 16384 xyz;NTSC 16384 99999999999999999999|white is not a whole number
$player|1|search: field 65 picture 30;play: field 97 picture 46;search: field 21 picture 7;play: field 33 picture 17\
;still: field 33 picture 17;search: not found, field 109 picture 52;still: field 109 picture 52\
;search: not found, field 25 picture 9;search: not found, field 27 picture 14|side\
|@ search 30 play search 7 play still search 79999 still search 10 search 13|
$player|1|next: field 10;chapter: field 36;next: field 78;next: not found;previous: field 36;previous: field 10\
;chapter: not found|side|@ next chapter 1 next next previous previous chapter 3|
$player|1|search: field 7 picture 4;play: field 8;play: field 9 picture 5;play: not found|stops\
|@ search 4 play play play|
$player|1|play: field 2;play: field 3 picture 2;play: field 5 picture 3;play: not found|both|@ play play play play|
$player|1|play: field 23 picture 112;play: field 35 picture 118;search: not found, field 1 picture 101|misread\
|@ play play search 5|
$player|0|search: field 23 picture 12;play: field 39 picture 20|worn|@ search 12 play|
$player|0|search: field 65 picture 33|long|@ search 33|
$player|1|still: field 1;play: field 5;play: not found|stops_5_0|@ still play play|
$player|1|chapter: not found, field 1;chapter: field 1|reach|@ chapter 1 chapter 2|
$player|0|play: field 29 picture 15|sparse|@ play|
$player|0|search: field 25|rare|@ search 0:04:00.00|
$player|0|search: field 5;search: field 29|clock|@ search 0:59:59.20 search 1:00:00.04|
$player|0|next: field 14;play: field 29 picture 15;play: field 38;next: field 60;search: field 39 picture 20\
;next: field 1;search: field 13 picture 7;next: field 14|reach|@ next play play next search 20 next search 7 next|
$player|1|search: field 75 picture 38;play: field 125;next: not found;previous: field 60;previous: field 14|reach\
|@ search 38 play next previous previous|
$player|1|search: not found|clv|@ search 3;@ search 9:59:59.24|
$player|1|search: not found;chapter: not found|cav|@ search 9:59:59.29 chapter 79|
$player|1|search: not found, field 9 picture 5;search: not found, field 11 picture 101|gaps|@ search 53 search 54|
$player|1|search: not found, field 17 picture 9|ten_18_478659|@ search 10|
$player|1|play: not found|stops_4_478659|@ play|
player|2||cav|@|usage: player FILE MAP search PLACE|chapter N|next|previous|play|still ..
player.py|2||cav|@|usage: player.py FILE search PLACE|chapter N|next|previous|play|still ..
player|2||cav|@ chapter;@ chapter 80;@ chapter 0:00:00.00;@ chapter x|no such place
player.py|2||cav|@ chapter 80;@ chapter -1|no chapter from 0 to 79
player.py|2||cav|@ chapter;@ chapter 0:00:00.00;@ chapter x|*
END
for said in "player|2||%|no such place" "player.py|2||%|neither a picture nor a time"; do
    while read -r asked; do
        echo "$said" | sed "s/%/$asked/"
    done << END
cav|@ search;@ search 3x;@ search 3~;@ search -3;@ search 123456;@ search 1:2;@ search 1:2:3;@ search 0:+1:00.00
cav|@ search 0:60:00.00;@ search 0:00:60.00;@ search 0:00:00.30;@ search 10:00:00.00;@ search 0:00:00.00.00
clv|@ search 0:00:00.25
END
done >> rows
cat >> rows << END
$player|2||cav|@ stop|no such command
$seek $stops $whole|2||cav|SECAM 16384 51200 &;pal 1 2 &;1 16384 51200 &|$no_system
$seek $stops $whole|2||cav|NTSC 51200 16384 &;NTSC 16384 16384 &;NTSC 65535 65535 &|$low*
$stops whole|2||cav|NTSC 16384 65536|$low*
whole|2||cav|NTSC -1 2;NTSC 1x 2;NTSC 1~ 2;NTSC '' 2;NTSC 0000000001 2;NTSC 1 4294967297|a level is not a whole number
whole.py|2||cav|NTSC -1 51200;NTSC 16384x 51200;NTSC 16384 65536;NTSC 16384 4294967297;NTSC 16384 xyz|*
$whole|0|whole: yes|cav;ten|@;@ cut;NTSC 000016384 000051200|
$whole|0|whole: yes|worn;few;even|@ cut|
$whole|1|whole: no: fields are lost, $off, no lead-out;lost 4: field 3600 has 1799, field 3601 has 1802|few|@|
$whole|1|whole: no: fields are lost, $off;lost 4: field 3599 has 1799, field 3601 has 1802|minutely;pairless|@ cut|
$whole|4|whole: can't tell: no lead-out|ten_18_478659;ten_20_478659|@|
$whole|4|whole: can't tell: no numbers|clv;stops_4_478659|@|
$whole|4|whole: can't tell: its beginning isn't seen|late|@ cut|
$whole|4|whole: can't tell: over 100 fields without a number|dark|@|
$whole|1|whole: no: it begins late, many numbers are in doubt|rare|@ cut|
$whole|1|whole: no: fields are swapped|swapped|@ cut|
$whole|1|whole: no: numbers go back, $off;back 0: field 17 has 9, field 19 has 4|back|@ cut|
$whole|1|whole: no: another side begins, $off;joined 0: field 17 has 9, field 21 has 1|joined|@ cut|
$whole|1|whole: no: fields are lost, $off;lost 8: field 25 has 9, field 27 has 14\
;still 2: field 41 has 21, field 43 has 21;still 2: field 43 has 21, field 45 has 21\
;still 2: field 45 has 21, field 47 has 21|side|@;@ cut|
$whole|1|whole: no: too many fields, it begins late, $off, many numbers are in doubt\
;still 2: field 25 has 413, field 27 has 413;still 2: field 27 has 413, field 29 has 413\
;held 14: field 31 has 414, field 53 has 417;still 2: field 55 has 418, field 57 has 418\
;still 2: field 57 has 418, field 59 has 418|slow|@ cut|
$whole|1|whole: no: it begins late, fields may be lost;open 4: field 23 has 107999, field 25 has 108002|clock|@ cut|
$whole|1|whole: no: fields don't belong there;inserted 40: field 359 has 180, field 361 has 381\
;inserted 0: field 399 has 400, field 401 has 181|away|@ cut|
$whole|4|whole: can't tell: fields may be lost;$runs|runs|@ cut|
$whole|1|whole: no: fields are lost, $off, no lead-out;$gaps;gaps left out: 1|gaps|@|
$whole|1|whole: no: fields are lost, $off, no lead-out;$gaps|gaps_110_0|@|
$whole|2||cav|NTSC 16384;@ cut cut;@ whole|usage: % FILE NTSC|PAL BLACK WHITE [cut]
END
bounded python3 "$here/examples.py" < rows > out 2> err; status=$?
check "examples answer as the table has it" [ "$status" = 0 ]
counted 'examples: run'

# A player's settings that can't be right
while IFS='|' read -r settings said; do
    settles cav $settings
    check "player, told $settings" answers_so player 2 '' "$said" './player cav.tbc cav.map play'
    check "player.py, told $settings" answers_so player.py 2 '' '*' "python3 $top/examples/player.py cav.tbc play"
done << END
NTSC 51200 16384|$low, or one of them is above 65535
NTSC 16384 16384|$low, or one of them is above 65535
NTSC 16384 65536|$low, or one of them is above 65535
NTSC 16384 -1|$low, or one of them is above 65535
NTSC 16384 xyz|no system and levels in the map
SECAM 16384 51200|no system and levels in the map
SECA 16384 51200|$no_system
END
rm cav.map cav.tbc.json
check 'player: no map' answers_so player 2 '' 'no system and levels in the map' './player cav.tbc cav.map play'
check 'player.py: no metadata' answers_so player.py 2 '' '*' "python3 $top/examples/player.py cav.tbc play"

# Of a side that is read as a whole the pages with lines 16 to 18 are asked for ahead, once; of all that map a side
# nothing else is read ahead. Of a file on standard input few bytes are read, and of a pipe all; it may begin after the
# file's first field.
bounded $cc -std=c99 -Wall -Wextra -Werror -shared -fPIC -I"$top/include" -o advised.so "$here/advised.c" -ldl
awk -v fields=129 'BEGIN {
    print "random", 0, 478660 * fields
    for (rows = 15 * 1820; asked++ < fields; rows += 478660) print "asks", rows - rows % 4096, rows + 3 * 1820
}' > wanted_advice
settles long $on_cav
does env ADVISED=whole.advice LD_PRELOAD="$work/advised.so" ./whole long.tbc $on_cav cut
check "whole asks for the pages ahead" cmp whole.advice wanted_advice
for asked in 'player long.map play' "seek $on_cav 65"; do
    name=${asked%% *}
    does env ADVISED=$name.advice LD_PRELOAD="$work/advised.so" ./$name long.tbc ${asked#* }
    check "$name has nothing read ahead" [ "$(cat $name.advice)" = "random 0 $((478660 * 129))" ]
done
for name in $stops; do
    bounded sh -c "./$name $on_cav < long.tbc > out && sed -n 's/^rchar: //p' /proc/\$\$/io" > count
    check "$name reads few bytes of a file" [ "$(tail -n 1 out) $(($(cat count) < 478660 * 129 / 20))" = '0 stops 1' ]
    picture=
    [ $name = stops ] || picture=' picture 3'
    check "$name of a pipe" answers_so ${name%_cpp} 0 "field 5$picture;1 stops" "$cut 6 has 1 of 478660 bytes" \
        "cat stops_5_1.tbc | ./$name $on_cav"
    check "$name of a file from its second field on" answers_so ${name%_cpp} 0 "field 4$picture;1 stops" \
        "$cut 5 has 1 of 478660 bytes" "sh -c '{ head -c 478660 > skipped; ./$name $on_cav; } < stops_5_1.tbc'"
    cp stops.tbc shorter.tbc
    check "$name of a file that is shorter by now" answers_so ${name%_cpp} 0 '0 stops' '' \
        "sh -c '{ head -c 478660 > skipped; : > shorter.tbc; ./$name $on_cav; } < shorter.tbc'"
done

# A stop is written as soon as its field is read: the pipe ends when it is there.
{
    cat stops_5_0.tbc
    for turn in $(seq 100); do
        [ ! -s written ] || break
        sleep 0.1
    done
    cp written early
} | bounded ./stops $on_cav > written
check 'stops: a stop before the pipe ends' [ "$(cat early)" = 'field 5' ]

# A file that can't be mapped
truncate -s $((478660 * 220000)) great.tbc
check 'seek: a file that cannot be mapped' answers_so seek 2 '' 'no field of the file can be mapped' \
    "sh -c 'ulimit -v 500000 && exec ./seek great.tbc $on_cav 3'"

# Nobody reads what these print: the pipe is closed before they write. One in C ends so by itself.
{
    sleep 1
    for words in "seek.py cav.tbc $on_cav 3" "player.py long.tbc search 3 play" "whole.py cav.tbc $on_cav"; do
        bounded python3 "$top"/examples/$words 2> err
        echo "${words%% *} $? $(cat err)" >> ended
    done
} | :
check 'an output that nobody reads' [ "$(paste -s -d ' ' ended)" = 'seek.py 141  player.py 141  whole.py 141 ' ]

# Lines at 13.5 MHz, drawn by the standards alone, with a little noise: words as the disc has them, and nearly as short
# as the library takes them, where samples that lie too far apart read nothing. Each begins at another part of a pixel.
cat > pixels.py << 'END'
import random, sys
from lines import Television, drawn
BEFORE = {"NTSC": 122, "PAL": 132}[sys.argv[1]]  # pixels of a line before those of active video
chance = random.Random(60856)
for row in sys.stdin:
    for word in row.split()[:3]:
        begin = 13.5 * (10.5 + chance.uniform(-0.25, 0.25)) - BEFORE
        tv = Television(1, 28, 223, 720, 263, 1000, int(1000 * begin), int(13500 * float(sys.argv[2])))
        line = drawn(tv, 0 if word == "-" else int(word, 16))
        sys.stdout.buffer.write(bytes(level + chance.randint(-12, 12) for level in line))
END
printf '%s\n' '- F00001 F00001' '- - -' '82CFFF F00004 F00004 stop' '- F79999 82CFFF' '8AE712 87FFFF F0DD09' \
    '8BA0A1 807DDD 88FFFF' 'AAAAAA 800000 FFFFFF' > pixels.txt
for half_cell in 1 0.82; do
    for system in NTSC PAL; do
        PYTHONPATH=$PYTHONPATH:$here bounded python3 pixels.py $system $half_cell < pixels.txt > lines.y8
        check "pixels: lines of $system at 13.5 MHz, half cells of $half_cell microseconds" \
            prints 0 "$(cat pixels.txt)" sh -c "./pixels $system 16 235 < lines.y8"
        bounded python3 "$here/resampled.py" $system < lines.y8 > resampled
        bounded env ADVISED=$system.$half_cell LD_PRELOAD="$work/advised.so" ./pixels $system 16 235 < lines.y8 > out
        check "pixels: each sample of $system, half cells of $half_cell microseconds" cmp $system.$half_cell resampled
    done
done
head -c 1 lines.y8 > part.y8
check 'pixels: no line, and levels of one digit to three' \
    answers_so pixels 0 '' '' './pixels NTSC 0 10 && ./pixels NTSC 016 255'
while IFS='|' read -r words said; do
    check "pixels: $words" answers_so pixels 2 '' "$said" "./pixels $words"
done << END
PAL 16 235 < part.y8|the last field is cut
NTSC 16 235 < $work|Is a directory
NTSC 16|usage: pixels NTSC|PAL BLACK WHITE < FILE
NTSC 16 235 x|usage: pixels NTSC|PAL BLACK WHITE < FILE
SECAM 16 235|$no_system
NTSC -1 235|black is not a whole number from 0 to 255
NTSC 16~ 235|black is not a whole number from 0 to 255
NTSC '' 235|black is not a whole number from 0 to 255
NTSC 0016 235|black is not a whole number from 0 to 255
NTSC 16 256|white is not a whole number from 0 to 255
NTSC 235 16|$low, or one of them is above 65535
NTSC 16 16|$low, or one of them is above 65535
END

# What a system may lack: room on a disk, memory, standard input, or the end of a file, now or when it is read; and the
# library's interface that a program knows
bounded $cc -std=c99 -Wall -Wextra -Werror -shared -fPIC -I"$top/include" -o lacking.so "$here/lacking.c" -ldl
lacking="env LD_PRELOAD=$work/lacking.so LACKING"
while IFS='|' read -r name said command; do
    check "$name: $said" answers_so ${name%_cpp} 2 '' "$said" "$command"
done << END
seek|the answer can't be written|./seek cav.tbc $on_cav 5 > /dev/full
stops|No space left on device|./stops $on_cav < stops.tbc > /dev/full
stops_cpp|the stops can't be written|./stops_cpp $on_cav < stops.tbc > /dev/full
pixels|No space left on device|./pixels NTSC 16 235 < lines.y8 > /dev/full
stops|Bad file descriptor|./stops $on_cav <&-
stops_cpp|standard input: Bad file descriptor|./stops_cpp $on_cav <&-
stops|Cannot allocate memory|$lacking=memory ./stops $on_cav
stops_cpp|std::bad_alloc|$lacking=memory ./stops_cpp $on_cav
stops|Input/output error|$lacking=end ./stops $on_cav < stops.tbc
stops_cpp|standard input: Input/output error|$lacking=end ./stops_cpp $on_cav < stops.tbc
stops|the library has another interface|$lacking=interface ./stops $on_cav
stops_cpp|the library has another interface|$lacking=interface ./stops_cpp $on_cav
pixels|the library has another interface|$lacking=interface ./pixels NTSC 16 235
END

# None writes or reads where it has no room, or a sanitizer would say so.
for asked in 'pixels NTSC 16 235 < lines.y8' "whole side.tbc $on_cav" \
    'player side.tbc side.map search 0:00:00.00 search 30 play chapter 1 next previous'; do
    bounded $cc -std=c99 $strict -fsanitize=address,undefined -o guarded "$top/examples/${asked%% *}.c" $linked
    does env ASAN_OPTIONS=detect_leaks=0 sh -c "./guarded ${asked#* }" || :
    check "${asked%% *} keeps to the room that it has" [ ! -s err ]
done
finish
