#!/bin/sh
# Makes reads and writes of the commands, and reads of metadata, fail, be interrupted, move few bytes or end, and
# compares what the built program writes, what it says, its status, and how often it asks its devices. Here the devices
# are those of the system (devices.c); what becomes of a fault at each byte is proved, and tested in the crates over
# made-up ones.
# usage: sh tests/cli/device_faults.sh PROGRAM
# runs: everywhere rust
# fails where: tests/cli/device_faults.sh|s/write failed/write foiled/g

. "$(dirname "$0")/../helpers.sh"

"${CC:-cc}" -std=c99 -shared -fPIC -O2 -Wall -o devices.so "$here/devices.c" -ldl || exit 1
DEVICE_RECORD=$work/record
export DEVICE_READ DEVICE_WRITE DEVICE_RECORD

# Two fields; what is written of them when so many are whole (begun), of all, and where the second is cut
printf '82CFFF|F12345|F12345\n87FFFF|F0DD09|82CFFF @170-171L\n' | signal NTSC 1 > two.tbc
document_head NTSC 910 263 16384 51200 > begun
record 1 8572927,15803205,15803205 '"word","word","word"' 1,1,1 >> begun
{ cat begun; printf ',\n'; record 2 8912895,15785225,8572927 '"word","word","word"' 1,1,2; cut_field null; } > whole
{ cat begun; cut_field '{"seqNo":2,"bytes":1000}'; } > cut.json
{ cat "$stored/stdin"; echo rest; } > longer.raw
printf '82CFFF F12345 F12345\n82CFFF - -\n' > words
printf '82CFFF|F12345|F12345\n82CFFF|-|-\n' | signal NTSC 1 > drawn.tbc
printf '{"videoParameters":{"system":"NTSC","black16bIre":8224,"white16bIre":16448}}' > line.json

# A row: what is on standard input, the words, the fault of reads of a descriptor, that of writes, the status, what is
# written (FILE:BYTES, the file up to so many bytes), what is said, and how often the two were asked. An input or
# metadata that is a file has the first free descriptor: 3, where that is closed.
#
# Fields are asked for line by line, and the head, each record and the tail are written one by one: after a byte that
# comes alone the rest is asked for. 17 interruptions in a row are one too many. `line` asks for its one line and no
# more. `draw` asks for one byte after the other, and writes a field line by line. Metadata may come byte by byte: 10
# bytes, 1,000 interruptions, 66 bytes, the end.
while IFS='|' read -r input words read_fault write_fault ended written said asked; do
    DEVICE_READ=$read_fault
    DEVICE_WRITE="1 $write_fault"
    : > record
    status=0
    {
        bounded env LD_PRELOAD="$work/devices.so" "$program" $words > out 2> err || status=$?
        cat > rest
    } < $input 3<&-
    [ "$(cat record)" = "$asked" ] || echo "asked: $(cat record)" >> err
    head -c "${written#*:}" "${written%:*}" > part
    judge "$words, $input: reads: $read_fault, writes: $write_fault" $ended part "${said:+ldvbi: $said}"
    case $said in *metadata*) check "$words, $input: reads: $read_fault: the input is left" cmp rest $input ;; esac
done << END
two.tbc|extract $ntsc|0 479660 error||1|begun:1000|read failed in field 2 at byte 1000|265 reads, 2 writes
two.tbc|extract $ntsc|0 479660 interrupt||1|begun:1000|read failed in field 2 at byte 1000|281 reads, 2 writes
two.tbc|extract $ntsc|0 479660 interrupt 16||0|whole:1000||544 reads, 4 writes
two.tbc|extract $ntsc|0 479660 1 1||0|whole:1000||529 reads, 4 writes
two.tbc|extract $ntsc|0 479660 end||3|cut.json:1000||265 reads, 3 writes
two.tbc|extract $ntsc|0|30 error|1|whole:30|write failed after 30 bytes|0 reads, 2 writes
two.tbc|extract $ntsc|0|30 end|1|whole:30|write failed after 30 bytes|0 reads, 2 writes
two.tbc|extract $ntsc|0|30 interrupt|1|whole:30|write failed after 30 bytes|0 reads, 18 writes
two.tbc|extract $ntsc|0|30 interrupt 16|0|whole:1000||527 reads, 21 writes
two.tbc|extract $ntsc|0|30 1 1|0|whole:1000||527 reads, 6 writes
longer.raw|line $levels|0||0|$stored/stdout:7||1 reads, 1 writes
longer.raw|line $levels|0 7 interrupt 16||0|$stored/stdout:7||18 reads, 1 writes
longer.raw|line $levels|0 0 1||0|$stored/stdout:7||1820 reads, 1 writes
longer.raw|line $levels|0 1819 end 1||1|empty:0|short line: 1819 of 1820 bytes|2 reads, 0 writes
longer.raw|line $levels|0|0 1|0|$stored/stdout:7||1 reads, 7 writes
words|draw $ntsc|0 21 error||1|drawn.tbc:478660|read failed in row 2|22 reads, 263 writes
words|draw $ntsc|0 25 interrupt 16||0|drawn.tbc:957320||49 reads, 526 writes
words|draw $ntsc|0 21 end||0|drawn.tbc:478660||22 reads, 263 writes
words|draw $ntsc|0|1000 error|1|drawn.tbc:1000|write failed after 1000 bytes|21 reads, 2 writes
words|draw $ntsc|0|0 1 1820|0|drawn.tbc:957320||33 reads, 2345 writes
empty|line $levels longer.raw|3 7 error||1|empty:0|read failed at byte 7|2 reads, 0 writes
empty|extract $ntsc two.tbc|3 479660 interrupt 16||0|whole:1000||544 reads, 4 writes
longer.raw|line --meta line.json|3 10 end||1|empty:0|metadata is not JSON|2 reads, 0 writes
longer.raw|line --meta line.json|3 0 1||0|$stored/stdout:7||77 reads, 1 writes
longer.raw|line --meta line.json|3 10 interrupt 1000||0|$stored/stdout:7||1003 reads, 1 writes
longer.raw|line --meta line.json|3 10 error||1|empty:0|cannot read metadata|2 reads, 0 writes
END
finish
