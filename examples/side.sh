#!/bin/sh
# Draws a capture of a short CAV side on which things went wrong: side.tbc, and side.tbc.json as ld-decode writes it, in
# the current folder. Of its pictures 1 to 52, 10 to 13 are skipped, 21 stands still, and 30 is misread as 79999 on line
# 17 and not read on line 18; ten of its fields have damaged lines. There are stops on lines 16 and 17, and three
# chapters.
# usage: sh examples/side.sh [PROGRAM]     (without PROGRAM: `ldvbi` on the PATH)
set -eu

program=${1:-ldvbi}

# ends CODE: eight fields of lead-in or lead-out
ends() {
    for field in $(seq 8); do
        printf -- '- %s %s\n' "$1" "$1"
    done
}
{
    ends 88FFFF
    for number in $(seq 1 9) $(seq 14 21) 21 21 21 $(seq 22 52); do
        digits=$(printf %05d "$number")
        case $number in
            7) echo "82CFFF F$digits F$digits" ;;
            17 | 46) echo "82CFFF 82CFFF F$digits" ;;
            30) echo '- F79999 -' ;;
            *) echo "- F$digits F$digits" ;;
        esac
        echo "- 80$((number / 18))DDD 80$((number / 18))DDD"
    done
    ends 80EEEE
} | "$program" draw --system NTSC --black 16384 --white 51200 > side.tbc

# dropout FIELD LINE COLUMN COUNT: makes COUNT columns of a line as low as a sample can be
dropout() {
    dd if=/dev/zero of=side.tbc bs=2 seek=$(((($1 - 1) * 263 + $2 - 1) * 910 + $3)) count="$4" conv=notrunc \
        2> /dev/null
}
for field in 81 82 83 84 85 86 87 88 89 90; do
    case $field in
        81 | 85 | 90) dropout $field 17 330 2; dropout $field 18 400 30 ;;
        82 | 88) dropout $field 17 150 760; dropout $field 18 200 5 ;;
        *) dropout $field 17 430 40; dropout $field 18 600 45 ;;
    esac
done

awk -v fields=$(($(wc -c < side.tbc) / 478660)) 'BEGIN {
    printf "{\"videoParameters\":{\"system\":\"NTSC\",\"fieldWidth\":910,\"fieldHeight\":263,"
    printf "\"black16bIre\":16384,\"white16bIre\":51200,\"numberOfSequentialFields\":%d},\"fields\":[", fields
    for (field = 1; field <= fields; field++)
        printf "%s{\"seqNo\":%d,\"isFirstField\":%s}", (field > 1 ? "," : ""), field, (field % 2 ? "true" : "false")
    print "]}"
}' > side.tbc.json
