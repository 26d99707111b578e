# shellcheck shell=sh disable=SC2034
# What the tests of the table answers.txt share. They read this in after tests/helpers.sh and library_helpers.sh.

# settles NAME SYSTEM BLACK WHITE: writes these settings beside a side, as metadata and as the first rows of a map
settles() {
    printf '{"videoParameters":{"system":"%s","black16bIre":%s,"white16bIre":%s}}' "$2" "$3" "$4" > "$1.tbc.json"
    printf '%s,1,1,side\n' "system,$2" "black,$3" "white,$4" | sed '1i kind,number,field,frame,how' > "$1.map"
}

# draws_sides: draws the side NAME.tbc of each name in the table, with settings
draws_sides() {
    output_of draw $ntsc "$top/examples/cav.words" > cav.tbc
    output_of draw $pal "$top/examples/clv.words" > clv.tbc
    bounded sh "$top/examples/side.sh" "$program"
    bounded python3 "$tests/cli/answers.py" draw || exit 1
    sed -n 's/^= \([a-z]* [A-Z]*\).*/\1/p' "$tests/cli/answers.txt" | uniq > sides
    while read -r side system; do
        case $system in NTSC) settles $side $on_cav ;; PAL) settles $side $on_clv ;; esac
    done < sides
    # The library reads no metadata, and of this side one isFirstField is wrong.
    fields=$(seq 212 | awk -v ORS=, '{ print "{\"isFirstField\":" (NR % 2 == (NR != 81) ? "true" : "false") "}" }')
    sed -i "s/}}\$/},\"fields\":[${fields%,}]}/" turned.tbc.json
}

# counted NAME: a check for each of as many as `out` says, so that none gets lost
counted() {
    for place in $(seq "$(cat out)"); do check "$1 $place" true; done
}

# asks PROGRAM..: checks that each of these programs answers all questions of the table that are put to it
asks() {
    for one; do
        check "$one answers as the table has it" does python3 "$tests/cli/answers.py" "$one"
        counted "$one: question"
    done
}
