# shellcheck shell=sh disable=SC2034
# What the scripts share that run the built program, whose path is their first word. They read this in first; it takes
# them to an empty folder, which is removed in the end. A script says in TAP what its checks found, and that it came to
# its end. It ends at the first run that takes more than RUN_SECONDS (300 where the environment doesn't say), and, where
# STOP_AT_FIRST isn't empty, at the first check that fails.
#
# Where DIFFERENCES names a file, the program is the Rust one. The file has a line for each check that has to fail of
# it: SCRIPT | CHECK | WHY.
set -u

export LC_ALL=C
# The folder of the script, that of what the scripts share, and the top of the repository
here=$(cd "$(dirname "$0")" && pwd)
tests=$here
[ -e "$tests/helpers.sh" ] || tests=$(dirname "$here")
top=$(dirname "$tests")
program=$(cd "$(dirname "$1")" && pwd)/$(basename "$1")
script=$(basename "$0" .sh)
# The folder of the library: beside the program, where it is there, else the top
built=$(dirname "$program")
[ -e "$built/libldvbi.so.3" ] || built=$top
seconds=${RUN_SECONDS:-300}
judged=0
failed=
differed=0
newline='
'
work=$(mktemp -d)
trap 'rm -rf "$work"' EXIT
trap 'exit 1' HUP INT TERM
cd "$work" || exit 1
: > empty
: > err
status=none

# The folder of the stored run, its options, and those of each system's usual levels
stored=$top/crates/ldvbi
levels='--system NTSC --black 8224 --white 16448'
ntsc='--system NTSC --black 16384 --white 51200'
pal='--system PAL --black 16384 --white 54016'

# bounded COMMAND..: runs a command, which is ended where it takes longer than it may; `check` finds that out
bounded() {
    timeout -k 5 "$seconds" "$@" || {
        bounded_status=$?
        case $bounded_status in 124 | 137) echo "$bounded_status" > "$work/endless" ;; esac
        return $bounded_status
    }
}

# does COMMAND..: whether a command succeeds, with nothing on standard input; it leaves what it wrote in `out` and `err`
does() {
    status=0
    bounded "$@" < "$work/empty" > out 2> err || status=$?
    [ "$status" = 0 ]
}

# stub PATH [BODY]: makes a program for the shell, with this body or with that on standard input
stub() {
    { echo '#!/bin/sh'; if [ "${2:-}" ]; then printf '%s\n' "$2"; else cat; fi; } > "$1"
    chmod +x "$1"
}

# run WORD..: the program, with nothing on standard input. It would take the rows of the loop that it stands in.
# run_with FILE WORD..: the program, with this file there; what it hasn't read then is in the file `rest`
# run_inheriting WORD..: the program, with standard input as the caller has it
run() {
    run_inheriting "$@" < empty
}
run_with() {
    run_input=$1
    shift
    { run_inheriting "$@"; cat > rest; } < "$run_input"
}
run_inheriting() {
    status=0
    bounded "$program" "$@" > out 2> err || status=$?
}

# output_of WORD..: writes what the program writes, with nothing on standard input, for what a script needs in its runs
output_of() {
    bounded "$program" "$@" < "$work/empty"
}

# check NAME COMMAND..: whether this command succeeds, as it has to, and each run before it has ended by itself
check() {
    checked=$1
    shift
    [ ! -e "$work/endless" ] || stop "$checked: a run before it was ended after $seconds seconds"
    holds=
    ! "$@" || holds=yes
    why=
    if [ "${DIFFERENCES:-}" ] && [ "$(differences "$checked")" != 0 ]; then
        differed=$((differed + 1))
        [ "$holds" ] && holds= || holds=yes
        why="it holds, and $DIFFERENCES says that it doesn't"
    fi
    report
}

# report: says in TAP whether the check `checked` is as wanted (`holds`), else `why` on standard error. RAN, where it
# isn't empty, names the file that gets a line for each check.
report() {
    judged=$((judged + 1))
    # A number sign would begin a directive.
    case $checked in *[#"$newline"]*) checked=$(printf %s "$checked" | tr '#\n' '+ ') ;; esac
    [ -z "${RAN:-}" ] || printf 'check %s: %s\n' "$script" "$checked" >> "$RAN"
    if [ "$holds" ]; then
        printf 'ok %d - %s\n' $judged "$checked"
        return
    fi
    failed=yes
    printf 'not ok %d - %s\n' $judged "$checked"
    echo "$script: $checked: ${why:-status $status, and on standard error: $(cat err)}" >&2
    [ -z "${STOP_AT_FIRST:-}" ] || stop 'the first check that failed'
}

# differences [NAME]: how many lines DIFFERENCES has for this script, or for its check with this name
differences() {
    awk -F ' [|] ' -v script="$script" -v name="${1:-}" '
        $1 == script && (name == "" || $2 == name) { lines++ } END { print lines + 0 }' "${DIFFERENCES:-/dev/null}"
}

# stop WHY: ends the script before its end
stop() {
    echo "$script: stopped at $1" >&2
    exit 1
}

# leave_out COUNT: says that checks can't be made here, as those of a library that isn't built; they aren't missed
leave_out() {
    echo "$script: $1 checks are left out" >&2
    [ -z "${RAN:-}" ] || yes "check $script: left out" | head -n "$1" >> "$RAN"
}

# ended STATUS OUT ERR: whether the last run ended with this status and wrote these two files, byte for byte
# said_line ERR: makes the file `wanted` of what is said: this line and its newline, or nothing where it is empty
ended() {
    [ "$status" = "$1" ] && cmp -s out "$2" && cmp -s err "$3"
}
said_line() {
    { [ -z "$1" ] || printf '%s\n' "$1"; } > wanted
}

# is_refused: whether clap refused the words of the last run, which each version of it words in its own way
is_refused() {
    [ "$status" = 2 ] && [ ! -s out ] && [ "$(head -c 7 err)" = 'error: ' ] && ! grep -q '^ldvbi: ' err
}

# judge NAME STATUS OUT ERR: checks the last run's status, and byte for byte what it wrote (the file OUT) and what it
# said (the line ERR, or nothing where that is empty)
judge() {
    said_line "$4"
    check "$1" ended "$2" "$3" wanted
}

# judge_rows: runs the program with the words of each row of a table, and judges that. A row is
# NAME|WORDS|STATUS|OUT|ERR, whose ERR stands after `ldvbi: `.
judge_rows() {
    while IFS='|' read -r row_name words ended wanted_out said; do
        run $words
        judge "$row_name" "$ended" "$wanted_out" "${said:+ldvbi: $said}"
    done
}

# judge_line NAME ANSWER: judges a run of `line`, which prints this answer or, where it is a fault, says it
judge_line() {
    case $2 in
        82CFFF | blank) echo "$2" > answer; judge "$1" 0 answer '' ;;
        *) judge "$1" 1 empty "ldvbi: $2" ;;
    esac
}

# finish: ends the script with the plan that TAP wants, and status 0 where all checks are as wanted
finish() {
    [ ! -e "$work/endless" ] || stop 'a run that takes too long'
    [ "$differed" = "$(differences)" ] || stop "$differed differences, and DIFFERENCES has $(differences)"
    echo "1..$judged"
    [ "$judged" != 0 ] && [ -z "$failed" ]
    exit
}

# signal SYSTEM FIELDS [BLACK WHITE] < DESCRIPTIONS: lines (FIELDS is 0) or fields (1), see described.py
signal() {
    python3 "$tests/cli/described.py" "$@"
}

# document_head SYSTEM WIDTH HEIGHT BLACK WHITE: how a document begins
# record NUMBER WORDS CAUSES PASSES: the record of a field, each of the three a list with commas
# cut_field VALUE: how a document ends, where the cut field is VALUE
document_head() {
    printf '{"version":2,"videoParameters":{"system":"%s","fieldWidth":%s,"fieldHeight":%s,' "$1" "$2" "$3"
    printf '"black16bIre":%s,"white16bIre":%s},"fields":[\n' "$4" "$5"
}
record() {
    printf '{"seqNo":%s,"vbi":{"vbiData":[%s]},"vbiCause":[%s],"vbiPass":[%s]}' "$1" "$2" "$3" "$4"
}
cut_field() {
    printf '\n],"cutField":%s}\n' "$1"
}
