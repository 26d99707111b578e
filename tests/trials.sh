#!/bin/sh
# Tries what looks at everything else. Each script has to fail, by one of its checks, where a file is altered by a
# program for sed, as its line `# fails where: FILE|SED` says; `ldvbi` is the program itself. Of the Rust program those
# scripts are tried that are run on it alone. And the gate has to fail where a part of it does, or does less.
# usage: sh tests/trials.sh PROGRAM
# runs: whole rust

. "$(dirname "$0")/helpers.sh"

(cd "$tests" && grep -rl --include='*.sh' '^# runs: ' . | grep -v trials) | sort -r > scripts
(cd "$tests" && xargs grep -Lx '# fails where: [^|]*|.*' < "$work/scripts") > err
check 'each script says where it fails' [ ! -s err ]
only=-L
[ -z "${DIFFERENCES:-}" ] || only=-l
(cd "$tests" && xargs grep "$only" '^# runs: rust$' < "$work/scripts") > tried
mkdir tree
(cd "$top" && tar --exclude=.git --exclude=out --exclude=./dist -cf - .) | tar -xf - -C tree
path_of_program=${program#"$top/"}

# trial NAME PATH: whether a script stops at its first failed check, in a copy of the repository that is altered
trial() {
    cp -al tree "$1/tree"
    row=$(sed -n 's/^# fails where: //p' "$tests/$2")
    file=${row%%|*}
    [ "$file" != ldvbi ] || file=$path_of_program
    sed -i "${row#*|}" "$1/tree/$file"
    ! cmp -s "tree/$file" "$1/tree/$file" || echo 'nothing is altered' >> "$1/said"
    status=0
    # What it checks isn't what the gate ran.
    RAN='' STOP_AT_FIRST=yes timeout -k 30 1800 sh "$1/tree/tests/$2" "$1/tree/$path_of_program" < empty >> "$1/said" \
        2>&1 || status=$?
    rm -rf "$1/tree"
    [ "$status" = 1 ] && [ "$(head -n 1 "$1/said")" != 'nothing is altered' ] &&
        [ "$(tail -n 1 "$1/said")" = "$1: stopped at the first check that failed" ]
}

# Each worker takes a script that no other has taken.
for _ in $(seq "$(nproc)"); do
    while read -r path; do
        name=$(basename "$path" .sh)
        ! mkdir "$name" 2> /dev/null || ! trial "$name" "$path" || : > "$name/as_wanted"
    done < tried &
done
wait
while read -r path; do
    name=$(basename "$path" .sh)
    [ -e "$name/as_wanted" ] || { echo "$name doesn't"; tail -n 2 "$name/said"; }
done < tried > err
check 'there are scripts to try' [ -s tried ]
check 'each script fails where it says' [ ! -s err ]

# A gate of one crate, one test, one wrong body and one check, whose parts are stubs
mkdir -p gate/tests gate/crates/words/must-fail gate/.ci stubs
cp "$tests/gate.sh" "$tests/ran.sh" gate/tests
echo 'words: std' > gate/crates.txt
printf '%s\n' 'crate words' 'tests: 1' 'wrong bodies words: 1' 'wrong bodies: 1' > list
stub stubs/rt << 'END'
mkdir -p crates/ldvbi/out
echo program > crates/ldvbi/out/ldvbi
echo "test words::one ... ${ENDED:-ok}"
[ -z "${MORE:-}" ] || echo 'test words::two ... ok'
echo "${CRATES:-1} passed, ${FAILED:-0} failed"
exit "${RT:-0}"
END
stub stubs/make << 'END'
[ "$1" != mutants ] || exit "${MUTANTS:-0}"
echo "${BUILT:-program}" > ldvbi
exit "${MAKE:-0}"
END
stub stubs/python3 << 'END'
case $1 in *trials*) exit "${TRIALS:-0}" ;; esac
printf 'words/wrong: %s by a goal: f\nwrong bodies: %s refused\n' "${REFUSED:-refused}" "${BODIES:-1}"
exit "${WRONG:-0}"
END
stub gate/tests/scripts.sh << 'END'
case $* in *--rust) exit "${RUST_SCRIPTS:-0}" ;; *) exit "${SCRIPTS:-0}" ;; esac
END
# gate [FAULT]: runs it with this in the environment, or this ROW more in its list, and sees whether it passed
gate() {
    { cat list; case ${1:-} in ROW=*) echo "${1#ROW=}" ;; esac; } > gate/.ci/ran.txt
    status=0
    (cd gate && PATH=$work/stubs:$PATH && export PATH && bounded env "$@" sh tests/gate.sh) < empty > out 2> err ||
        status=$?
    [ "$status $(tail -n 1 out)" = '0 2 passed, 0 failed' ]
}
fails_with() {
    ! gate "$1" && [ "$status" = 1 ] && grep -q '^the gate: ' err
}
check 'the gate passes where nothing is wrong' gate
check 'the gate passes where more is run than it has in its list' gate MORE=yes
for fault in RT=1 FAILED=1 CRATES=2 ENDED=failed MAKE=2 BUILT=another WRONG=1 REFUSED=not BODIES=2 TRIALS=1 SCRIPTS=1 \
    RUST_SCRIPTS=1 MUTANTS=1 'ROW=crate gone' 'ROW=tests: 2' 'ROW=wrong bodies words: 2' 'ROW=wrong bodies: 2'; do
    check "the gate fails with $fault" fails_with "$fault"
done

# One script with two checks, of which one is left out: no less may run than the list has
mkdir -p few/tests few/.ci few/rust
cp "$tests/scripts.sh" "$tests/ran.sh" "$tests/helpers.sh" few/tests
touch few/rust/differences.txt
stub few/rust/ldvbi :
printf '%s\n' '# runs: rust' '. "${0%/*}/helpers.sh"' 'check one :' 'leave_out 1' finish > few/tests/one.sh
# runs_all ROW: whether it ends well with this row in the list, too
runs_all() {
    printf '%s\n' 'checks one: 2' 'script one on the Rust program' "$1" > few/.ci/ran.txt
    does env RAN= sh few/tests/scripts.sh few/rust/ldvbi --rust
}
for row in 'checks one: 1' 'script two' 'checks two: 1'; do
    check "all scripts run, with $row in the list" runs_all "$row"
done
for row in 'checks one: 3' 'script two on the Rust program'; do
    ! runs_all "$row"
    check "a script or a check is gone, with $row in the list" [ "$status$(grep -c '^ran: ' err)" = 11 ]
done
finish
