#!/bin/sh
# The whole gate, at the top of the repository: every proof, test and stored run by `rt ci`, each wrong body by
# proofs/wrong_bodies.py, and beside both the scripts on the built program and library, and on the same source, built by
# cargo, which is compared with what was proved; then a part of the errors that tests/mutants.py plants. No less may be
# run than the list in git has (tests/ran.sh).
#
# `rt ci` works on a copy without must-fail/, whose edits it would try one at a time, and wrong_bodies.py on another,
# since the toolchain has a command wait for another one in its folder; a library it takes from another. So the program
# is proved and built twice, and the two are compared byte for byte. The last line counts crates and wrong bodies, 'N
# passed, 0 failed'; the status is 0 only where all of it passed. Before it stands when each part ended.
# usage: sh tests/gate.sh
set -eu

# The minutes that README says it takes
minutes='40 to 120'
# Memory in kB with which the proofs and all else can run side by side: both take more where there are more processors
memory_of_both=$((4000000 * $(nproc)))

work=$(mktemp -d)
proofs=
tried=
leave() {
    for group in $proofs $tried; do
        # Until `setsid` has run there is no group of their own.
        kill -- "-$group" 2> /dev/null || kill "$group" 2> /dev/null || :
    done
    rm -rf "$work"
}
trap leave EXIT
trap 'exit 1' HUP INT TERM

fails() {
    echo "the gate: $1" >&2
    exit 1
}

# part NAME: notes after how many seconds this part has ended
started=$(date +%s)
part() {
    echo "time: $1: after $(($(date +%s) - started)) s" >> "$work/times"
}

# ends_proofs: waits for `rt ci`, and looks at its status, its last line and what it ran
ends_proofs() {
    wait "$proofs" || { cat "$work/log"; fails 'rt ci failed'; }
    proofs=
    cat "$work/log"
    crates=$(grep -c : crates.txt)
    last=$(tail -n 1 "$work/log")
    [ "$last" = "$crates passed, 0 failed" ] || fails "rt ci ended with '$last', and there are $crates crates"
    sed -n 's/^\([a-z_]*\).*:.*/crate \1/p' crates.txt >> "$work/ran"
    sed -n 's/^\(test .*\) \.\.\. ok$/\1/p' "$work/log" >> "$work/ran"
}

for copy in copy tried; do
    mkdir "$work/$copy"
    tar --exclude='./.git' --exclude='./crates/*/out' --exclude='./rust/out' -cf - . | tar -C "$work/$copy" -xf -
done
rm -rf "$work"/copy/crates/*/must-fail
# One job for each crate, which takes a quarter less of the processors' time than several, and as many crates side by
# side as there are processors
(cd "$work/copy" && RT_JOBS=$(nproc) && export RT_JOBS && exec setsid rt ci > "$work/log" 2>&1) &
proofs=$!
if [ "$(awk '/^MemAvailable/ { print $2 }' /proc/meminfo)" -lt "$memory_of_both" ]; then
    ends_proofs
    part 'proofs and tests'
fi
(cd "$work/tried" && exec setsid python3 tests/proofs/wrong_bodies.py > "$work/wrong") &
tried=$!
make JOBS=1 ldvbi lib rust || fails 'not all is built'
python3 tests/proofs/wrong_bodies_trials.py || fails 'a wrong body may pass for a refused one'
part 'programs and libraries'
sh tests/scripts.sh ./ldvbi || fails 'of the scripts one failed'
part 'scripts'
sh tests/scripts.sh rust/ldvbi --rust || fails 'of the scripts on the Rust program one failed'
part 'scripts on the Rust program'
make mutants PART=0 || fails 'of the planted errors one is not seen'
part 'a part of the planted errors'
wait "$tried" || { cat "$work/wrong"; fails 'a wrong body is missing or not refused'; }
tried=
cat "$work/wrong"
sed -n 's,^\(\w*/\w*\): refused by a .*,wrong body \1,p' "$work/wrong" > "$work/bodies"
bodies=$(wc -l < "$work/bodies")
[ "$(tail -n 1 "$work/wrong" | cut -d ' ' -f -4)" = "wrong bodies: $bodies refused" ] ||
    fails 'wrong bodies are missing'
cat "$work/bodies" >> "$work/ran"
part 'wrong bodies'
if [ -n "$proofs" ]; then
    ends_proofs
    part 'proofs and tests, where they took longer'
fi
cmp ldvbi "$work/copy/crates/ldvbi/out/ldvbi" || fails 'the program was built twice, and the two differ'
sh tests/ran.sh '^(crate |tests$|wrong )' < "$work/ran" || fails 'less was run than .ci/ran.txt has'
cat "$work/times"
echo "README says that all takes $minutes minutes"
echo "$((crates + bodies)) passed, 0 failed"
