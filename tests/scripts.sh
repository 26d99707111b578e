#!/bin/sh
# Runs the scripts of this folder on the built program by `prove`, as many at a time as there are processors, and then
# compares their checks with the list in git (ran.sh), or adds them to the file RAN where that is set. A script has
# failed where a check did, where it didn't come to its end, or where it took SCRIPT_SECONDS (3600 where the environment
# doesn't say). The status is 1 where one has, or where scripts or checks are gone.
#
# A script says in its line `# runs:` where it is run: everywhere, where a library is built (library) or the proved one
# (proved), or by the whole gate alone (whole); with `rust` on the Rust program, too, or on that alone. `# fails where:`
# has an alteration that it has to see (trials.sh). Without a word all are run that the proved program has to pass. With
# --as-built, what needs a library that isn't built is left out, and so is what the whole gate alone runs; with --rust,
# those for the Rust program are run. Of the program in rust/ the checks of rust/differences.txt have to fail.
# usage: sh tests/scripts.sh PROGRAM [--as-built | --rust | NAME..]
set -eu
# What `make check` was given isn't meant for the makes that scripts run.
unset MAKEFLAGS MFLAGS MAKEOVERRIDES FROM PROGRAM

here=$(cd "$(dirname "$0")" && pwd)
top=$(dirname "$here")

fault() {
    echo "scripts: $1" >&2
    exit 1
}

# tagged WORD..: the scripts with one of these words in their line, if any has one. Those that take longest come first:
# packages, documents, the crate and Python's, and the one that waits for downloads.
tagged() {
    for word; do
        (cd "$here" && grep -rlw --include='*.sh' "^# runs: .*$word" .) || [ $? = 1 ]
    done | sed 's,^./cli/\(packaging\|docs\|rust_crate\|bare\),./~&,' | LC_ALL=C sort -ru | sed 's|~./||'
}

# named NAME..: the scripts with these names
named() {
    for name; do
        tagged everywhere library proved whole rust | grep "/$name\.sh\$" || fault "no script has the name $name"
    done
}

[ -x "$1" ] || fault "there is no program $1"
untagged=$(grep -rlx --include='*.sh' finish "$here" | xargs grep -L '^# runs: ') || :
[ -z "$untagged" ] || fault "without a line '# runs:': $untagged"
program=$(cd "$(dirname "$1")" && pwd)/$(basename "$1")
shift
library=
proved=
on=
[ ! -e "$(dirname "$program")/libldvbi.so.3" ] || library=library
[ ! -e "$top/libldvbi.so.3" ] || library=library proved=proved
if [ "$(dirname "$program")" = "$top/rust" ] || [ "${1:-}" = --rust ]; then
    DIFFERENCES=$top/rust/differences.txt
    export DIFFERENCES
    on=' on the Rust program'
fi
case ${1:-} in
    '')
        [ "$proved" ] || fault 'the library is not built'
        scripts=$(tagged everywhere library proved whole)
        ;;
    --as-built)
        scripts=$(tagged everywhere $library $proved)
        [ "$proved" ] || echo 'scripts: what needs the library that make lib builds is left out'
        [ "$library" ] || echo 'scripts: what needs any library is left out'
        ;;
    --rust) scripts=$(tagged rust) ;;
    *) scripts=$(named "$@") ;;
esac
# What the list has of the scripts, where all are run
whole="|script [a-z_]*$on"
case ${1:-} in ?*) [ "$1" = --rust ] || whole= ;; esac

work=$(mktemp -d)
trap 'rm -rf "$work"' EXIT
trap 'exit 1' HUP INT TERM
outer=${RAN:-}
RAN=${RAN:-$work/ran}
export RAN
for path in $scripts; do
    echo "script $(basename "$path" .sh)$on" >> "$RAN"
done
(cd "$here" && prove --timer -j "$(nproc)" -e "timeout -k 30 ${SCRIPT_SECONDS:-3600} sh" $scripts :: "$program") \
    < /dev/null || exit 1
[ -z "$outer" ] || exit 0

names=$(sed -n 's/^script \([a-z_]*\).*/\1/p' "$RAN" | paste -s -d '|')
sh "$here/ran.sh" "^(checks ($names)$whole)\$" < "$RAN"
