#!/bin/sh
# Runs the tests of the Python package by Debian's pytest, side by side. Each test that passes is a check, so that none
# gets lost; one that is skipped is a failure. Each line of the package has to run, in the tests or in a process that
# they start, and which test runs which is kept for tests/mutants.py. Needs libldvbi.so.3 beside the program, or at the
# top of the repository (`make lib`).
# usage: sh tests/unit/python.sh PROGRAM
# runs: library
# fails where: python/ldvbi_side/answer/analysis.py|s/^def analyse(/def analyze(/

# shellcheck source=tests/helpers.sh
. "$(dirname "$0")/../helpers.sh"

export LDVBI_LIBRARY="$built/libldvbi.so.3" LDVBI_PROGRAM="$program" COVERAGE_PROCESS_START="$work/coveragerc"
# Python reads sitecustomize in as it starts: in pytest's processes, and in those that tests start.
export PYTHONPATH="$top/python:$top/simulated:$work/site:$tests" MUTANTS_TIMES="$work/times"
# What is compiled once serves all processes, and nothing is written beside the package.
export PYTHONPYCACHEPREFIX="$work/compiled"
unset PYTHONDONTWRITEBYTECODE
mkdir bin lines site
ln -s /usr/bin/python3 bin/python3
PATH=$work/bin:$PATH
echo 'import coverage; coverage.process_startup()' > site/sitecustomize.py
cat > coveragerc << END
[run]
source = $top/python
parallel = true
data_file = $work/lines/data
context = \${MUTANTS_TEST-}
disable_warnings = no-data-collected, module-not-imported, module-not-measured
END
seconds=$((5 * seconds)) # for the runs of many tests, beside other scripts
# What is said is kept, since prove waits for a line of TAP when a script says something.
status=0
bounded python3 -m pytest -n "$(nproc)" --dist loadgroup -p recorded ${STOP_AT_FIRST:+-x} --quiet \
    --basetemp "$work/tests" -rpsxX --durations 10 "$here" < empty > out 2>&1 || status=$?
sed -n 's,^PASSED [^ ]*tests/unit/,,p' out > names
grep -v '^PASSED ' out > err
check 'pytest passed' [ "$status" = 0 ]
unset COVERAGE_PROCESS_START
grep '^SKIPPED\|^XFAIL\|^XPASS' out > err
check 'no test is skipped' [ ! -s err ]
lines() {
    asked=$1
    shift
    bounded python3 -m coverage "$asked" --rcfile coveragerc "$@" < empty > err 2>&1
}
# Each process leaves a file. Some are combined at a time, side by side, which is quicker than one by one.
combined() {
    find lines -type f -print0 | bounded xargs -0 -n 40 -P "$(nproc)" sh -c \
        'exec python3 -m coverage combine -q --rcfile coveragerc --data-file "parts/${1##*/}" "$@"' coverage \
        > err 2>&1 &&
        lines combine -q parts
}
mkdir parts
check 'each line of the package runs: combine' combined
check 'each line of the package runs: report' lines report --skip-covered --show-missing --fail-under 100
check 'which test runs which line is kept' does python3 "$tests/recorded.py" lines/data times
while read -r one; do
    check "$one" true
done < names
finish
