# shellcheck shell=sh disable=SC2034
# What the tests of the library share. They read this in after tests/helpers.sh.

cc=${CC:-cc}
cxx=${CXX:-c++}
strict='-Wall -Wextra -Wpedantic -Werror -O1 -g'
# What links a program with the shared library beside the program that is tested
linked="-I$top/include -L$built -lldvbi -Wl,-rpath,$built"
on_cav='NTSC 16384 51200'
on_clv='PAL 16384 54016'

# prints STATUS TEXT COMMAND..: checks that a command writes this text and ends with this status
prints() {
    wanted_status=$1
    printf '%s\n' "$2" > wanted
    shift 2
    does "$@" || :
    [ "$status" = "$wanted_status" ] && cmp -s out wanted
}

# with_python: has Python find the package, and the library that is tested
with_python() {
    export LDVBI_LIBRARY="$built/libldvbi.so.3" PYTHONPATH="$top/python" PYTHONDONTWRITEBYTECODE=1
}

# answers_so NAME STATUS OUT SAID COMMAND: whether a line for the shell ends with this status, and writes these lines,
# which ; parts. It says nothing, or this line after the example's name, or one line of its own where that is *.
answers_so() {
    said_line "${4:+$1: $4}"
    printf '%s' "${3:+$3;}" | tr ';' '\n' > wanted_out
    status=0
    eval "bounded $5" < empty > out 2> err || status=$?
    [ "$4" != '*' ] || [ "$(grep -c "^$1: " err)" != 1 ] || cp err wanted
    [ "$status" = "$2" ] && cmp -s out wanted_out && cmp -s err wanted && [ "$(wc -l < err)" -le 1 ]
}
