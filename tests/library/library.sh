#!/bin/sh
# What the library needs and gives. What includes ldvbi.h: by each standard, twice, in two parts of a program, which
# prints its texts; the quick start at its head; and what the compiler has to warn of. Then tests over the border, from
# Python, in memory after which no page follows.
# Needs libldvbi.a and libldvbi.so.3 beside the program, or at the top of the repository (`make lib`).
# usage: sh tests/library/library.sh PROGRAM
# runs: library rust
# fails where: include/ldvbi.h|s/LDVBI_PAL = 2/LDVBI_PAL = 3/

. "$(dirname "$0")/../helpers.sh"
. "$here/library_helpers.sh"

with_python

more=$(nm -D --undefined-only "$built/libldvbi.so.3" | sed 's/^ *U //; s/@.*//' | grep -vx 'memcpy\|memmove\|memset')
check 'the library needs memcpy, memmove and memset at most' [ -z "$more" ]
more=$(nm -u "$built/libldvbi.a" 2> err | sed -n 's/^ *U //p' | grep -vx 'memcpy\|memmove\|memset')
check 'the archive needs memcpy, memmove and memset at most' [ -z "$more" ]
nm -D --defined-only "$built/libldvbi.so.3" | sed 's/.* //' | sort > all
grep -vx ldvbi_plain_rust all > exported
sed -n 's/^\(LDVBI_[A-Z0-9()]* \)*[a-z0-9_]* \(ldvbi_[a-z_]*\)(.*/\2/p' "$top/include/ldvbi.h" | sort > declared
check 'the library gives what the header declares, and nothing else' cmp -s exported declared
check 'the library does not say that it is plain Rust' cmp -s all exported
readelf -dSW "$built/libldvbi.so.3" > sections
abi=$(sed -n 's/^#define LDVBI_ABI //p' "$top/include/ldvbi.h")
check 'the name of the library has the number of its interface' grep -q "SONAME.*\[libldvbi.so.$abi\]" sections
check 'the interface of the header is that of make' grep -qx "ABI := $abi" "$top/Makefile"
check 'the library is bound when it is loaded' grep -q '(FLAGS) *BIND_NOW' sections
check 'the library has no call frames, as its header says' \
    sh -c "! readelf -SW '$built/libldvbi.a' | grep -q ' \.eh_frame '"
check 'the library has no section that it writes to' [ -z "$(grep ' \.\(data\|bss\) ' sections)" ]

# The header
warned='-Wall -Wextra -Wpedantic -Wconversion -Werror'
printf '%s\n' '#include <ldvbi.h>' '#include <ldvbi.h>' 'uint32_t NAME(void);' \
    'uint32_t NAME(void) { return ldvbi_abi(); }' > twice.c
for standard in 'c -std=c99' 'c -std=c17' 'c++ -std=c++98' 'c++ -std=c++20'; do
    for option in -DNAME=name -DLDVBI_NO_ATTRIBUTES; do
        check "the header twice, $standard $option" \
            does $cc -x $standard $option $warned -I"$top/include" -c -o compiled.o twice.c
    done
done
for name in one two; do
    bounded $cc -std=c99 -I"$top/include" -DNAME=$name -c -o $name.o twice.c
done
check 'the header in two parts of a program' does $cc -std=c99 $strict -fsanitize=address,undefined -I"$top/include" \
    -o library "$here/library.c" one.o two.o "$built/libldvbi.a" -lpthread -lm
tr ';' '\n' << END > texts
$(sed 's/^VERSION := \(.*\)/\1;\1/p; d' "$top/Makefile")
done;system is neither NTSC nor PAL;black is not below white, or one of them is above 65535
length does not fit the system;number is no code word;neither pictures nor times are counted
pace is neither that of video nor of film, nor to be found
list of erased columns is not sorted, or has columns of no line;line is none of 16, 17 and 18
whether dropouts are known is neither 0 nor 1
clock has no such kind, or its phase is not below its period
word;blank;unfinished;change;hold
other;picture;chapter;time;clv picture;cx on;cx off;users;lead-in;lead-out;picture stop;clv
neither;cav;clv;both;nothing;believed;doubtful;due;2
END
check 'its versions, its texts, and that a call is left and the next one returns' prints 0 "$(cat texts)" ./library

# The quick start at its head, which finds a picture, and the stop after it
{
    printf '#include <%s>\n' fcntl.h ldvbi.h stdio.h stdlib.h sys/mman.h unistd.h
    echo 'int main(void) {'
    sed -n "1,/^ \* If it isn't found/s/^ \*     //p" "$top/include/ldvbi.h"
    echo 'return 0; }'
} > quick.c
check 'the quick start is built' does $cc -std=c99 -D_DEFAULT_SOURCE $warned -I"$top/include" -o quick quick.c \
    "$built/libldvbi.a"
awk 'BEGIN { for (picture = 12340; picture < 12352; picture++) {
    stop = picture == 12341 || picture == 12348 ? "82CFFF" : "-"
    printf "%s %s F%d\n- 800DDD 800DDD\n", stop, stop == "-" ? "F" picture : stop, picture
} }' | bounded "$program" draw $ntsc - > side.tbc
found="picture 12345 is in field 11 of 24${newline}the player stops in field 17"
check 'the quick start finds a picture and a stop' prints 0 "$found" ./quick

# Which calls have these attributes, refusals.py looks at
printf '%s\n' '#include <ldvbi.h>' 'int main(void) { ldvbi_read_line(1, 1, 2, NULL, 0, NULL); }' > call.c
$cc -std=c99 -Wall -I"$top/include" -c -o compiled.o call.c 2> err
check 'a status that nobody looks at is warned of' grep -q warn_unused_result err
check 'what is written is never null' [ "$(grep -c 'Wnonnull]' err)" = 1 ]
$cc -std=c99 -Wall -DLDVBI_NO_ATTRIBUTES -I"$top/include" -c -o compiled.o call.c 2> err
check 'who wants no attributes is warned of nothing' [ ! -s err ]

PYTHONPATH=$PYTHONPATH:$tests/unit
for part in refusals judged plans lines worn; do
    check "the tests of $part" prints 0 '0 wrong' python3 "$here/$part.py"
done
finish
