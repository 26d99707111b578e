#!/bin/sh
# Installs program and library as a new user does, and builds on them by pkg-config and by CMake: nothing but these
# tells the loader where the library is (no LD_LIBRARY_PATH). Then the wheel of the Python module, which brings the
# library. Of what was proved also by the lines in LIBRARY.md, moved, and in other folders; the wheel without the net,
# and its tag; and `pip install` of the source. What is installed where, tests/cli/packaging.sh tries.
# Needs libldvbi.a and libldvbi.so.3 beside the program, or at the top of the repository (`make lib`), and of what was
# proved Debian's python3-venv and python3-wheel.
# usage: sh tests/library/installed.sh PROGRAM
# runs: library rust
# fails where: include/ldvbi-config.cmake.in|s/libldvbi.a/libldvbi.b/

. "$(dirname "$0")/../helpers.sh"
. "$here/library_helpers.sh"

unset LD_LIBRARY_PATH LDVBI_LIBRARY PYTHONPATH PKG_CONFIG_PATH
export PYTHONDONTWRITEBYTECODE=1 PIP_NO_INDEX=1 PIP_DISABLE_PIP_VERSION_CHECK=1

# A folder that has what the repository has, with what is built where it is
mkdir user
ln -s "$top"/* user
rm -f user/rust user/dist user/ldvbi user/libldvbi.*
mkdir user/rust
place=user
from=proved
[ "$built" = "$top" ] || place=user/rust from=rust
cp "$program" $place/ldvbi
cp "$built/libldvbi.a" "$built/libldvbi.so.3" $place
ln -s libldvbi.so.3 $place/libldvbi.so
# makes WORD..: `make` without the toolchain there
makes() {
    does env PATH=/usr/bin:/bin make -s -C user FROM=$from "$@"
}
# The program of which README has three lines, and the line that it reads
cp "$top/examples/say.c" .
echo '- F12345 -' | bounded "$program" draw $ntsc > said.tbc
tail -c +29121 said.tbc | head -c 1820 > line.raw
output_of draw $ntsc "$top/examples/cav.words" > cav.tbc
cp say.c line.raw cav.tbc user
version=$(sed -n 's/^VERSION := //p' "$top/Makefile")
processor=$(uname -m)
says() {
    prints 0 'picture 12345' sh -c "$1 < line.raw"
}
# seeks NAME COMMAND..: checks that this command of ldvbi-side finds picture 3
seeks() {
    check "$1" prints 0 'field 7, frame 4' env "$2" cav.tbc $ntsc --seek 3
}

# Builds on a place of the library by pkg-config, as LIBRARY.md has it, and by CMake, shared and as an archive
line=$(sed -n '/^cc say.c /p' "$top/docs/LIBRARY.md")
mkdir project
cp say.c project
cat > project/CMakeLists.txt << 'END'
cmake_minimum_required(VERSION 3.13)
project(say C)
find_package(ldvbi ${WANTED} REQUIRED)
find_package(ldvbi REQUIRED)
foreach(library ldvbi static)
  add_executable(say_${library} say.c)
  target_link_libraries(say_${library} PRIVATE ldvbi::${library})
endforeach()
END
# configures FOLDER VERSION: cmake, of a project that wants this version of what is installed there
configures() {
    rm -rf built
    does cmake -S project -B built -DCMAKE_PREFIX_PATH="$1" -DWANTED="$2" -DCMAKE_FIND_USE_PACKAGE_REGISTRY=OFF
}
cmake_builds() {
    configures "$1" 0.1 && does cmake --build built && says built/say_ldvbi && says built/say_static
}
# builds_on NAME LIBDIR [CMAKE]: both, where libraries are in this folder; CMake looks in the prefix, or in CMAKE
builds_on() {
    check "$1: the line in LIBRARY.md" prints 0 'picture 12345' env PKG_CONFIG_PATH="$2/pkgconfig" sh -c "$line"
    check "$1: CMake" cmake_builds "${3:-${2%/lib*}}"
}
check 'make install' makes install PREFIX="$work/usr"
check 'the library that is installed' cmp usr/lib/libldvbi.so.3 "$built/libldvbi.so.3"
builds_on installed "$work/usr/lib"
check 'the installed program' prints 0 "$(output_of --version)" usr/bin/ldvbi --version
export PKG_CONFIG_PATH="$work/usr/lib/pkgconfig"
check 'the version for pkg-config' [ "$(pkg-config --modversion ldvbi)" = "$version" ]
archive='-Wl,-Bstatic $(pkg-config --static --libs ldvbi) -Wl,-Bdynamic'
check 'the archive, by pkg-config' says "$cc -o say_static say.c \$(pkg-config --cflags ldvbi) $archive; ./say_static"
for one in built/say_ldvbi:1 built/say_static:0 say_static:0; do
    check "whether $one needs the shared library" \
        [ "$(readelf -d ${one%:*} | grep -c 'libldvbi[.]so[.]3')" = ${one#*:} ]
done
unset PKG_CONFIG_PATH

# The wheel: its name, whose tag has the C library of 2.17, or the latest that the library needs; and its files
check 'make wheel' makes wheel WHEELS="$work/wheels"
needed=$({ echo GLIBC_2.17; readelf -VW "$built/libldvbi.so.3" | grep -o 'GLIBC_2[.][0-9]*'; } | sort -uV | tail -n 1)
wheel=ldvbi-$version-py3-none-manylinux_$(echo ${needed#GLIBC_} | tr . _)_$processor.whl
check 'its name has version and tag' [ "$(ls wheels)" = "$wheel" ]
{
    (cd "$top/python" && find ldvbi ldvbi_side -name '*.py')
    echo ldvbi-$version.data/data/share/man/man1/ldvbi-side.1
    printf "ldvbi-$version.dist-info/%s\n" LICENSE METADATA RECORD WHEEL entry_points.txt
} | sed 's/^/100644 /' > files
echo 100755 ldvbi/libldvbi.so.3 >> files
sort files > wanted
does python3 -c '
import sys, zipfile
with zipfile.ZipFile(sys.argv[1]) as wheel:
    print(*sorted("%o %s" % (info.external_attr >> 16, info.filename) for info in wheel.infolist()), sep="\n")
    wheel.extractall("wheel")' wheels/$wheel
check 'it has these files, with these modes' cmp out wanted
check 'its tag' grep -qx "Tag: $(echo ${wheel%.whl} | cut -d - -f 3-)" wheel/ldvbi-$version.dist-info/WHEEL
check 'and the library' cmp wheel/ldvbi/libldvbi.so.3 "$built/libldvbi.so.3"
if [ $from = rust ]; then
    leave_out 30
    finish
fi
check 'its record has the hash of each file' does /usr/bin/python3 -m wheel unpack -d unpacked wheels/$wheel

# The lines of LIBRARY.md, for one user without root: the library alone, then the commands and Python
# by_lines PATTERN WANTED COMMAND: whether the two lines of LIBRARY.md from this pattern on, and then this, print that
by_lines() {
    sed -n "$1" "$top/docs/LIBRARY.md" > lines.sh
    [ "$(wc -l < lines.sh)" = 2 ] &&
        prints 0 "$2" env HOME="$work/home" PATH=/usr/bin:/bin sh -c "cd user && { . ../lines.sh; $3; } | tail -n 1"
}
check 'the lines in LIBRARY.md' by_lines '/^make install-lib /,/^```$/{/^```/d;p;}' 'picture 12345' :
check 'they have installed the library alone' [ ! -e home/.local/bin ]
lines='/^make install /p;/^export PYTHONPATH=/p'
check 'after the others an example in Python runs' by_lines "$lines" 'field 7' \
    'python3 $HOME/.local/share/doc/ldvbi/examples/seek.py cav.tbc NTSC 16384 51200 3'
check 'and so does the command' by_lines "$lines" 'field 7, frame 4' \
    'ldvbi-side cav.tbc --system NTSC --black 16384 --white 51200 --seek 3'
mv usr moved
builds_on moved "$work/moved/lib"
# an earlier version, and this one; a later one, the next minor and major ones, and an earlier one exactly
minor=$(echo "$version" | cut -d . -f 2)
for wanted in 0.0.9:0 "$version;EXACT:0" $version.1:1 0.$((minor + 1)):1 1.0:1 '0.0.9;EXACT:1'; do
    configures "$work/moved" "${wanted%:*}" || :
    check "CMake, asked for version ${wanted%:*}" [ "$status" = ${wanted#*:} ]
done
makes install-lib PREFIX="$work/debian" LIBDIR="$work/debian/lib/x86_64-linux-gnu"
builds_on 'below its architecture' "$work/debian/lib/x86_64-linux-gnu"
makes install-lib PREFIX="$work/apart" LIBDIR="$work/elsewhere"
builds_on 'outside the prefix' "$work/elsewhere" "$work/elsewhere/cmake/ldvbi"

# The command by a link
ln -s "$work/moved/bin/ldvbi-side" linked
seeks 'ldvbi-side by a link' ./linked

# The wheel, installed and used
check 'a folder for Python' does /usr/bin/python3 -m venv venv
check 'pip installs the wheel' does venv/bin/pip install -q wheels/$wheel
seeks 'its command reads a TBC file' venv/bin/ldvbi-side
# By these levels each sample is high.
does env PATH="$work/venv/bin:/usr/bin:/bin" venv/bin/ldvbi-side cav.tbc --system NTSC --black 0 --white 200 \
    --html page.html
check 'without the program its page draws bad lines' grep -q '<h2>Bad lines, drawn' page.html

# The tags of libraries that need more, each built here: what they are, the tag before the processor, and their options
mkdir libraries
echo 'int nothing;' > nothing.c
echo 'int pthread_create(void *, void *, void *, void *); int make(void) { return pthread_create(0, 0, 0, 0); }' > new.c
bounded $cc -shared -fPIC -o libraries/libother.so nothing.c
while IFS='|' read -r what tag options; do
    rm -rf tagged
    bounded $cc -shared -fPIC -o libraries/libldvbi.so.3 $options
    check "the tag of a library $what" prints 0 "tagged/ldvbi-$version-py3-none-${tag}_$processor.whl" \
        python3 "$top/packaging/make_wheel.py" libraries/libldvbi.so.3 tagged
done << 'END'
that needs a newer one|manylinux_2_34|new.c
that needs another one|linux|-Wl,--no-as-needed nothing.c -Llibraries -lother
for later processors alone|linux|-Wl,-z,x86-64-v3 nothing.c
END
! does python3 "$top/packaging/make_wheel.py" absent tagged
check 'no library, no wheel' grep -q '^make_wheel: ' err

# The source, by pip: with the library that is built there
mkdir tree
(cd "$top" && cp -r LICENSE README.md packaging pyproject.toml python share "$work/tree")
check 'a folder for the source' does /usr/bin/python3 -m venv source
! does source/bin/pip install -q --no-index "$work/tree"
check 'without a library pip says what to do' grep -q 'make rust && make wheel$' err
cp "$built/libldvbi.so.3" tree
check 'pip installs the source' does source/bin/pip install -q --no-index "$work/tree"
seeks 'its command reads a TBC file from the source' source/bin/ldvbi-side
finish
