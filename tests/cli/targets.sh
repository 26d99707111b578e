#!/bin/sh
# Tries what `make` runs beside building and installing, .ci/run, and the tools that tests/tools.sh asks for, with stubs
# for the scripts, for make and for Debian's commands.
# usage: sh tests/cli/targets.sh PROGRAM     (the program is never run)
# runs: everywhere
# fails where: .ci/run|s/make setup test/make setup/

. "$(dirname "$0")/../helpers.sh"

# A tree in which each script says its name and its words, and nothing has to be built
mkdir -p tree/tests tree/bench/channel tree/bench/peers tree/rust tree/.ci tree/crates bin
cp "$top/Makefile" tree
cp "$top/.ci/run" tree/.ci
: > tree/crates.txt
for script_path in tests/tools.sh tests/gate.sh tests/scripts.sh bench/all.sh bench/channel/tables.sh \
    bench/peers/compare.sh rust/build.sh; do
    stub tree/$script_path "echo $script_path \"\$@\"; [ \"\${FAULT:-}\" != $script_path ]"
done
touch tree/libldvbi.a tree/libldvbi.so.3 tree/ldvbi
stub bin/rt 'echo rt'

# ran FOLDER COMMAND..: runs a command there, with the stubs on the PATH
ran() {
    (cd "$1" && shift && PATH=$work/bin:$PATH && export PATH && bounded "$@") < empty > out 2> err
    status=$?
}
# Targets with their words, and what is run; make ends where one of that fails. There are folders with the names of most
# of them.
while IFS='|' read -r words wanted; do
    ran tree make -s $words
    echo "$wanted" | tr ',' '\n' > wanted_text
    judge "make $words" 0 wanted_text ''
    cut -d ' ' -f 1 wanted_text | sort -u > faults
    while read -r fault; do
        ran tree env FAULT="$fault" make -s $words
        check "make $words ends where $fault fails" [ "$status $(tail -n 1 out | cut -d ' ' -f 1)" = "2 $fault" ]
    done < faults
done << 'END'
setup|tests/tools.sh install
test|tests/tools.sh test,tests/gate.sh
setup test|tests/tools.sh install test,tests/tools.sh test,tests/gate.sh
check|tests/tools.sh,tests/scripts.sh ./ldvbi --as-built
check PROGRAM=/a/ldvbi|tests/tools.sh,tests/scripts.sh /a/ldvbi --as-built
check FROM=rust|tests/tools.sh,tests/scripts.sh ./rust/ldvbi --as-built
rust|rust/build.sh
rust TARGET=mips|rust/build.sh mips
rust-compare|tests/scripts.sh rust/ldvbi rust_compare
rust-compare TARGET=x-windows-y|tests/scripts.sh rust/x-windows-y/ldvbi.exe rust_compare
bench|rust/build.sh,bench/all.sh ./ldvbi
peers|bench/peers/compare.sh ./ldvbi 200 docs/measured/peers.txt
channel|bench/channel/tables.sh ./libldvbi.so.3 docs/measured/channel
channel PROGRAM=/a/ldvbi|bench/channel/tables.sh libldvbi.so.3 docs/measured/channel
END
stub tree/tests/scripts.sh 'echo "$COMPARE_RUNS, $COMPARE_SEED, <$COMPARE_RUNNER>"'
ran tree make -s rust-compare N=3 SEED=7 RUNNER='qemu -L /usr'
check 'the words of make rust-compare reach the script' [ "$status $(cat out)" = '0 3, 7, <qemu -L /usr>' ]
ran tree make -s rust-compare
check 'it compares ten runs, from the first on, of a program of this machine' [ "$status $(cat out)" = '0 10, 1, <>' ]
# A file or folder with the name of a target doesn't stand for it.
targets=$(sed -n 's/^\([a-z][a-z-]*\):.*/\1/p' "$top/Makefile" | grep -vx ldvbi | sort | paste -s -d ' ')
sed -n 's/^\.PHONY: //p' "$top/Makefile" | tr ' ' '\n' | sort | paste -s -d ' ' > out
check 'each target that is no file is said to be none' [ "$targets" = "$(cat out)" ]

# rust/build.sh for another machine: by the compiler on the PATH if that has its library, else by Debian's
mkdir -p other/rust own/lib/rustlib/mips debian/lib/rustlib/mips
cp "$top/rust/build.sh" other/rust
cp "$top/LICENSE" other
stub bin/python3 'mkdir "$4"'
stub bin/rustfmt 'exit 1'
for folder in bin debian; do
    stub $folder/rustc "echo $work/\${LIBRARY_OF_$folder:-none}"
    stub $folder/cargo 'for word; do [ "${last:-}" != --target ] || target=$word; last=$word; done
mkdir -p "$CARGO_TARGET_DIR/$target/release"
cd "$CARGO_TARGET_DIR/$target/release" && touch ldvbi ldvbi.exe ldvbi.dll libldvbi.dll.a libldvbi.a libldvbi.so \
    libldvbi.dylib
echo "$0 ${RUSTC:-}"'
done
for pair in own:bin/cargo none:debian/cargo; do
    ran other/rust env -u CARGO -u RUSTC LIBRARY_OF_bin=${pair%:*} LIBRARY_OF_debian=debian DEBIAN_BIN="$work/debian" \
        sh build.sh mips
    check "a compiler of ${pair%:*}: ${pair#*:}" [ "$status ${pair#*:}" = "0 $(sed "s,^$work/,,; s/ .*//" out | uniq)" ]
done
check 'with its own compiler' grep -qx "$work/debian/cargo $work/debian/rustc" out
check 'what is built for another machine' [ "$(cd other/rust/mips && echo *)" = \
    'ldvbi ldvbi.dll ldvbi.exe libldvbi.a libldvbi.dll.a libldvbi.dylib libldvbi.so libldvbi.so.3' ]
rm bin/python3

# .ci/run runs a command at the top, which is README's
stub bin/make 'echo "$PWD|make $*"; exit ${FAULT:-0}'
ran / "$work/tree/.ci/run"
echo "$work/tree|make setup test" > wanted_text
judge '.ci/run from another folder' 0 wanted_text ''
check "README has the command that .ci/run runs" grep -q "$(cut -d '|' -f 2 out)\>" "$top/README.md"
ran / env FAULT=3 "$work/tree/.ci/run"
check '.ci/run fails where that does' [ "$status" = 3 ]

# tests/tools.sh where no tool is there, and the system's Python has no module: what it asks for, and how it is
# installed. A machine that has nothing, as that of .ci/run, shows whether these are all.
sed "s,/usr/bin/python3,$work/python3,; s,/usr/share/doc,$work/none,; s,/usr/sbin,$work/alone," "$top/tests/tools.sh" \
    > tools.sh
stub python3 'exit 1'
mkdir none alone
ln -s "$(command -v sh)" alone/sh
stub alone/apt-get 'echo "apt-get $*"; exit ${FAULT:-0}'
stub alone/id 'echo ${USER_NUMBER:-0}'
stub alone/sudo 'echo sudo; "$@"'
# tools [WORDS]: runs tools.sh with nothing on the PATH but what the folder `alone` has
tools() {
    does env -u CC -u CXX PATH="$work/alone" sh ./tools.sh ${1:-}
}
tools ''
check 'the tools that the scripts need' \
    [ "$status $(grep -c '^tests: missing .*: gcc .* zsh python3-.* (make setup i' err) $(grep -c rust err)" = '1 1 0' ]
tools test
all=$(sed 's/.* packages: \(.*\) (make setup test .*/\1/' err)
printf '%s\n' "installing these of Debian's packages, and what they depend on: $all" 'apt-get update' \
    "apt-get install -y --no-install-recommends $all" > wanted_text
tools 'install test'
judge 'setup as root' 0 wanted_text ''
USER_NUMBER=1000 FAULT=1
export USER_NUMBER FAULT
tools install
check 'setup by sudo, which fails where the packages do' [ "$status $(grep -c '^sudo$' out)" = '1 1' ]
check 'setup leaves to the gate what it alone needs' \
    [ "$(grep -c debootstrap out) $(echo "$all" | grep -c debootstrap)" = '0 1' ]
for tool in cc c++ nm make python3 jq prove pkg-config cmake git chromium ffmpeg mandoc mypy pv zsh debootstrap rustc \
    cargo rustfmt cargo-clippy; do
    stub alone/$tool 'exit 0'
done
(cd none && mkdir $(echo "$all" | grep -o 'librust-[a-z-]*-dev'))
stub python3 'exit 0'
tools 'install test'
judge 'nothing is missing' 0 empty ''

# What compares the program of another machine
does make -s -n -C "$top" rust-compare N=3 SEED=4 RUNNER='wine -x' TARGET=x86_64-pc-windows-gnu
check 'make rust-compare' [ "$(tr -d '\\\n' < out | tr -s ' ')" = \
    'COMPARE_RUNS=3 COMPARE_SEED=4 COMPARE_RUNNER="wine -x"'\
' SCRIPT_SECONDS=86400 HARNESS_VERBOSE=1 sh tests/scripts.sh rust/x86_64-pc-windows-gnu/ldvbi.exe rust_compare' ]
finish
