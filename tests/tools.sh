#!/bin/sh
# The tools that the tests need besides the toolchain, as Debian's packages: names those that are missing and fails, or,
# with `install`, says what it will install and does so, as root or by sudo, with nothing that is only recommended.
#
# `make check` needs a C compiler with its sanitizers, a C++ compiler, binutils, python3, jq, perl's prove, a browser,
# and what the commands in the documents need. `install` adds cargo and the crates that `make rust` needs. With `test`,
# which is the gate, or where the proved library is built, come those that only the tests of that library and of the
# crate use.
# usage: sh tests/tools.sh [install] [test]
set -eu

install=
rust=
gate=
for word; do
    [ "$word" != install ] || install=yes rust=yes
    [ "$word" != test ] || gate=yes rust=yes
done
[ ! -e "${0%/*}/../libldvbi.so.3" ] || gate=yes

missing=
# A command, and after a colon the packages that have it, where these have another name
for pair in "${CC:-cc}:gcc libc6-dev" "${CXX:-c++}:g++" nm:binutils make python3 jq prove:perl git chromium ffmpeg \
    mandoc mypy pv zsh ${rust:+cargo} ${gate:+cmake pkg-config rustc rustfmt cargo-clippy:rust-clippy}; do
    command -v "${pair%%:*}" > /dev/null || missing="$missing ${pair#*:}"
done
# It isn't on the PATH of everybody.
[ -z "$gate" ] || [ -x /usr/sbin/debootstrap ] || missing="$missing debootstrap"
# The system's Python, whose packages are Debian's, runs a command of docs/RECIPES.md, and the wheel is tried by it. Its
# pytest runs the tests of the Python package, on all processors by xdist, and its coverage records which lines run.
for pair in jsonschema coverage pytest xdist:pytest-xdist hypothesis ensurepip:venv ${gate:+wheel}; do
    /usr/bin/python3 -c "import ${pair%:*}" 2> /dev/null || missing="$missing python3-${pair#*:}"
done
for crate in ${rust:+arrayvec byteorder clap itoa serde-json thiserror} ${gate:+libc}; do
    [ -e "/usr/share/doc/librust-$crate-dev" ] || missing="$missing librust-$crate-dev"
done
[ -n "$missing" ] || exit 0
if [ -z "$install" ]; then
    echo "tests: missing on this machine, as Debian's packages:$missing (make setup${gate:+ test} installs them)" >&2
    exit 1
fi
as_root=
[ "$(id -u)" = 0 ] || as_root=sudo
echo "installing these of Debian's packages, and what they depend on:$missing"
$as_root apt-get update
$as_root apt-get install -y --no-install-recommends $missing
