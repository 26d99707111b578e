#!/bin/sh
# Writes the crate rust/crate from crates/ and from what is written by hand, and builds program and library by cargo:
# rust/ldvbi, rust/libldvbi.a, rust/libldvbi.so.3 and rust/libldvbi.so; for another machine, as
# x86_64-pc-windows-gnu or aarch64-unknown-linux-gnu, they go to rust/TARGET. Needs python3 and cargo, from 1.64 on. The
# crates that it depends on come from Debian's packages where these are installed (tests/tools.sh names them), and else
# from the registry that cargo asks. CARGO and RUSTC name other commands, DEBIAN_BIN the folder of Debian's.
# usage: sh rust/build.sh [TARGET]
set -eu

here=$(cd "$(dirname "$0")" && pwd)
target=${1:-}
registry=/usr/share/cargo/registry
CARGO_TARGET_DIR=$here/out
CARGO_TARGET_AARCH64_UNKNOWN_LINUX_GNU_LINKER=${CARGO_TARGET_AARCH64_UNKNOWN_LINUX_GNU_LINKER:-aarch64-linux-gnu-gcc}
export CARGO_TARGET_DIR CARGO_TARGET_AARCH64_UNKNOWN_LINUX_GNU_LINKER

# has_library RUSTC: whether this compiler has Rust's library for the target
has_library() {
    [ -d "$("$1" --print sysroot 2> /dev/null)/lib/rustlib/$target" ]
}
# dependencies: the crates that ours depends on
dependencies() {
    sed -n '/^\[dependencies\]$/,/^$/ s/ = .*//p' "$here/hand/Cargo.toml"
}
cargo=${CARGO:-cargo}
rustc=${RUSTC:-rustc}
for needed in python3 "$cargo"; do
    command -v "$needed" > /dev/null || {
        echo "make rust: $needed is missing (Debian's package ${needed##*/})" >&2
        exit 1
    }
done
debian=${DEBIAN_BIN:-/usr/bin}
# Debian's compiler has the library of other machines as packages, another compiler on the PATH may not.
if [ "$target" ] && ! has_library "$rustc" && has_library "$debian/rustc"; then
    cargo=$debian/cargo
    RUSTC=$debian/rustc
    export RUSTC
fi

rm -rf "$here/crate.new"
python3 "$here/erase.py" "$here/../crates" "$here/hand" "$here/crate.new"
cp "$here/../LICENSE" "$here/crate.new"
# Debian's folder stands in place of the registry where it has all of them.
if dependencies | while read -r name; do ls -d "$registry/$name"-[0-9]* || exit; done > /dev/null 2>&1; then
    mkdir "$here/crate.new/.cargo"
    printf '[source.crates-io]\nreplace-with = "debian"\n\n[source.debian]\ndirectory = "%s"\n' "$registry" \
        > "$here/crate.new/.cargo/config.toml"
fi
# Laid out by rustfmt, where there is one
if rustfmt --version > /dev/null 2>&1; then
    (cd "$here/crate.new" && rustfmt --edition 2021 src/lib.rs src/main.rs)
fi
# A crate that hasn't changed keeps its place and its times, so that cargo has nothing to do.
[ ! -d "$here/crate" ] || rm -f "$here/crate/Cargo.lock"
if diff -r "$here/crate" "$here/crate.new" > /dev/null 2>&1; then
    rm -r "$here/crate.new"
else
    rm -rf "$here/crate"
    mv "$here/crate.new" "$here/crate"
fi

# The name by which Linux' loader knows the shared library, as that of the proved one
soname=
case ${target:-$(uname -s)} in
    *inux*) soname='-C link-arg=-Wl,-soname,libldvbi.so.3' ;;
esac
# The program; then the libraries for C, each on its own, so that it holds no more than it needs. Who depends on the
# crate builds neither of these.
(
    cd "$here/crate"
    "$cargo" build --release --quiet --features cli ${target:+--target "$target"}
    "$cargo" rustc --release --quiet --lib --crate-type staticlib ${target:+--target "$target"}
    # shellcheck disable=SC2086
    "$cargo" rustc --release --quiet --lib --crate-type cdylib ${target:+--target "$target"} -- $soname
)
built=$CARGO_TARGET_DIR/${target:+$target/}release
to=$here${target:+/$target}
mkdir -p "$to"
for file in ldvbi ldvbi.exe ldvbi.dll libldvbi.dll.a libldvbi.a libldvbi.dylib; do
    [ ! -e "$built/$file" ] || cp -f "$built/$file" "$to/$file"
done
# Rust strips what it links, and an archive isn't linked.
[ "$target" ] || strip -g "$to/libldvbi.a" 2> /dev/null || :
if [ -e "$built/libldvbi.so" ]; then
    cp -f "$built/libldvbi.so" "$to/libldvbi.so.3"
    ln -sf libldvbi.so.3 "$to/libldvbi.so"
fi
