#!/bin/sh
# Installs the built program, and the library where it is built, from a copy of the source without the toolchain, takes
# both away again, and packs them: what is there has one list of files. recipes.sh tries how else that is done.
# usage: sh tests/cli/packaging.sh PROGRAM
# runs: everywhere
# fails where: Makefile|/install.*MANUALS/d

. "$(dirname "$0")/../helpers.sh"

# A copy of the source in a repository of its own, and a PATH without `rt`
mkdir tree tools
(
    cd "$top" && tar --exclude=.git --exclude=out --exclude=__pycache__ --exclude=./ldvbi --exclude='./libldvbi.*' \
        --exclude=./dist --exclude='./rust/crate*' --exclude=./rust/ldvbi --exclude='./rust/libldvbi.*' \
        --exclude='./rust/*-*-*' -cf - .
) | tar -xf - -C tree
for tool in sh make install rm mkdir find cp touch git tar gzip sha256sum uname ln sed chmod; do
    ln -s "$(command -v $tool)" tools
done
git -C tree init -q
git -C tree add .
GIT_AUTHOR_DATE='@1000000000 +0000' GIT_COMMITTER_DATE='@1000000000 +0000' \
    git -C tree -c user.name=test -c user.email=test@localhost commit -qm source
# The library, if it is built, with how many archives there are then
library=
[ ! -e "$built/libldvbi.a" ] || library=6
# puts FOLDER: what is built, as it is left in this folder of the copy
puts() {
    cp "$program" "tree/$1/ldvbi"
    [ ! "$library" ] ||
        { cp "$built/libldvbi.a" "$built/libldvbi.so.3" "tree/$1" && ln -sf libldvbi.so.3 "tree/$1/libldvbi.so"; }
}
puts .

# made WORD..: `make` in the copy, by somebody whose new files are for themselves alone
path=$work/tools
made() {
    status=0
    (cd tree && umask 077 && bounded env PATH="$path" make -s "$@") < empty > out 2> err || status=$?
}
# has FOLDER FILES [SED]: whether a folder has just these files, once the names of those found are changed so
has() {
    (cd "$1" && find . ! -type d) | sed "s/^..//; ${3:-}" | sort > found
    sort "$2" | cmp - found
}

# What is installed below a prefix; and files of others, whose names begin as ours do, in each folder that has files of
# ours
{
    printf '%s\n' bin/ldvbi bin/ldvbi-side
    printf 'share/%s\n' doc/ldvbi/CHANGELOG.md doc/ldvbi/LICENSE doc/ldvbi/README.md man/man1/ldvbi-side.1 \
        man/man1/ldvbi.1 bash-completion/completions/ldvbi bash-completion/completions/ldvbi-side \
        zsh/site-functions/_ldvbi zsh/site-functions/_ldvbi-side
    printf 'share/ldvbi/ldvbi%s.schema.json\n' '' -join -recovered -scan -side
    (cd tree && git ls-files 'docs/*.md' 'docs/pictures/*.[ps]*g' examples | sed 's,^,share/doc/ldvbi/,' &&
        git ls-files 'python/*.py' | sed 's,^,share/ldvbi/,')
    [ ! "$library" ] || printf '%s\n' include/ldvbi.h lib/cmake/ldvbi/ldvbi-config-version.cmake \
        lib/cmake/ldvbi/ldvbi-config.cmake lib/libldvbi.a lib/libldvbi.so lib/libldvbi.so.3 lib/pkgconfig/ldvbi.pc
} > files
# by_python PREFIX: these files, and what says to the system's Python where the module is
by_python() {
    cat files
    /usr/bin/python3 -c "import site
for place in site.getsitepackages():
    if place.startswith('$1/lib/'):
        print(place[len('$1/'):] + '/ldvbi.pth')
        break"
}
by_python /usr/local > files_local
{ sed 's,/ldvbi/.*,/ldvbi-other/file,; t; s,\([^/.]*\)\([^/]*\)$,\1-other\2,' files_local; echo lib/libldvbi.so.0; } |
    sort -u > others
# installs NAME FILES FOLDER WORD..: installs with these words, which writes `said`, and takes that away
installs() {
    name=$1
    cat "$2" others > files_there
    folder=$3
    shift 3
    mkdir -p "$folder"
    (cd "$folder" && xargs dirname < "$work/others" | xargs mkdir -p && xargs touch < "$work/others")
    find "$folder" | sort > before
    made install "$@"
    cp out said
    check "$name: what is installed" [ "$status$(has "$folder" files_there)" = 0 ]
    check "$name: the program is copied as it is" cmp "$folder/bin/ldvbi" "$program"
    # All can read it, and run what is to be run.
    find "$folder" ! -type l -printf '%m %y %p\n' |
        awk '$1 != ($2 == "d" || $3 ~ /\/bin\/ldvbi(-side)?$|\/libldvbi\.so\.3$/ ? 755 : 644)' > err
    check "$name: it is for all" [ ! -s err ]
    grep -r -e '<!--' "$folder/share/doc/ldvbi" > err
    check "$name: documents are without marks" [ ! -s err ]
    PYTHONDONTWRITEBYTECODE=1 bounded "$folder/bin/ldvbi-side" --help < empty > out 2> err || status=$?
    check "$name: ldvbi-side finds its module" [ "$status $(head -c 18 out)" = '0 usage: ldvbi-side ' ]
    made uninstall "$@"
    check "$name: what make uninstall leaves is not ours" [ "$status$(find "$folder" | sort | diff before -)" = 0 ]
}
made uninstall PREFIX="$work/nothing/usr"
check 'make uninstall where nothing of ours is' [ $status = 0 ]
installs 'a prefix below DESTDIR' files_local two/usr/local DESTDIR="$work/two"

# What `make rust` leaves, as which the program stands here with a crate that has been built by cargo
mkdir -p tree/rust/crate/src tree/rust/crate/target tree/rust/crate/.cargo kept
puts rust
echo '[package]' > tree/rust/crate/Cargo.toml
echo '//! A crate' > tree/rust/crate/src/lib.rs
touch tree/rust/crate/target/built tree/rust/crate/.cargo/config.toml
mv tree/ldvbi kept
installs 'what make rust leaves, which nobody asked for' files rusty/usr PREFIX="$work/rusty/usr"
check 'it is said' grep -q '^make: takes what make rust built, which is tested and not proved$' said
mv kept/ldvbi tree

# Archives of source and program, of that program and its crate, which have nothing of this machine
# packed NAME FILES: whether an archive of dist/ has these below its folder
packed() {
    rm -rf unpacked
    mkdir unpacked && tar --strip-components=1 -C unpacked -xzf "tree/dist/$1" && has unpacked "$2"
}
release=ldvbi-$(sed -n 's/^VERSION := //p' "$top/Makefile")
(cd tree && git ls-files) > source_files
printf '%s\n' Cargo.toml src/lib.rs > crate_files
path=/usr/bin:/bin
made dist
check 'make dist without the toolchain' [ "$status $(wc -l < tree/dist/SHA256SUMS)" = "0 ${library:-4}" ]
check 'the checksums' sh -c 'cd tree/dist && sha256sum -c --quiet SHA256SUMS'
while read -r archive packed_files; do
    check "what $archive has" packed $archive $packed_files
done << END
$release.tar.gz source_files
$release-x86_64-linux.tar.gz files
$release-rust-$(uname -m)-linux.tar.gz files
$release.crate crate_files
END
for archive in tree/dist/*.tar.gz tree/dist/*.crate; do tar --numeric-owner -tvzf "$archive"; done > packed
check "the files in the archives are root's" [ "$(awk '{ print $2 }' packed | sort -u)" = 0/0 ]
if [ "$library" ]; then
    dpkg-deb -x tree/dist/*.deb package
    { by_python /usr; printf 'share/%s\n' doc/ldvbi/changelog.Debian.gz doc/ldvbi/copyright lintian/overrides/ldvbi; } |
        grep -v /LICENSE > files_of_package
    check 'what is in the package' has package/usr files_of_package 's,^lib/x86_64-linux-gnu,lib,; s/[.]1[.]gz$/.1/'
    made install-lib FROM=rust DESTDIR="$work/apart" PREFIX=/usr LIBDIR=/elsewhere/lib
    for line in libdir=/elsewhere/lib 'Libs.private: -lpthread -ldl'; do
        check "a library apart is described: $line" grep -qx "$line" apart/elsewhere/lib/pkgconfig/ldvbi.pc
    done
else
    leave_out 3
fi
path=$work/tools
rm -rf tree/rust/crate tree/rust/ldvbi tree/rust/libldvbi.* tree/ldvbi tree/libldvbi.*

# One version
version=$(output_of --version | sed 's/^ldvbi //; s/ (.*)$//')
check 'the version of make is that of the program' grep -qx "VERSION := $version" tree/Makefile
check 'and so is the latest of the change log' \
    [ "$(sed -n 's/^## \([0-9.]*\).*/\1/p' tree/CHANGELOG.md | head -n 1)" = "$version" ]

# `make clean` takes away what was built, and leaves the source
mkdir -p tree/rust/out tree/rust/x86_64-pc-windows-gnu
touch tree/rust/out/kept tree/rust/x86_64-pc-windows-gnu/ldvbi.exe tree/rust/ldvbi tree/rust/libldvbi.dylib
made clean
rm -rf tree/.git
check 'make clean leaves the source' has tree source_files
finish
