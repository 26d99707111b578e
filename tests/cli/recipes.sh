#!/bin/sh
# Tries what the recipes of Makefile do: in a small tree, whose files have their own paths as their text, and with stubs
# for the toolchain and for what packs. What the whole source installs and packs, packaging.sh tries.
# usage: sh tests/cli/recipes.sh PROGRAM     (the program is never run)
# runs: everywhere
# fails where: Makefile|s/^SMALL := --jobs 1/SMALL := --jobs 2/

. "$(dirname "$0")/../helpers.sh"

# ---- A small tree, whose files have their own paths as their text: where each is installed, and how it is packed
# Where a file goes, below the prefix or below LIB, with its mode: that of the source, or one that is BUILT
{
    printf '%s\n' '755 bin/ldvbi BUILT/ldvbi' '755 bin/ldvbi-side python/ldvbi-side' \
        '644 include/ldvbi.h include/ldvbi.h' '644 LIB/libldvbi.a BUILT/libldvbi.a' \
        '755 LIB/libldvbi.so.3 BUILT/libldvbi.so.3'
    for name in ldvbi ldvbi-side; do
        printf '644 share/%s share/%s\n' man/man1/$name.1 man/$name.1 \
            bash-completion/completions/$name completions/$name.bash zsh/site-functions/_$name completions/_$name
    done
    printf 'ldvbi%s.schema.json\n' '' -join -recovered -scan -side | sed 's,.*,644 share/ldvbi/& share/schema/&,'
    printf '%s\n' python/ldvbi/a.py python/ldvbi_side/b.py python/ldvbi_side/c/d.py | sed 's,.*,644 share/ldvbi/& &,'
    printf '%s\n' LICENSE README.md CHANGELOG.md docs/A.md docs/pictures/b.svg docs/pictures/c.png examples/d.c \
        examples/rust/Cargo.toml examples/rust/src/e.rs examples/rust/src/bin/whole.rs |
        sed 's,.*,644 share/doc/ldvbi/& &,'
} > places
described='pkgconfig/ldvbi.pc cmake/ldvbi/ldvbi-config.cmake cmake/ldvbi/ldvbi-config-version.cmake'
program_crates='vbi_words vbi_line vbi_near vbi_field vbi_meta vbi_cli ldvbi'
library_crates='vbi_words vbi_line vbi_near vbi_field vbi_side vbi_whole vbi_plan vbi_story vbi_seek vbi_c'
libraries='libldvbi.a libldvbi.so libldvbi.so.3'
version=$(sed -n 's/^## \([0-9.]*\) .*/\1/p' "$top/CHANGELOG.md" | head -n 1)
umask 077
# holding PATH..: makes these files in the tree
mkdir source
holding() {
    (cd source && printf '%s\n' "$@" | sed -n 's,/[^/]*$,,p' | xargs mkdir -p &&
        for path; do echo "$path" > "$path"; done)
}
holding $(sed 's/.* //; /^BUILT/d' places) rust/hand/a.rs rust/b.py rust/c.sh crates.txt packaging/make_wheel.py \
    $(printf 'crates/%s/src/a.rt ' $program_crates $library_crates vbi_other) crates/vbi_near/b.antt \
    crates/vbi_near/c.txt
cp "$top/Makefile" source
for page in README.md CHANGELOG.md docs/A.md; do
    printf '<!-- made -->\n%s<!-- a --><!-- b -->\n' $page > source/$page
done
for path in $described; do echo '@PREFIX@ @LIBDIR@ @VERSION@ @ABI@ (@PRIVATE@)' > source/include/${path##*/}.in; done
stub source/packaging/make_deb.sh 'rm -rf ../what && cp -a "$2" ../what && touch "$4/ldvbi.deb" && echo "deb $*"'
find source -exec touch -d @900000000 {} +
git -C source init -q
git -C source add .
GIT_AUTHOR_DATE='@1000000000 +0000' GIT_COMMITTER_DATE='@1000000000 +0000' \
    git -C source -c user.name=test -c user.email=test@localhost commit -qm source
holding ldvbi $libraries rust/ldvbi rust/libldvbi.a rust/libldvbi.so.3 rust/crate/Cargo.toml \
    rust/crate/target/x rust/crate/.cargo/config.toml crates/vbi_near/out/d.rt
ln -sf libldvbi.so.3 source/libldvbi.so

# Commands without the toolchain, another machine, and tools for what is packed
mkdir tools packers
for tool in sh make install rm mkdir find cp touch git tar gzip sha256sum ln sed chmod env; do
    ln -s "$(command -v $tool)" tools
done
stub tools/uname 'echo mips'
stub packers/strip 'echo "strip $*"'
stub packers/dpkg-deb ''
stub tools/python3 << 'END'
echo "python3 $*"
case $1 in
    -m) mkdir -p "$3/bin" && cp "$0" "$3/bin/pip" ;;
    */make_wheel.py) mkdir -p "$3" && cp "$2" "$3/ldvbi.whl" ;;
esac
END
commands=$work/packers:$work/tools
# made TREE WORD..: `make` there
made() {
    tree=$1
    shift
    status=0
    (cd "$tree" && bounded env PATH="$commands" make -s "$@") < empty > out 2> err || status=$?
}

/usr/bin/python3 -c 'import site; print(*site.getsitepackages(), sep="\n")' > sites
# placed ROOT PREFIX LIBRARIES BUILT UP LIBDIR [SITES]: whether below this root are the files of `rows`, with their
# modes and in folders for all, those that are built from the folder BUILT. What describes the library has LIBDIR and
# the prefix, which is UP from the libraries' folder or UP itself; in the first of the sites Python finds the module.
placed() {
    private=
    [ -z "$4" ] || private='-lpthread -ldl'
    {
        sed "s, BUILT/, $4," rows | sed "s,^\(...\) LIB/,\1 $3/,; t; s,^... ,&$2/,"
        for path in $described; do
            case $5$path in
                /..*.pc) where='${pcfiledir}/..'$5 ;;
                /..*) where='${CMAKE_CURRENT_LIST_DIR}/../..'$5 ;;
                *) where=$5 ;;
            esac
            echo "644 $3/$path $where $6 $version 3 ($private)"
        done
        echo "$3/libldvbi.so libldvbi.so.3"
    } > wanted_rows
    grep -q LIB rows || sed -i '/ldvbi[.]pc\|[.]cmake\|libldvbi/d' wanted_rows
    [ -z "${7:-}" ] ||
        sed -n "s,^/\($2/lib/.*\),644 \1/ldvbi.pth /$2/share/ldvbi/python,p" sites | head -n 1 >> wanted_rows
    (cd "$1" && find . -type f -printf '%m %P\n' | awk '{ text = ""; getline text < $2; print $0, text }'
        find . -type l -printf '%P %l\n'; find . -mindepth 1 -type d ! -perm 755) | sort > found
    sort wanted_rows | diff - found > err
}

# ---- What is installed, and taken away
sed "s,WORK,$work,g" > installs << 'END'
|.|install DESTDIR=WORK/one|one|usr/local|usr/local/lib||/..|${prefix}/lib|sites
|.|install FROM=rust DESTDIR=WORK/two PREFIX=/usr LIBDIR=/usr/lib/a|two|usr|usr/lib/a|rust/|/../..|${prefix}/lib/a|sites
ldvbi|^... [Li]|install-lib DESTDIR=WORK/three PREFIX=/usr LIBDIR=/lib|three|usr|lib|rust/|/usr|/lib|
ldvbi rust/libldvbi.a|^... [bs]|install PREFIX=WORK/four/usr|four|usr|lib|rust/|||
END
while IFS='|' read -r gone rows words root prefix lib from up libdir sites; do
    grep "$rows" places > rows
    [ -z "$gone" ] || tar -C source -cf gone --remove-files $gone
    made source $words
    said=
    [ "$root" != four ] || said='make: takes what make rust built, which is tested and not proved'
    check "make $words: what it says" [ "$status$(cat out err)" = "0$said" ]
    check "make $words: what is where" placed "$root" "$prefix" "$lib" "$from" "$up" "$libdir" "$sites"
    # Files of others, whose names begin as ours do
    sed '/[.]so[.]3 /d; s,[.]so .*,.so.0,; s,^... ,,; s, .*,,' wanted_rows |
        sed '/[.]so/b; s,/ldvbi/.*,/ldvbi-other/file,; t; s,\([^/.]*\)\([^/]*\)$,\1-other\2,' | sort -u > others
    (cd "$root" && sed 's,[^/]*$,,' ../others | xargs mkdir -p && xargs touch < ../others)
    made source uninstall ${words#* }
    (cd "$root" && find . ! -type d -printf '%P\n') | sort | diff others - > left
    check "make uninstall ${words#* } leaves what is of others" [ "$status$(cat out err left)" = 0 ]
    [ -z "$gone" ] || tar -xf gone -C source
done < installs

# What is refused, and said without the toolchain; nothing is installed then
commands=$work/tools
touch source/crates.txt
rm source/rust/libldvbi.so.3
rust='make rust && make install FROM=rust'
while IFS='|' read -r words target said more; do
    eval "made source DESTDIR=$work/stage $words"
    printf 'make: %s\n' "$said" ${more:+"$more"} > wanted
    sed 's/^make.*\*\*\* \[\(.*: \)\?\([^:]*\)\] \(.*\)/\2 \3/' err > found
    echo "$target Error 1" | cat wanted - > wanted_text
    head -n "$(wc -l < wanted_text)" found > err
    check "make $words is refused" ended 2 empty wanted_text
done << END
install PREFIX="'/a b'"|places|PREFIX, LIBDIR and DESTDIR can't have a space
install-lib LIBDIR="'/a b'"|places|PREFIX, LIBDIR and DESTDIR can't have a space
uninstall DESTDIR="'/a b'"|places|PREFIX, LIBDIR and DESTDIR can't have a space
install FROM=here|places|FROM is 'proved' or 'rust'
wheel FROM=rust|rust/libldvbi.so.3|rust/libldvbi.so.3 isn't there: make rust builds it
|toolchain|the proved build needs the toolchain of Rattle, whose command rt is not on the PATH|without it: $rust
test|toolchain|the proved build needs the toolchain of Rattle, whose command rt is not on the PATH|without it: $rust
lib|toolchain|the proved build needs the toolchain of Rattle, whose command rt is not on the PATH|without it: $rust
install|toolchain|the proved build needs the toolchain of Rattle, whose command rt is not on the PATH|without it: $rust
END
check 'nothing is installed then' [ ! -e stage ]
holding rust/libldvbi.so.3
touch -d @900000000 source/crates.txt

# ---- What is packed: by commands that say what they are told
commands=$work/packers:$work/tools
holding .venv/old dist/deb/old
while IFS='|' read -r words said left; do
    made source $words
    echo "$said" | sed "s,SOURCE,$work/source,g" | tr + '\n' > wanted_text
    judge "make $words" 0 wanted_text ''
    check "make $words: what it leaves" [ "$(cd source && find ${left%%/*} -type f | sort | xargs)" = "$left" ]
done << END
wheel|python3 packaging/make_wheel.py libldvbi.so.3 dist|dist/deb/old dist/ldvbi.whl
wheel FROM=rust WHEELS=w|python3 packaging/make_wheel.py rust/libldvbi.so.3 w|w/ldvbi.whl
venv|python3 -m venv .venv+python3 packaging/make_wheel.py libldvbi.so.3 .venv/wheel+\
python3 install --quiet --disable-pip-version-check --no-index .venv/wheel/ldvbi.whl+\
ldvbi-side is SOURCE/.venv/bin/ldvbi-side; after '. .venv/bin/activate' it is ldvbi-side alone|\
.venv/bin/pip .venv/wheel/ldvbi.whl
deb FROM=rust DEBS=new|deb rust new/deb $version new|new/ldvbi.deb
deb|deb proved dist/deb $version dist|dist/ldvbi.deb dist/ldvbi.whl
END
cp places rows
check 'a package of what is installed below /usr' \
    placed what usr usr/lib/mips-linux-gnu '' /../.. '${prefix}/lib/mips-linux-gnu' sites
rm -rf source/w source/new

# What `make dist` packs of a tree where files are newer than what is built, or gone; the library of wheel and package
while IFS='|' read -r newer gone packed library; do
    rm -rf state
    cp -a source state
    touch -d @1100000000 state/ldvbi state/lib* state/rust/ldvbi state/rust/lib*
    (cd state && [ -z "$newer" ] || touch $newer; rm -rf $gone)
    made state dist
    { (cd state/dist && echo * | sed "s/ldvbi\(-$version\)\?//g"; cat ldvbi.whl); grep ^the out; } > found 2> /dev/null
    said="the program isn't built, or is older than its source: it isn't packed"
    case $packed in *x86_64*) said= ;; esac
    printf '%s\n' "SHA256SUMS $packed" $library ${said:+"$said"} | diff - found > left
    check "make dist, newer: $newer, gone: $gone" [ "$status$(cat err left)" = 0 ]
done << END
crates/vbi_cli/src/a.rt||.tar.gz|
rust/hand/a.rs|$libraries|-x86_64-linux.tar.gz .tar.gz|
rust/b.py|ldvbi|.tar.gz|
rust/c.sh|ldvbi|.tar.gz|
crates.txt||-rust-mips-linux.tar.gz .crate .tar.gz .deb .whl|rust/libldvbi.so.3
crates.txt|rust/libldvbi.so.3 rust/libldvbi.a|-rust-mips-linux.tar.gz .crate .tar.gz|
crates.txt|rust/ldvbi|.tar.gz|
||-rust-mips-linux.tar.gz -x86_64-linux.tar.gz .crate .tar.gz .deb .whl|libldvbi.so.3
END
printf '%s\n' "strip --strip-unneeded dist/ldvbi-$version-x86_64-linux/bin/ldvbi" \
    "strip --strip-unneeded dist/ldvbi-$version-rust-mips-linux/bin/ldvbi" \
    'python3 packaging/make_wheel.py libldvbi.so.3 dist' "deb proved dist/deb $version dist" > wanted_text
judge 'make dist tells the commands that pack' 0 wanted_text ''
cut -c 67- state/dist/SHA256SUMS > names
check 'the checksums' sh -c 'cd state/dist && sha256sum -c --quiet SHA256SUMS && ls ldvbi* | cmp ../../names -'
for archive in state/dist/*.tar.gz state/dist/*.crate; do
    TZ=UTC tar --numeric-owner --full-time -tvzf $archive >> archived
done
check 'the files in the archives are of root, and as old as the commit' \
    [ "$(awk '{ print $2, $4, $5 }' archived | sort -u)" = '0/0 2001-09-09 01:46:40' ]
for from in x86_64: rust-mips:rust/; do
    release=ldvbi-$version-${from%:*}-linux
    tar -C packers -xpzf state/dist/$release.tar.gz
    mkdir $release && mv packers/$release $release
    check "what $release has" placed $release $release $release/lib "${from#*:}" /.. '${prefix}/lib'
done
for one in tar.gz:"$(cd source && git ls-files)" crate:Cargo.toml; do
    check "what the ${one%%:*} has" [ "$(tar -tzf state/dist/ldvbi-$version.${one%%:*} | grep -v '/$')" = \
        "$(echo "${one#*:}" | sed "s,^,ldvbi-$version/,")" ]
done
umask 022
cp -r source again
chmod -R go+rX again
touch again/ldvbi again/lib* again/rust/ldvbi
commands=$work/tools
made again dist
umask 077
sed '/[.]deb$/d' state/dist/SHA256SUMS > wanted
check 'later they are the same of one whose files are for all; without a tool no package is made' \
    cmp wanted again/dist/SHA256SUMS

# ---- What is proved, by a toolchain that says a hundred lines of a crate, and a clock that goes on by five seconds
mkdir toolchain
stub toolchain/nproc '[ "$NPROC" ] && echo $NPROC'
stub toolchain/date "echo >> $work/seconds; echo \$((\$(wc -l < $work/seconds) * 5))"
stub toolchain/rt << END
crate=\$(basename "\$PWD")
echo "\$crate \$*" >> $work/proofs
echo "rt \$*"
seq 99 >&2
[ "\$crate" != "\${FAILS:-}" ] || exit 7
echo "of \$crate" | tee out/\$crate > out/lib\$crate.a
END
commands=$work/toolchain:$PATH
touch source/crates.txt
for jobs in 1:1 2:2 3:3 4:4 5:4 64:4 :1; do
    NPROC=${jobs%:*}
    export NPROC
    made source -n ldvbi
    check "jobs on $NPROC processors" [ "$(sed -n 's/.*vbi_near && rt lib --jobs \([^)]*\)).*/\1/p' out)" = ${jobs#*:} ]
done
# Crates that take long are proved by as many jobs as are asked for, lowest first.
while IFS='|' read -r target rows; do
    rm -f proofs
    made source $target JOBS=3
    echo "$rows" | tr ',' '\n' | sed '/^ldvbi/! s/^/vbi_/; s/ [1-9]/ lib --jobs&/; s/run lib/run/' > wanted_words
    sed 's/ .*/ proved, 5 s/' wanted_words > wanted_text
    judge "make $target says one line of a crate" 0 wanted_text ''
    check "make $target: what is proved" cmp wanted_words proofs
    check "make $target: what is copied" [ "$(cat source/$target)" = "of $(tail -n 1 proofs | cut -d ' ' -f 1)" ]
done << 'END'
ldvbi|words 3,line 3,near 3,field 3,meta 1,cli 3,ldvbi run 1 -- --help
libldvbi.a|words 3,line 3,near 3,field 3,side 3,whole 3,plan 1,story 1,seek 3,c 1
END
{ echo 'rt run --jobs 1 -- --help'; seq 99; } > wanted
check 'the log has what the toolchain said' cmp source/crates/ldvbi/out/make.log wanted
FAILS=vbi_line
export FAILS
touch source/crates.txt
made source ldvbi
printf '%s\n' 'vbi_words proved, 5 s' 'vbi_line failed' > wanted_text
check 'make stops at a crate that fails' ended 2 wanted_text err
{ seq 80 99; echo 'make: vbi_line failed; crates/vbi_line/out/make.log has all that the toolchain said'; } > wanted
head -n 21 err > found
check 'the end of the log stands above its name' cmp found wanted
check 'the status is that of the toolchain' [ "$(sed -n '22s/.*\(Error [0-9]*\)$/\1/p' err)" = 'Error 7' ]

# What is built is built anew after a change of a source of its crates, and after no other one.
made source -pq ldvbi
while read -r target crates; do
    sed -n "s/^$target: //p" out | head -n 1 | tr ' ' '\n' | sort > found
    { echo crates.txt; cd source && git ls-files $crates | grep -v txt; } | sort -u > wanted
    check "$target is built anew after a change of a source alone" cmp found wanted
done << END
ldvbi crates
libldvbi.a $(printf 'crates/%s ' $library_crates)
END

# The library is linked of the whole archive, which needs nothing that nobody has.
while IFS='|' read -r body wanted_status said; do
    rm -f source/libldvbi.so*
    echo "int ldvbi_absent(void); int ldvbi_one(void); int ldvbi_one(void) { return $body; }" > one.c
    rm -f source/libldvbi.a
    bounded "${CC:-cc}" -fPIC -c -o one.o one.c && ar rc source/libldvbi.a one.o
    made source lib
    [ "$status" != 0 ] || { nm -D source/libldvbi.so; readelf -dW source/libldvbi.so; } > err
    check "the library of an archive that needs $body" [ "$status $(grep -o "$said" err | sort -u | paste -s -d ,)" = \
        "$wanted_status" ]
done << 'END'
1|0 BIND_NOW,T ldvbi_one,soname: [libldvbi.so.3]|T .*\|soname: .*\|BIND_NOW\|[Uw] .*
ldvbi_absent()|2 undefined reference|undefined reference
END

# `make clean` takes away what was built, and leaves the source.
(cd source && mkdir -p dist/a .venv/a rust/out/a rust/x86_64-pc-windows-gnu crates/vbi_c/out)
holding rust/libldvbi.dylib
made source clean
check 'make clean leaves the source' [ "$status$(git -C source status --porcelain)" = 0 ]

# The words of make mutants
holding tests/mutants.py
echo 'import sys; print(*sys.argv)' > source/tests/mutants.py
NPROC=3
while IFS='|' read -r words said; do
    made source $words
    echo "tests/mutants.py --jobs 3$said" > wanted_text
    judge "make $words" 0 wanted_text ''
done << 'END'
mutants|
mutants PART=4 FOLDER=python/a AGAIN=x| --part 4 --folder python/a --again x
END
finish
