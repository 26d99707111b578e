#!/bin/sh
# What the wheel of the Python module and the package of Debian's say of themselves, byte for byte, and what each is
# made of: what pip and dpkg read of it. Which files they have packaging.sh says, and installed.sh installs the wheel.
# Needs libldvbi.a and libldvbi.so.3 beside the program, or at the top of the repository (`make lib`).
# usage: sh tests/library/packed.sh PROGRAM
# runs: library rust
# fails where: packaging/make_deb.sh|s/^Section: video/Section: sound/

. "$(dirname "$0")/../helpers.sh"
. "$here/library_helpers.sh"

export PYTHONDONTWRITEBYTECODE=1
version=$(sed -n 's/^VERSION := //p' "$top/Makefile")
date=$(sed -n "s/^## $version (\(.*\))$/\1/p" "$top/CHANGELOG.md")
processor=$(uname -m)
make_wheel="$top/packaging/make_wheel.py"

# ---- The wheel

does python3 "$make_wheel" "$built/libldvbi.so.3" one
check 'the path of the wheel is printed' [ "$(cat out)" = "$(echo one/ldvbi-$version-py3-none-*_$processor.whl)" ]
tag=$(basename one/*.whl .whl | cut -d - -f 3-)
check 'it is the same each time' cmp "$(cat out)" "$(python3 "$make_wheel" "$built/libldvbi.so.3" two)"
(mkdir wheel && cd wheel && bounded python3 -m zipfile -e ../one/*.whl .)
about=wheel/ldvbi-$version.dist-info
cat > wanted << END
Metadata-Version: 2.1
Name: ldvbi
Version: $version
Summary: The code words of LaserDiscs in digitised video: picture numbers, chapters, running times, stops
Author: the ldvbi contributors
License: MIT OR Apache-2.0
Keywords: laserdisc,ld-decode,tbc,vbi,video,preservation
Classifier: Development Status :: 4 - Beta
Classifier: Environment :: Console
Classifier: License :: OSI Approved :: Apache Software License
Classifier: License :: OSI Approved :: MIT License
Classifier: Operating System :: POSIX :: Linux
Classifier: Programming Language :: Python :: 3
Classifier: Topic :: Multimedia :: Video
Requires-Python: >=3.9
Description-Content-Type: text/markdown

END
# A line of README that is nothing but a mark goes with its end.
sed '/^<!--.*-->$/d; s/<!--[^>]*-->//g' "$top/README.md" >> wanted
check 'its metadata' cmp wanted $about/METADATA
printf '[console_scripts]\nldvbi-side = ldvbi_side.__main__:main\n' > wanted
check 'its command' cmp wanted $about/entry_points.txt
printf '%s\n' 'Wheel-Version: 1.0' "Generator: ldvbi $version" 'Root-Is-Purelib: false' "Tag: $tag" > wanted
check 'what it says of itself' cmp wanted $about/WHEEL
while read -r here_is there; do
    check "it has $there" cmp "wheel/$here_is" "$top/$there"
done << END
ldvbi-$version.dist-info/LICENSE LICENSE
ldvbi-$version.data/data/share/man/man1/ldvbi-side.1 share/man/ldvbi-side.1
END
cp -r wheel/ldvbi wheel/ldvbi_side "$work"
rm ldvbi/libldvbi.so.3
(cd "$top/python" && find ldvbi ldvbi_side -name '*.py' | sort | xargs cat) > sources
find ldvbi ldvbi_side -type f | sort | xargs cat > found
check 'its modules are those of the source' cmp sources found
does python3 -c 'import base64, hashlib, pathlib, sys
for path in pathlib.Path("wheel").rglob("*"):
    if path.is_file() and path.name != "RECORD":
        data = path.read_bytes()
        digest = base64.urlsafe_b64encode(hashlib.sha256(data).digest()).decode().strip("=")
        print(path.relative_to("wheel"), "sha256=" + digest, len(data), sep=",")
    elif path.is_file():
        print(path.relative_to("wheel"), "", "", sep=",")'
sort out > wanted
check 'its record has the hash of each file' sh -c "sort $about/RECORD | cmp wanted -"
does python3 -c 'import sys, zipfile
for one in zipfile.ZipFile(sys.argv[1]).infolist():
    print(*one.date_time, one.compress_type, "%o" % (one.external_attr >> 16), ".so" in one.filename)' one/*.whl
check 'its files are of one time, deflated, and for all' [ "$(sort -u out)" = '2026 1 1 0 0 0 8 100644 False
2026 1 1 0 0 0 8 100755 True' ]

# The rule of auditwheel: what a library may need, by what readelf says of it. The last row is of no 64-bit processor.
mkdir bin
stub bin/readelf 'printf "%b" "$SAID"'
echo 'import sys
sys.path.insert(0, sys.argv[1])
import make_wheel
print(make_wheel.tag_of(sys.argv[2]))' > tag.py
while IFS='|' read -r tag needed versions isa; do
    SAID=
    for one in $needed; do SAID="$SAID 0x01 (NEEDED) Shared library: [$one]\n"; done
    for one in $versions; do SAID="$SAID 0x0010: Name: $one  Flags: none  Version: 2\n"; done
    export SAID="$SAID${isa:+      Properties: x86 ISA needed: $isa\n}"
    check "the tag is $tag: $needed $versions $isa" prints 0 "py3-none-${tag}_$processor" \
        env PATH="$work/bin:$PATH" python3 tag.py "${make_wheel%/*}" "$built/libldvbi.so.3"
done << 'END'
manylinux_2_17|||
manylinux_2_17|libc.so.6 libm.so.6 librt.so.1 libdl.so.2 libpthread.so.0 libgcc_s.so.1 ld-linux-x86-64.so.2|GLIBC_2.2.5|
manylinux_2_28|libc.so.6|GLIBC_2.4 GLIBC_2.28 GLIBC_2.3.4 GCC_3.0|x86-64-baseline
manylinux_2_100|libc.so.6|GLIBC_2.100 GLIBC_2.17|
linux|libstdc++.so.6||
linux|libc.so.6 libz.so.1||
linux|libc.so.7||
linux|libm.so.66||
linux|xlibm.so.6||
linux|libc.so.6|GLIBC_2.17 CXXABI_1.3|
linux|||x86-64-v2
linux|||x86-64-baseline, x86-64-v9
END
! does env _PYTHON_HOST_PLATFORM=win-amd64 python3 "$make_wheel" "$built/libldvbi.so.3" tagged
check 'a wheel is of Linux alone' [ "$(cat err)" = 'make_wheel: a wheel is made on Linux, and this is win' ]
stub bin/readelf 'exit 3'
! does env PATH="$work/bin:$PATH" python3 "$make_wheel" "$built/libldvbi.so.3" tagged
check 'what readelf has failed at' [ "$status$(cut -c 1-19 err)" = '1make_wheel: Command' ]

mkdir alone
ln -s "$(python3 -c 'import sys; print(sys.executable)')" alone/python3
check 'without readelf nothing is known of a library' prints 0 "tagged/ldvbi-$version-py3-none-linux_$processor.whl" \
    env PATH="$work/alone" python3 "$make_wheel" "$built/libldvbi.so.3" tagged

# What pip calls: of two libraries that of `make rust`
mkdir -p source/rust
(cd "$top" && cp -r LICENSE README.md packaging pyproject.toml python share "$work/source")
asks_pip() {
    does python3 -c 'import sys
sys.path.insert(0, sys.argv[1] + "/packaging")
import pip_backend
print(pip_backend.build_wheel("by_pip"))' "$work/source"
}
! asks_pip
printf '%s\n' "ldvbi: the library isn't built; in $work/source:" '    make rust && make wheel' \
    '    pip install dist/*.whl' > wanted
check 'without a library two lines say how to get one' cmp wanted err
cp "$built/libldvbi.so.3" source
asks_pip
check 'the name of the wheel' [ "$status $(cat out)" = "0 $(basename one/*.whl)" ]
check 'the library is that of the source' cmp one/*.whl by_pip/*.whl
mv source/libldvbi.so.3 source/rust
echo none > source/libldvbi.so.3
asks_pip
check 'the library of make rust is taken first' cmp one/*.whl by_pip/*.whl

# ---- The package of Debian's

architecture=$(dpkg --print-architecture)
# folder NAME [ARCHIVE]: what `make install` leaves, as far as the package changes it
folder() {
    mkdir -p "$1/usr/bin" "$1/usr/lib/multiarch" "$1/usr/share/man/man1" "$1/usr/share/doc/ldvbi"
    cp "$program" "$1/usr/bin/ldvbi"
    cp "$built/libldvbi.so.3" "${2:-$built/libldvbi.a}" "$1/usr/lib/multiarch"
    cp "$top"/share/man/*.1 "$1/usr/share/man/man1"
    cp "$top/LICENSE" "$1/usr/share/doc/ldvbi"
    chmod -R go+rX,go-w "$1"
}
glibc=$(cat "$program" "$built/libldvbi.so.3" | grep -aoh 'GLIBC_2[.][0-9]*' | sort -uV | tail -n 1 | cut -d _ -f 2)
unwinds=
! grep -aq 'libgcc_s[.]so[.]1' "$program" "$built/libldvbi.so.3" || unwinds='libgcc-s1, '
echo 'int ldvbi_one(void); int ldvbi_one(void) { return 1; } int main(void) { return 0; }' > one.c
bounded $cc -g -c one.c && ar rc libldvbi.a one.o
for from in proved rust; do
    folder $from "$([ $from = proved ] || echo libldvbi.a)"
    umask 077
    maintained=
    [ $from = proved ] || maintained='MAINTAINER=A B <a@b>'
    does env ${maintained:+"$maintained"} sh "$top/packaging/make_deb.sh" $from $from $version to_$from
    umask 022
    package=to_$from/ldvbi_${version}_$architecture.deb
    check "$from: the path of the package is printed" [ "$(cat out)" = "$package" ]
    bounded dpkg-deb -R "$package" unpacked_$from
    maintainer=${maintained#*=}
    said=' This is the proved build.'
    [ $from = proved ] || said=' This is the plain Rust build, which is tested and not proved.'
    cat > wanted << END
Package: ldvbi
Version: $version
Architecture: $architecture
Maintainer: ${maintainer:-the ldvbi contributors <ldvbi@example.org>}
Installed-Size: $(sed -n 's/^Installed-Size: //p' unpacked_$from/DEBIAN/control)
Depends: libc6 (>= $glibc), ${unwinds}python3 (>= 3.9)
Section: video
Priority: optional
Description: code words of LaserDiscs in digitised video
 A disc numbers its pictures on lines that no television shows. ldvbi reads
 these lines from the TBC files that ld-decode makes of a capture, and
 ldvbi-side says whether a capture of a side is whole, which pictures are
 lost, and in which fields the others are. The library for C and the module
 for Python come with them.
 .
$said
END
    check "$from: what it says of itself" cmp wanted unpacked_$from/DEBIAN/control
    printf '%s\n' "ldvbi ($version) unstable; urgency=medium" '' \
        '  * CHANGELOG.md beside this file says what has changed.' '' \
        " -- ${maintainer:-the ldvbi contributors <ldvbi@example.org>}  $(date -uR -d "$date")" > wanted
    gzip -dc < unpacked_$from/usr/share/doc/ldvbi/changelog.Debian.gz > found
    check "$from: its change log" cmp wanted found
done
sizes=$(sed -n 's/^Installed-Size: //p' unpacked_rust/DEBIAN/control)
check 'its size is that of what is installed' [ "$sizes" = "$(du -sk rust/usr | cut -f 1)" ]
cd unpacked_proved || exit 1
(find . -type d -printf '%m %p\n'; find . -type f -printf '%m %p\n') | sort > ../found
sort > ../wanted << 'END'
644 ./DEBIAN/control
644 ./DEBIAN/md5sums
755 ./DEBIAN/postinst
755 ./DEBIAN/prerm
644 ./DEBIAN/shlibs
644 ./DEBIAN/triggers
755 .
755 ./DEBIAN
755 ./usr
755 ./usr/bin
755 ./usr/bin/ldvbi
755 ./usr/lib
755 ./usr/lib/multiarch
644 ./usr/lib/multiarch/libldvbi.a
644 ./usr/lib/multiarch/libldvbi.so.3
755 ./usr/share
755 ./usr/share/doc
755 ./usr/share/doc/ldvbi
644 ./usr/share/doc/ldvbi/changelog.Debian.gz
644 ./usr/share/doc/ldvbi/copyright
755 ./usr/share/lintian
755 ./usr/share/lintian/overrides
644 ./usr/share/lintian/overrides/ldvbi
755 ./usr/share/man
755 ./usr/share/man/man1
644 ./usr/share/man/man1/ldvbi-side.1.gz
644 ./usr/share/man/man1/ldvbi.1.gz
END
cd ..
check 'its files, with their modes' cmp wanted found
check 'each is for all, and of root' [ "$(dpkg-deb -c to_proved/*.deb | awk '{ print $2 }' | sort -u)" = root/root ]
(cd unpacked_proved && find usr -type f -exec md5sum {} + | LC_ALL=C sort -k 2) > wanted
check 'their sums' cmp wanted unpacked_proved/DEBIAN/md5sums
while IFS='|' read -r file text; do
    printf '%b' "$text" > wanted
    check "its $file" cmp wanted unpacked_proved/DEBIAN/$file
done << END
shlibs|libldvbi 1 ldvbi (>= $version)\n
triggers|activate-noawait ldconfig\n
postinst|#!/bin/sh\nset -e\npy3compile -p ldvbi /usr/share/ldvbi\n
prerm|#!/bin/sh\nset -e\nfind /usr/share/ldvbi -name __pycache__ -prune -exec rm -r {} +\n
END
sed 's/^    //' > wanted << 'END'
    Format: https://www.debian.org/doc/packaging-manuals/copyright-format/1.0/
    Upstream-Name: ldvbi

    Files: *
    Copyright: 2026 the ldvbi contributors
    License: MIT or Apache-2.0

    License: MIT
     The MIT License (SPDX: MIT), whose text https://spdx.org/licenses/MIT.html has.
     Whoever publishes this package puts that text here.

    License: Apache-2.0
     Licensed under the Apache License, Version 2.0. On Debian systems its text is
     in /usr/share/common-licenses/Apache-2.0.
END
check 'who has it, and on what terms' cmp wanted unpacked_proved/usr/share/doc/ldvbi/copyright
printf 'ldvbi: %s *\n' link-to-shared-library-in-wrong-package package-name-doesnt-match-sonames \
    shared-library-lacks-prerequisites wrong-name-for-changelog-of-native-package > wanted
grep -v '^#' unpacked_proved/usr/share/lintian/overrides/ldvbi > found
check 'what lintian is to leave' cmp wanted found
for page in ldvbi ldvbi-side; do
    gzip -dc < unpacked_proved/usr/share/man/man1/$page.1.gz > found
    check "the manual of $page" cmp "$top/share/man/$page.1" found
done
# A program and a library with all that a debugger wants, of which the library alone unwinds
folder known libldvbi.a
bounded $cc -g -o known/usr/bin/ldvbi one.c
bounded $cc -g -shared -fPIC -o known/usr/lib/multiarch/libldvbi.so.3 one.c -Wl,--no-as-needed -lgcc_s
cp -r known again
umask 077
does sh "$top/packaging/make_deb.sh" proved known $version to_known
umask 022
bounded dpkg-deb -R to_known/*.deb unpacked_known
glibc=$(readelf -VW known/usr/bin/ldvbi | grep -o 'GLIBC_2[.][0-9]*' | sort -uV | tail -n 1 | cut -d _ -f 2)
check 'both are asked what they need' grep -qx "Depends: libc6 (>= $glibc), libgcc-s1, python3 (>= 3.9)" \
    unpacked_known/DEBIAN/control
for file in bin/ldvbi lib/multiarch/libldvbi.so.3; do
    nm unpacked_known/usr/$file > found 2> err
    check "$file is stripped" grep -q 'no symbols' err
done
readelf -sSW unpacked_known/usr/lib/multiarch/libldvbi.a | grep -o 'debug_info\|ldvbi_one$' | sort -u > found
check 'the archive has names, and nothing for a debugger' [ "$(cat found)" = ldvbi_one ]
sleep 1
does sh "$top/packaging/make_deb.sh" proved again $version to_again
check 'the package of the same files is the same, whatever mode new files get' cmp to_known/*.deb to_again/*.deb
folder other
! does sh "$top/packaging/make_deb.sh" proved other 0.0.0 to_other
check 'a version that the change log has not' \
    [ "$status $(cat err) $(ls to_other 2> /dev/null)" = '1 make deb: CHANGELOG.md has no date of version 0.0.0 ' ]
! does sh "$top/packaging/make_deb.sh" proved absent $version to_absent
check 'a folder that is not there' [ "$status$(cat out)" = 1 ]
finish
