#!/bin/sh
# Makes a package of Debian's of what `make install` has put below a folder: `make deb` does so. The package of the same
# files is the same byte for byte. Its date is that of the version in CHANGELOG.md. MAINTAINER names who answers for it.
# usage: sh packaging/make_deb.sh FROM FOLDER VERSION TO     (FROM is proved or rust; FOLDER has usr, and gets the rest)
set -eu
umask 022

top=$(cd "$(dirname "$0")/.." && pwd)
from=$1
folder=$2
version=$3
architecture=$(dpkg --print-architecture)
package=ldvbi_${version}_$architecture.deb
maintainer=${MAINTAINER:-the ldvbi contributors <ldvbi@example.org>}
documents=$folder/usr/share/doc/ldvbi
day=$(sed -n "s/^## $version (\(.*\))$/\1/p" "$top/CHANGELOG.md")
[ "$day" ] || { echo "make deb: CHANGELOG.md has no date of version $version" >&2; exit 1; }
SOURCE_DATE_EPOCH=$(date -u -d "$day" +%s)
export SOURCE_DATE_EPOCH

# depends: what is needed: by the latest symbol of the C library, and by what Rust's own library unwinds with
depends() {
    files="$folder/usr/bin/ldvbi $(find "$folder/usr/lib" -name 'libldvbi.so.*' -type f)"
    # shellcheck disable=SC2086
    printf 'libc6 (>= %s), ' "$(grep -aoh 'GLIBC_2[.][0-9]*' $files | sort -uV | tail -n 1 | sed 's/GLIBC_//')"
    # shellcheck disable=SC2086
    ! grep -aq 'libgcc_s[.]so[.]1' $files || printf 'libgcc-s1, '
    sed -n 's/^requires-python = ">=\(.*\)"$/python3 (>= \1)/p' "$top/pyproject.toml"
}

strip --strip-unneeded "$folder/usr/bin/ldvbi" "$folder"/usr/lib/*/libldvbi.so.?
strip -g --enable-deterministic-archives "$folder"/usr/lib/*/libldvbi.a
chmod 644 "$folder"/usr/lib/*/libldvbi.so.?
gzip -9n "$folder"/usr/share/man/man1/*.1
# In a package of Debian's this file stands for LICENSE.
rm "$documents/LICENSE"
install -m 644 "$top/packaging/copyright" "$documents"
gzip -9nc > "$documents/changelog.Debian.gz" << END
ldvbi ($version) unstable; urgency=medium

  * CHANGELOG.md beside this file says what has changed.

 -- $maintainer  $(date -uR -d "$day")
END
install -D -m 644 "$top/packaging/lintian-overrides" "$folder/usr/share/lintian/overrides/ldvbi"
mkdir -p "$folder/DEBIAN" "$4"
cat > "$folder/DEBIAN/control" << END
Package: ldvbi
Version: $version
Architecture: $architecture
Maintainer: $maintainer
Installed-Size: $(du -sk "$folder/usr" | cut -f 1)
Depends: $(depends)
Section: video
Priority: optional
Description: code words of LaserDiscs in digitised video
 A disc numbers its pictures on lines that no television shows. ldvbi reads
 these lines from the TBC files that ld-decode makes of a capture, and
 ldvbi-side says whether a capture of a side is whole, which pictures are
 lost, and in which fields the others are. The library for C and the module
 for Python come with them.
 .
$(if [ "$from" = rust ]; then echo ' This is the plain Rust build, which is tested and not proved.'
else echo ' This is the proved build.'; fi)
END
echo "libldvbi 1 ldvbi (>= $version)" > "$folder/DEBIAN/shlibs"
echo 'activate-noawait ldconfig' > "$folder/DEBIAN/triggers"
printf '#!/bin/sh\nset -e\n%s\n' 'py3compile -p ldvbi /usr/share/ldvbi' > "$folder/DEBIAN/postinst"
# What Python has compiled is no file of the package.
printf '#!/bin/sh\nset -e\n%s\n' \
    'find /usr/share/ldvbi -name __pycache__ -prune -exec rm -r {} +' > "$folder/DEBIAN/prerm"
chmod 755 "$folder/DEBIAN/postinst" "$folder/DEBIAN/prerm"
(cd "$folder" && find usr -type f -exec md5sum {} + | LC_ALL=C sort -k 2) > "$folder/DEBIAN/md5sums"
dpkg-deb --root-owner-group -Zxz --build "$folder" "$4/$package" > /dev/null
echo "$4/$package"
