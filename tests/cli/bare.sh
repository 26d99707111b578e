#!/bin/sh
# Tries the set-up of somebody who has nothing: on a bare Debian 12 in a folder of its own, README's first two commands,
# of the source of the last commit, lead to `ldvbi-side` of a drawn side. What these took of a processor it says on
# standard error. Then the package of Debian's of what was built is installed on another bare Debian, used, and removed.
# Needs root, debootstrap and a mirror of Debian (MIRROR); where one of them is missing, that is left out.
# usage: sh tests/cli/bare.sh PROGRAM     (the program is never run)
# runs: whole
# fails where: README.md|/^make rust && make venv$/d

. "$(dirname "$0")/../helpers.sh"

# Downloads and cargo take longer than other runs.
seconds=1800
mirror=${MIRROR:-http://deb.debian.org/debian}

sed -n '/^```sh skip$/,/^```$/{/^```$/q;/^```/d;p;}' "$top/README.md" > setup.sh
check "README's set-up has two commands" [ "$(grep -c '^[a-z]' setup.sh) $(tail -n 1 setup.sh)" = \
    '2 make rust && make venv' ]
has_mirror() {
    bounded python3 -c 'import sys, urllib.request; urllib.request.urlopen(sys.argv[1], timeout=20)' \
        "$mirror/dists/bookworm/Release" 2> /dev/null
}
if [ "$(id -u)" != 0 ] || ! command -v debootstrap > /dev/null || ! unshare --mount true || ! has_mirror; then
    echo 'bare: there is no root, no debootstrap, or no mirror of Debian' >&2
    leave_out 9
    finish
fi

# in_bare FOLDER COMMAND: runs a command of the shell with this folder as its root and an empty home. What is mounted
# goes with the process.
in_bare() {
    does unshare --mount sh -c 'mount -t proc proc "$1/proc" && exec env -i HOME=/nowhere \
        DEBIAN_FRONTEND=noninteractive PATH=/usr/local/bin:/usr/sbin:/usr/bin:/sbin:/bin \
        chroot "$1" bash -c "cd /src && $2"' sh "$1" "$2"
}
check 'a bare Debian' does unshare --mount debootstrap --variant=minbase bookworm one "$mirror"
cp /etc/resolv.conf one/etc
echo 'APT::Get::Assume-Yes "true";' > one/etc/apt/apt.conf.d/90yes
echo force-unsafe-io > one/etc/dpkg/dpkg.cfg.d/fast
stub one/usr/local/bin/sudo 'exec "$@"'
mkdir one/src
in_bare one 'apt-get update'
cp -a one two

git -C "$top" archive HEAD | tar -xf - -C one/src
cp setup.sh one/src
check "README's two commands" in_bare one 'TIMEFORMAT="%U %S"; time sh -e setup.sh'
echo "bare: the set-up took $(tail -n 1 err | awk '{ printf "%d", $1 + $2 }') s of a processor" >&2
in_bare one 'sh examples/side.sh rust/ldvbi && .venv/bin/ldvbi-side side.tbc'
check 'ldvbi-side of a drawn side' [ "$status $(head -n 1 out)" = "1 $(grep -m 1 '^whole: ' "$top/README.md")" ]

check 'make deb FROM=rust' in_bare one 'make -s deb FROM=rust'
cp one/src/dist/ldvbi_*.deb one/src/side.tbc* two/src
check 'the package is installed with what it depends on' in_bare two 'apt-get install --no-install-recommends ./*.deb'
check 'its program' in_bare two 'ldvbi extract side.tbc > side.vbi.json'
in_bare two 'ldvbi-side side.tbc'
check 'its command' [ "$status $(head -n 1 out)" = "1 $(grep -m 1 '^whole: ' "$top/README.md")" ]
check "its module, by the system's Python" in_bare two 'python3 -c "import ldvbi, ldvbi_side; ldvbi.find_pace"'
in_bare two 'rm ldvbi_*.deb; apt-get purge ldvbi'
check 'nothing of it is left' [ "$status $(find two -name '*ldvbi*')" = '0 ' ]
finish
