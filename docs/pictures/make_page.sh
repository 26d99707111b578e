#!/bin/sh
# Makes README's picture of a page, page.png: the upper part of what `ldvbi-side --html` writes of the side that
# examples/side.sh draws. It needs the library, and Debian's package chromium.
# usage: sh docs/pictures/make_page.sh PROGRAM FOLDER
set -eu

program=$(cd "$(dirname "$1")" && pwd)/$(basename "$1")
top=$(cd "$(dirname "$0")/../.." && pwd)
folder=$(cd "$2" && pwd)
work=$(mktemp -d)
trap 'rm -rf "$work"' EXIT
cd "$work"

sh "$top/examples/side.sh" "$program"
PYTHONDONTWRITEBYTECODE=1 "$top/python/ldvbi-side" side.tbc --html side.html
# Chromium keeps what it remembers below HOME.
HOME=$work chromium --headless --no-sandbox --disable-gpu --hide-scrollbars --window-size=1300,890 \
    --screenshot="$folder/page.png" "file://$work/side.html" 2> chromium.err || { cat chromium.err >&2; exit 1; }
