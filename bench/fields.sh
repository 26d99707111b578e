#!/bin/sh
# Microseconds of a feeder that takes 32 fields in one piece beside `extract` over the same bytes, and of `draw` of 128
# fields beside a plain writer, in memory. Works in a folder of its own.
set -eu
here=$(cd "$(dirname "$0")" && pwd)
command -v rt > /dev/null || { echo "bench: rt isn't there" >&2; exit 1; }
work=$(mktemp -d)
trap 'rm -rf "$work"' EXIT
mkdir -p "$work/crates/field_bench/src"
for crate in vbi_words vbi_line vbi_near vbi_field; do
    cp -r "$here/../crates/$crate" "$work/crates/"
done
cp "$here/fields.rattle" "$work/crates/field_bench/src/main.rt"
cat > "$work/crates.txt" << 'END'
vbi_words:
vbi_line: vbi_words byteorder
vbi_near: vbi_words vbi_line
vbi_field: vbi_words vbi_line vbi_near arrayvec itoa
field_bench: vbi_words vbi_line vbi_field
END
(cd "$work/crates/field_bench" && rt run > "$work/log" 2>&1) || { cat "$work/log" >&2; exit 1; }
"$work/crates/field_bench/out/field_bench" > "$work/said"
for name in feeder draw; do
    awk -v name=$name '
        $1 != name { next }
        !rounds++ || $2 < ours { ours = $2 }
        rounds == 1 || $3 < plain { plain = $3 }
        END { printf "%s in memory: best %d us beside %d us, ratio %.2f\n", name, ours, plain, ours / plain }' \
        "$work/said"
done
