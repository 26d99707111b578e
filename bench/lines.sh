#!/bin/sh
# Nanoseconds per line of `read_line` beside a plain reader in Rust on the same lines, in turn. Works in a folder of
# its own.
set -eu
here=$(cd "$(dirname "$0")" && pwd)
for tool in rt rustc; do
    command -v $tool > /dev/null || { echo "bench: $tool isn't there" >&2; exit 1; }
done
work=$(mktemp -d)
trap 'rm -rf "$work"' EXIT
mkdir -p "$work/crates/line_bench/src"
cp -r "$here/../crates/vbi_words" "$here/../crates/vbi_line" "$work/crates/"
cp "$here/read_line.rattle" "$work/crates/line_bench/src/main.rt"
printf 'vbi_words:\nvbi_line: vbi_words byteorder\nline_bench: vbi_words vbi_line\n' > "$work/crates.txt"
rustc -O -o "$work/plain" "$here/plain_lines.rs"
(cd "$work/crates/line_bench" && rt run > "$work/log" 2>&1) || { cat "$work/log" >&2; exit 1; }
for turn in 1 2 3; do
    "$work/crates/line_bench/out/line_bench" | sed 's/^/ours /' >> "$work/said"
    "$work/plain" | sed 's/^/plain /' >> "$work/said"
done
awk '
    NR > 1 && $4 != sum { differ = 1 }
    { lines = $2; sum = $4 }
    !turns[$1]++ || $3 < best[$1] { best[$1] = $3 }
    END {
        if (differ || turns["ours"] != turns["plain"]) { print "bench: the readers differ"; exit 1 }
        printf "read_line best %.0f ns a line, plain reader %.0f ns a line, ratio %.2f\n",
            best["ours"] * 1000 / lines, best["plain"] * 1000 / lines, best["ours"] / best["plain"]
    }' "$work/said"
