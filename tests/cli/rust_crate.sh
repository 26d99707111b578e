#!/bin/sh
# Tries the script that takes the contracts out of the source, on forms that it doesn't know; and the crate that it
# writes (rust/crate, by `make rust`): no warning, the two ways of `bits_above`, its own interface, its package, and the
# example project.
# usage: sh tests/cli/rust_crate.sh PROGRAM
# runs: rust
# fails where: rust/hand/Cargo.toml|s/^version = .*/version = "0.0.9"/
# shellcheck disable=SC2059

. "$(dirname "$0")/../helpers.sh"

# What the script that takes contracts out says of a file with such a second line
mkdir -p crates/vbi_words/src
while IFS='|' read -r file line why; do
    printf '\n%s' "$line" > "crates/vbi_words/src/$file.rt"
    does python3 "$top/rust/erase.py" crates "$top/rust/hand" crate
    judge "$line" 1 empty "erase.py: crates/vbi_words/src/$file.rt:2: $why"
    rm crates/vbi_words/src/*
done << 'END'
code|    decreases { count }|'decreases' is no keyword that is known
code|lemma small { }|'lemma' is no keyword that is known
code|    ensures { (result ≡ 0|a clause isn't closed
code|ghost use Rattle.std|a ghost line isn't closed
laws|pub fn has_body() { one_outcome() }|a law has a body
code|pub fn differs();|a function has no body
code|const PRINTED: () = print!("");|'print' is no macro that is known
code|#[ensures(true)]|'ensures' is no attribute that is known
code|const SAME: bool = 1 ≡ 1;|'≡' is unknown here
code|fn few() { let Some(_) = None::<u8> }|a let .. else of another form
END

# build.rs has that script write the modules, unless they are there, and says what cargo has to know.
bounded rustc --edition 2021 -o building "$top/rust/hand/build.rs" || exit 1
mkdir -p rust/hand written
cp "$top/rust/erase.py" rust
printf 'pub fn has_body() { one_outcome() }' > crates/vbi_words/src/laws.rt
printf '%s\n' 'cargo:rustc-check-cfg=cfg(one_file)' 'cargo:rerun-if-changed=build.rs' > begun
{ cat begun; printf '%s\n' "cargo:rerun-if-changed=$top/rust/hand/../../crates" 'cargo:rustc-cfg=one_file'; } > all
while IFS='|' read -r name place path ended told said; do
    does env PATH="$path" CARGO_MANIFEST_DIR="$place" OUT_DIR="$work/written" ./building
    check "build.rs $name" [ "$status $(cmp out $told; tr "':" '\n\n' < err | grep -cx "${said:-.*}")" = "$ended" ]
done << END
of the repository|$top/rust/hand|$PATH|0 0|all|
of the crate|$top/rust/crate|$PATH|0 0|begun|
without python3|$top/rust/hand|none|101 1|begun|python3 is needed, which writes the proved source as plain Rust
of a source that is refused|$work/rust/hand|$PATH|101 1|begun|erase.py has said why
END
check 'one file is written' [ "$(ls written)" = modules.rs ]

version=$(sed -n 's/^version = "\(.*\)"$/\1/p' "$top/rust/hand/Cargo.toml")
check 'the version of the crate is that of make' [ "$version" = "$(sed -n 's/^VERSION := //p' "$top/Makefile")" ]

# The crate as it is built
cd "$top/rust/crate" || exit 1
CARGO_TARGET_DIR=$top/rust/out
export CARGO_TARGET_DIR
# quiet COMMAND..: whether a command of cargo succeeds and says nothing
quiet() {
    status=0
    bounded env RUSTFLAGS= "$@" > "$work/out" 2> "$work/err" || status=$?
    ! grep -q '^\(warning\|error\)' "$work/err" && [ "$status" = 0 ]
}
# What it is, its licence, whoever made it and its keywords are those of Python's package, though cargo takes five
# keywords at most; it stands in groups that crates.io has; and who wants the program, asks for it.
wanted=$(sed -n 's/^description = \(".*"\)$/\1/p; s/^license = { text = \(".*"\) }$/\1/p
    s/^authors = \[{ name = \(".*"\) }\]$/[\1]/p' "$top/pyproject.toml")
five=$(sed -n 's/^keywords = \(\[.*\]\)$/\1/p' "$top/pyproject.toml" | jq -c '.[:5]')
bounded cargo metadata --quiet --no-deps --format-version 1 > "$work/out" 2> "$work/err"
check 'what cargo knows of it' [ "$(jq -c '.packages[0] | .description, .license, .authors, .keywords, .categories,
    (.targets[] | ."required-features" // empty)' "$work/out")" = \
    "$wanted$newline$five$newline[\"multimedia::video\",\"command-line-utilities\"]$newline[\"cli\"]" ]
touch src/lib.rs
while IFS='|' read -r name words; do
    check "$name" quiet $words
done << END
no warning of rustc and clippy|cargo clippy --quiet --all-targets
none of those of the program either|cargo clippy --quiet --all-targets --features cli
nor of what opens sides|cargo clippy --quiet --all-targets --features metadata
none of its documents|cargo doc --quiet --no-deps
it is laid out by rustfmt|cargo fmt --check
bits_above is compiled in each of its ways|sh $here/bits_above.sh $work
that of x86-64 is the plain loop|$work/x86-64
so is that of 64-bit ARM|$work/arm-64
the example in its documents|cargo test --doc --quiet
its interface on drawn sides|cargo test --quiet --tests
sides that it opens|cargo test --quiet --features metadata --test opened
END
# docs/RUST.md names the files with unsafe code. In all others the compiler denies it.
check 'unsafe code stands in four files' [ "$(cd "$top/rust/hand/src" && grep -lw unsafe ./* | tr '\n' ' ')" = \
    './bits_above.rs ./exports.rs ./opened.rs ./system.rs ' ]
check 'a panic ends the process' sh -c "cargo rustc --quiet --release --lib -- --print cfg | grep -qx 'panic=\"abort\"'"
# Who takes the library takes none of what the program alone needs.
bounded cargo tree --quiet --edges normal --prefix none > "$work/out" 2> "$work/err"
check 'the library needs no clap and no serde_json' \
    [ "$(grep -o '^\(byteorder\|clap\|serde_json\|arrayvec\|itoa\) v' "$work/out" | tr '\n' ' ')" \
    = 'arrayvec v byteorder v itoa v ' ]

# Nothing of the source is unused by the program and the libraries, but for what users of its crates were promised: a
# stream in pieces, a line by itself, and what lines, intakes and outlets have counted; and but for the stand of a line
# that has no other beside it, which definitions name, and which the code tells by a function of its own. No call
# stands on the story of a side yet.
while read -r file names; do
    for name in $names; do echo "src/$file $name"; done
done << 'END' | sort > "$work/promised"
field/feeder.rs copy_front copy_in take_bytes Feeder begin feed finish
field/summary.rs Failed
field/outlet.rs failures errors
field/row_intake.rs fetched failures errors
line/counted.rs failures errors
line/intake.rs outcome clear_line passes fetched failures errors
line/line.rs passes looks
line/outcome.rs read_line
near/word_rule.rs Alone
END
cp -r . "$work/judged"
sed 's/allow(dead_code, /allow(/' src/lib.rs > "$work/judged/src/lib.rs"
(cd "$work/judged" && bounded env RUSTFLAGS= cargo check --quiet --lib --features cli --message-format json) |
    jq -r 'select(.reason == "compiler-message").message | select(.code.code == "dead_code").spans[]
        | select(.is_primary) | "\(.file_name) \(.text[0] | .text[.highlight_start - 1:.highlight_end - 1])"' |
    grep -v '^src/story/' | sort > "$work/unused"
check 'nothing is unused but what is promised' cmp -s "$work/promised" "$work/unused"

# The package, which has nothing of this machine, and builds by itself. As a repository others depend on it by git.
sources=
[ ! -d .cargo ] || sources=$PWD/.cargo
check 'it is packed' quiet cargo package --quiet --no-metadata --allow-dirty
tar -C "$work" -xzf "$CARGO_TARGET_DIR/package/ldvbi-$version.crate" || exit 1
check 'the package is the crate' [ "$(cd "$work/ldvbi-$version" && find . -type f ! -name 'Cargo.*' | sort)" = \
    "$(find . -type f ! -name 'Cargo.*' ! -path './.cargo/*' | sort)" ]
check 'it has the licence' cmp -s "$top/LICENSE" "$work/ldvbi-$version/LICENSE"
git init -q "$work/ldvbi-$version"
git -C "$work/ldvbi-$version" add -A
git -C "$work/ldvbi-$version" -c user.name=test -c user.email=test@localhost commit -qm crate || exit 1

# The repository's own address: no `make` has been before, and python3 writes the modules.
git init -q "$work/repository"
(cd "$top" && tar -cf - --exclude=out crates rust/hand rust/erase.py) | tar -C "$work/repository" -xf - || exit 1
git -C "$work/repository" add -A
git -C "$work/repository" -c user.name=test -c user.email=test@localhost commit -qm repository || exit 1
bounded cargo new --quiet --vcs none "$work/asking"
[ ! "$sources" ] || cp -r "$sources" "$work/asking"
printf '%s\n' 'fn main() { println!("{:?}", ldvbi::System::named("PAL")); }' > "$work/asking/src/main.rs"
cd "$work/asking" || exit 1
check 'cargo adds the repository' \
    quiet env ${sources:+CARGO_HOME="$work/home"} cargo add --quiet --git "file://$work/repository" ldvbi
check 'and a project is built on it' quiet env ${sources:+CARGO_HOME="$work/home"} cargo run --quiet
check 'and runs' grep -qx 'Some(Pal)' "$work/out"

# The example project: a player, with the crate by its path, and by git
cp -r "$top/examples/rust" "$work/example"
[ ! "$sources" ] || cp -r "$sources" "$work/example"
cd "$work/example" || exit 1
manifest=$(cat Cargo.toml)
# depends ON: makes the crate that which these words name
depends() {
    printf '%s\n' "$manifest" | sed "s|{ path = \"../../rust/crate\", .* }|{ $1 }|" > Cargo.toml
}
depends "git = \"file://$work/ldvbi-$version\", features = [\"metadata\"]"
check 'a project that depends on it by git' quiet env ${sources:+CARGO_HOME="$work/home"} cargo check --quiet
depends "path = \"$top/rust/crate\", features = [\"metadata\"]"
check 'no warning of the example project' quiet cargo clippy --quiet
check 'the example project is built' quiet cargo build --quiet
player=$CARGO_TARGET_DIR/debug/player
cd "$work" || exit 1

# What it answers of drawn sides is tried by tests/cli/rust_answers.sh; here what it plays, and what it refuses.
bounded sh "$top/examples/side.sh" "$program" || exit 1
head -c 100 side.tbc > cut.tbc
cp side.tbc absent.tbc
printf '%s\n' '- F00001 F00001' '- 800DDD 800DDD' '- F00002 F00002' '- 800DDD 800DDD' '82CFFF 82CFFF F00003' \
    '82CFFF 82CFFF 800DDD' '82CFFF 82CFFF F00004' '82CFFF 82CFFF 800DDD' '- F00005 F00005' > twice.words
output_of draw $ntsc twice.words > twice.tbc
for name in twice cut; do cp side.tbc.json $name.tbc.json; done
while IFS='|' read -r ended words played said; do
    printf "$played" > wanted_text
    said_line "${said:+player: $said}"
    does "$player" $words
    check "the player: $words" ended $ended wanted_text wanted
done << END
0|side.tbc search 30 play search 7 play still chapter 0|search: field 65 picture 30\nplay: field 97 picture 46\n\
search: field 21 picture 7\nplay: field 33 picture 17\nstill: field 33 picture 17\nchapter: field 10\n|
1|side.tbc search 10 search 79999 chapter 1 next next previous chapter 3|search: not found, field 25 picture 9\n\
search: not found, field 109 picture 52\nchapter: field 36\nnext: field 78\nnext: not found\n\
previous: field 36\nchapter: not found\n|
1|twice.tbc play play play|play: field 5 picture 3\nplay: field 7 picture 4\nplay: not found\n|
2|side.tbc search||usage: player FILE search PLACE, chapter N, next, previous, play, still ..
2|side.tbc search 1:2||neither a picture nor a time: 1:2
2|side.tbc stop||no such command: stop
2|cut.tbc play||cut.tbc: a field has 478660 bytes, and these are 100
2|absent.tbc play||absent.tbc.json: No such file or directory (os error 2)
END
does ${CC:-cc} -shared -fPIC -I"$top/include" -o advised.so "$tests/library/advised.c" -ldl
does env ADVISED=advice LD_PRELOAD="$work/advised.so" "$player" side.tbc search 30
check 'the player: nothing is read ahead' [ "$(head -n 1 advice)" = "random 0 $(wc -c < side.tbc)" ]
# A pipe that nobody named stands in the place of the metadata: nobody waits for it.
mkfifo absent.tbc.json
said_line 'ldvbi: absent.tbc.json: cannot read metadata'
does "$program" extract absent.tbc
judge 'extract beside a pipe' 1 empty "$(cat wanted)"
# The pipe is closed before the player writes.
{ sleep 1; "$player" side.tbc search 30 play 2> err; echo $? > piped; } | :
check 'the player: a closed pipe' [ "$(cat piped; cat err)" = 141 ]
finish
