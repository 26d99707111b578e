#!/bin/sh
# Tests that lines, files, functions, folders, modules, names and commits are as CONTRIBUTING.md says (sources.py), and
# in a small tree that others are seen.
# usage: sh tests/cli/sources.sh PROGRAM
# runs: everywhere
# fails where: README.md|1s/.*/&&&&&&&&&&&&&&&&&&&&/

. "$(dirname "$0")/../helpers.sh"

# looked_at FOLDER NAME: runs a check there
looked_at() {
    status=0
    (cd "$1" && bounded python3 "$tests/sources.py" "$2") < empty > out 2> err || status=$?
    [ "$status" = 0 ]
}
for name in lines lengths functions folders modules names subjects; do
    check "$name of the source" looked_at "$top" $name
done

mkdir -p tree/out tree/crates/one/src tree/crates/two/specs tree/crates/two/src tree/crates/two_tests/src
cd tree || exit
# text COUNT LINE: a line as often
text() {
    yes "$2" | head -n "$1"
}
long=$(text 60 éé | tr -d '\n')
printf '%s\n' "$long" "x$long" "| x$long" '```text' "x$long" '```' > a.md
echo "x$long" > out/a.md
{ echo 'def short():'; text 44 '    pass'; echo 'def long():'; text 45 '    pass'; text 310 '# a'; } > a.py
text 400 '# a' > b.py
echo "x$long" > b.md
{
    printf '%s\n' 'use crate::c::{C, D};' 'pub fn short()' '    ensures { a }' '{'
    text 45 '    a;'
    printf '%s\n' '}' 'impl A {' '    fn long(a: u32) -> u32 {'
    text 46 '        a;'
    printf '%s\n' '    }' '}' 'pub struct One;'
} > crates/one/src/a.rt
printf '%s\n' 'use crate::{a::A, lib};' '// crate::d' 'pub struct Two;' > crates/one/src/b.rt
printf '%s\n' 'use crate::{' '    b::B,' '};' 'pub struct Counted;' > crates/one/src/c.rt
printf '%s\n' 'use crate::a;' 'pub struct Counted;' 'pub(crate) struct One;' 'pub enum Two {' > crates/one/src/d.rt
for number in $(seq 41); do
    echo > crates/two/specs/a$number.antt
    [ "$number" = 41 ] || echo > crates/two/src/a$number.rt
done
echo 'pub struct Two;' > crates/two_tests/src/a.rt
cp -r . ../checkout
cd ../checkout || exit
git init -q
git add a.md
for subject in 'a: b' 'no area' "a/b.py: $(text 64 x | tr -d '\n')" "a: $(text 70 x | tr -d '\n')"; do
    git -c user.name=a -c user.email=a commit -q --allow-empty -m "$subject"
done
cd "$work" || exit
while IFS='|' read -r folder name said; do
    looked_at $folder "$name"
    grep -v ': there were [0-9]*$' err | sed "s/x\{70,\}/../" | paste -s -d ';' > seen
    [ "$name" != modules ] || sed 's,crates/one/src/\(.\).rt uses itself by way of others,\1,g; s/;/ /g' -i seen
    check "what is seen of $name in a $folder" [ "$status$(cat seen)" = "1$said" ]
done << 'END'
checkout|lines|a.md:2 has 121 columns
tree|lines|a.md:2 has 121 columns;b.md:1 has 121 columns
tree|lengths|a.py has 401 lines
tree|functions|a.py: long has 46 lines;crates/one/src/a.rt: long has 46 lines
tree|folders|crates/two/specs has 41 files
tree|modules|a b c
tree|names|crates/one/src/d.rt has the name Two of crates/one/src/b.rt
checkout|subjects|the subject 'a: ..' has no area, or 73 columns;the subject 'no area' has no area, or 7 columns
END
finish
