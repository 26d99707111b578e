#!/bin/sh
# Compares the documents with the source, and runs their command blocks in their order, the examples of the manual pages
# and those of the help texts: what they print is what stands there.
#
# A block marked ```sh, ```bash or ```python is run, and has to succeed, each of its commands and each part of a pipe.
# One marked ```text that comes next is what it prints, on standard output and standard error. One marked ```console has
# commands and what they print by turns: a command begins with `$ `, each further line of it with `> `. A block marked
# `skip` as well (```sh skip) is left out, one marked `lib` where the library isn't built; others find no library.
# usage: sh tests/cli/docs.sh PROGRAM
# runs: everywhere
# fails where: README.md|s/^picture 1$/picture 2/

. "$(dirname "$0")/../helpers.sh"

mkdir bin
ln -s "$program" bin/ldvbi
ln -s "$top/python/ldvbi-side" bin/ldvbi-side
PATH=$work/bin:$PATH
PYTHONDONTWRITEBYTECODE=1 LDVBI_LIBRARY=
export PATH PYTHONDONTWRITEBYTECODE LDVBI_LIBRARY
library=$([ ! -e "$built/libldvbi.so.3" ] || echo libldvbi.so.3)

# Cuts a document into files: commands into NAME.NUMBER.sh, .bash or .python, which it prints with their marks, and what
# they print into NAME.NUMBER.text. What it says on standard error is a fault of the document.
cat > cut.py << 'END'
import re, sys
name, path = sys.argv[1:]
BLOCK = re.compile(r"^```(.*)\n((?:.*\n)*?)```$", re.M)
text, number, kind = open(path, encoding="utf-8").read(), 0, ""
for mark, body in BLOCK.findall(text):
    before, (kind, _, how) = kind, mark.partition(" ")
    if not re.fullmatch("text|c|rust|words|(sh|bash|console|python)( skip| lib)?", mark):
        print("a block with the mark", mark, file=sys.stderr)
    if kind in ("sh", "bash", "console", "python"):
        number += 1
        begin = "%s.%02d." % (name, number)
        file = begin + kind.replace("console", "sh")
        print(file, how)
        open(file, "w").write("".join(re.findall("^[$>] (.*\n)", body, re.M)) if kind == "console" else body)
        if kind == "console":
            open(begin + "text", "w").write(re.sub("^[$>] .*\n", "", body, flags=re.M))
    elif kind == "text" and before in ("sh", "bash", "python"):
        open(begin + "text", "w").write(body)
if "```" in BLOCK.sub("", text):
    print("a block without its end, or a mark that doesn't begin its line", file=sys.stderr)
END

# folder NAME: makes a folder in which commands of documents run, with what they name of the repository
folder() {
    mkdir "$1" "$1/rust"
    ln -s "$top/docs" "$top/examples" "$top/include" "$top/python" "$top/share" "$program" "$1"
    ln -s "$program" ${library:+"$built/$library"} "$1/rust"
}

# in_folder NAME COMMAND..: runs a command there
in_folder() {
    status=0
    (cd "$1" && shift && bounded "$@") < empty > out 2>&1 || status=$?
    cp out err
    return "$status"
}

# document PATH FOLDER: runs the blocks of this document in this folder
document() {
    name=$(basename "$1" .md)
    python3 cut.py "$name" "$1" > blocks 2> err
    check "$name: each block has a mark that is known, and its end" [ ! -s err ]
    while read -r block mark; do
        case $mark$library in
            skip*) continue ;;
            lib) leave_out 1 && continue ;;
        esac
        # What isn't marked as needing the library finds none.
        LDVBI_LIBRARY=$([ "$mark" = lib ] || echo "$work/absent")
        # What is marked `sh` is of that shell's grammar; bash can see that each command of a pipe succeeds.
        case $block in
            *.python) in_folder $2 env PYTHONPATH=python python3 ../$block ;;
            *) in_folder $2 sh -c '[ "${1##*.}" = bash ] || sh -n "$1" && exec bash -e -o pipefail "$1"' sh ../$block ;;
        esac
        check "$block: $(head -n 1 $block)" \
            [ "$status$([ ! -e ${block%.*}.text ] || cmp out ${block%.*}.text 2>&1)" = 0 ]
    done < blocks
    LDVBI_LIBRARY=
}

# page NAME: runs the examples of a manual page as one script; where no library is built, not those that read samples
page() {
    mandoc -T ascii -O width=200 "$top/share/man/$1.1" | sed 's/.'"$(printf '\010')"'//g' |
        sed -n '/^EXAMPLES/,/^[DS]/s/^           //p' > page.sh
    [ "$library" ] || sed -i '/ldvbi-side.*side.tbc/d' page.sh
    { echo "\`\`\`sh${library:+ lib}"; cat page.sh; echo '```'; } > "$1.md"
    document "$1.md" trial
}

# What is written into documents, pages and completions is what stands there, and what documents name is in the source.
# In a copy of the documents it is seen what somebody has written otherwise, as often as a number says.
mkdir copy
ln -s "$top"/* "$top/.ci" "$top/.github" "$top/.gitignore" copy
rm copy/docs copy/texts copy/include
cp -r "$top/docs" "$top/texts" "$top/include" copy
while read -r name alterations; do
    sed -i "$alterations" "copy/$name"
done << 'END'
include/ldvbi.h s/from 224 columns on NTSC/from 225 columns on NTSC/
docs/ANSWER.md s/^- `cause`: as/- `why`: as/; s/, `confirmed`//
docs/DECISIONS.md s/`outcome_of`/`outcome_for`/
docs/FORMATS.md s/^- line 17: CLV mark$/- line 18: CLV mark/; s/`field width differs`/`field width differ`/
docs/FORMATS.md s/else `hold` and that/else `held` and that/; s/#####[.]*######/#####....#####/; s/low byte/high byte/
docs/MEASURED.md s/judged 1,795 right/judged 1,798 right/
docs/PROMISES.md s/(#not-promised)/(#not-proved)/; s/`fetched`, `written`/`fetched`, `rewritten`/
docs/PROMISES.md s/`WordRule.antt`/`WordRules.antt`/
docs/pictures/house.svg s/vbi_near/vbi_far/
END
while read -r count said; do
    check "$said" in_folder "$top" python3 $said
    in_folder copy python3 $said
    check "$said sees other texts" [ "$status $(grep -vc 'looked at$' out)" = "1 $count" ]
done << 'END'
4 texts/write.py --check
11 tests/documents.py
END

for path in README docs/RECIPES docs/PYTHON; do
    folder "${path#*/}"
    document "$top/$path.md" "${path#*/}"
done
# What README's commands write at the top of a checkout isn't taken for a change of it.
git init -q ignoring && cp "$top/.gitignore" ignoring
find README -type f | sed 's/^README.//' > out
git -C ignoring check-ignore --no-index --stdin < out > err
check 'git ignores what the commands of README write' cmp out err
# A small side and its metadata, one of PAL, a line, and words, as documents name them
folder trial
for name in side disc; do
    output_of draw $ntsc "$top/examples/cav.words" > trial/$name.tbc
    cat > trial/$name.tbc.json << 'END'
{"fields":[{"seqNo":3,"isFirstField":true,"syncConf":100}],"videoParameters":{"system":"NTSC","fieldWidth":910,
"fieldHeight":263,"black16bIre":16384,"white16bIre":51200,"sampleRate":14318181.8}}
END
done
output_of draw $pal "$top/examples/clv.words" > trial/pal.tbc
tail -c +27301 trial/side.tbc > trial/line.raw
cp "$top/examples/cav.words" trial/disc.words
document "$top/docs/FORMATS.md" trial

# SQL in the documents, for a program that isn't asked for, has names that the tests have in ld-decode's form.
cat > sql.py << 'END'
import re, sqlite3, sys
form, *documents = (open(path, encoding="utf-8").read() for path in sys.argv[1:])
database = sqlite3.connect(":memory:")
database.executescript(re.search(r'^FORM = """(.*?)"""', form, re.M | re.S)[1])
for words in re.findall(r"\bsqlite3 [\w.]+ ('[^']*'|[^\n`]*)", "".join(documents)):
    print(*database.execute(words[1:-1]).fetchall() if words.startswith("'") else [words])
END
does python3 sql.py "$tests/unit/test_databases.py" "$top"/*.md "$top"/docs/*.md
check 'what documents ask of a database' \
    [ "$status $(sort -u out | paste -s -d ' ')" = "0 ('NTSC', 16384, 51200) .schema" ]

# The lines of README and of the pages for callers stand in a program of examples/, or in a caller that is proved, but
# for indents; of an import each word does.
while read -r page kind source; do
    for file in "$page" "$source"; do
        sed 's/^\(\/\/!\)\? *//; /^\(ghost \)\?use /s/[^a-zA-Z0-9_][^a-zA-Z0-9_]*/\n/g' "$top/$file" > lines
        [ "$file" = "$source" ] || sed -n '/^```'$kind'$/,/^```$/{/^```/d;p;}' lines > found
    done
    { [ -s found ] || echo none; grep -vxF -f lines found; } > err
    check "the example of $page is of $source" [ ! -s err ]
done << 'END'
README.md c examples/say.c
README.md rust rust/hand/src/lib.rs
docs/LIBRARY.md c examples/whole.c
crates/vbi_words/CALLING.md rust crates/vbi_line_tests/src/calling.rt
crates/vbi_line/CALLING.md rust crates/vbi_line_tests/src/calling.rt
crates/vbi_near/CALLING.md rust crates/vbi_line_tests/src/calling.rt
END
for crate in vbi_words vbi_line vbi_near; do
    sed -n 's/^| \(`[^|]*\)|.*/\1/p' "$top/crates/$crate/CALLING.md" | grep -o '[a-z_][a-z_]*`' | sort -u > found
    find "$top/crates/$crate/src" -name '*.rt' ! -name '*laws.rt' -exec sed -n 's/.*pub fn \([a-z_]*\).*/\1`/p' {} + |
        sort -u > functions
    check "the page for callers of $crate has a row for each public function" cmp found functions
done

# The examples of the manual pages: the last line that the one of ldvbi prints is of the drawn field; ldvbi-side has a
# side that is whole
page ldvbi
check 'the words of the drawn field of the manual page' [ "$(tail -n 1 out)" = '[8572927,15803205,15803205]' ]
mkdir trial/captures
{ seq -f 'F%05g' 16 | sed 's/.*/- & &\n- - -/' && echo '- 80EEEE 80EEEE'; } > whole.words
output_of draw $ntsc whole.words > trial/side.tbc
for name in side first second captures/side; do
    output_of extract $ntsc trial/side.tbc > trial/$name.vbi.json
done
page ldvbi-side
for name in side.svg both.html pages/index.html; do
    check "the examples write $name" [ -s trial/$name ]
done

# The examples of the help texts; one of them has a disc of PAL
for command in '' line extract show draw; do
    output_of $command --help
done | sed -n '/^Examples*:$/,/^$/{s/PAL\(.*\)disc.tbc/PAL\1pal.tbc/; s/^  \(.*\)/```sh\n\1\n```/p;}' > help.md
document help.md trial

# The least version of the C library, which README names, is that of the latest of the symbols that the program needs.
needed=$(grep -ao 'GLIBC_2[.][0-9]*' "$program" | sort -uV | tail -n 1)
check 'the C library that README names' [ "$(grep -o 'glibc 2[.][0-9]*' "$top/README.md")" = "glibc ${needed#GLIBC_}" ]
finish
