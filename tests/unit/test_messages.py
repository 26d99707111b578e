"""Each fault in its whole message: one line that names the file, and says what is wrong with it or was looked for. The
command lines that are refused, the exit statuses of all options and commands, and the texts of the parsers."""

import bz2
import errno
import functools
import gzip
import importlib
import lzma
import os
import re

from compact import cells_of
import ldvbi
from ldvbi_side.command.faults import fault_text, naming
from ldvbi_side.command.parsers import parser_of_side, parsers
from ldvbi_side.command.statuses import MEANINGS, statuses_of
from ldvbi_side.draw.index import head_of
import pytest
from room import buffered, in_database, IN_PLACE, NO_METADATA
from streams import TOP

NOT_JSON = "not JSON: line 1 is wrong from column 1 on"
NO_NAME = "a file has to have a name"
# Command lines that are refused, with what is said after `error: `
USAGE = """
    side.tbc --document --csv | argument --csv: not allowed with argument --document
    side.tbc --json --plot-line 1 17 | argument --plot-line: not allowed with argument --json
    side.tbc --bad-lines --summary | argument --summary: not allowed with argument --bad-lines
    side.tbc --csv --seek 1 | argument --seek: not allowed with argument --csv
    side.tbc --seek x
        | argument --seek: neither a picture number, nor a time h:mm, h:mm:ss or h:mm:ss.pp, nor chapter n: 'x'
    side.tbc --plot-line 0 17 | argument --plot-line: no number from 1 on: '0'
    side.tbc --system SECAM | argument --system: invalid choice: 'SECAM' (choose from 'NTSC', 'PAL')
    side.tbc --black 1.0 | argument --black: invalid int value: '1.0'
    side.tbc --recovered --json | --recovered goes with --document or --into, not with --no-recover
    side.tbc --recovered --document --no-recover | --recovered goes with --document or --into, not with --no-recover
    side.tbc --as-read | --as-read is of --into || join side.vbi.json | two captures or more are joined
    side.tbc --last x
        | argument --last: neither a picture number nor a time h:mm, h:mm:ss or h:mm:ss.pp: 'x'
    side.tbc --last 'chapter 3'
        | argument --last: neither a picture number nor a time h:mm, h:mm:ss or h:mm:ss.pp: 'chapter 3'
    join side.vbi.json side.vbi.json --csv --ranges | argument --ranges: not allowed with argument --csv
    join side.vbi.json side.vbi.json --csv --html - | standard output takes one thing
    scan -j 0 side.tbc | argument -j/--jobs: no number from 1 on: '0'
    scan -j x side.tbc | argument -j/--jobs: no number from 1 on: 'x'
    scan --csv --json side.tbc | argument --json: not allowed with argument --csv
    scan --again side.tbc | --again is of --html || scan --as-read side.tbc | --as-read is of --into
    write out side.tbc | the name of what is written has to end with .tbc
    write out.tbc side.tbc --change -1 | argument --change: no number: '-1'
    write out.tbc side.tbc --change x | argument --change: no number: 'x'
    write out.tbc side.tbc --from x | argument --from: no picture and no time: 'x'
    write out.tbc side.tbc side.tbc --meta a.json | --meta names the metadata of one capture
    write out.tbc side.tbc --meta '' | --meta names the metadata of one capture
"""
# Those in which a name is empty
UNNAMED = (*("side.vbi.json " + one for one in "--html --svg -o --map --into --chapters --meta".split()),
           *("scan side.tbc " + one for one in "--html --into --map --chapters --write --meta --sides".split()),
           *("join side.vbi.json side.vbi.json " + one for one in "--html --map --chapters --meta".split()))
# Command lines, and what is said: after = the name of an output in the place of an input, or of another output
REFUSED = """
    absent.tbc | absent.tbc: No such file or directory || join side.vbi.json other.tbc --html other.tbc | =other.tbc
    side.tbc | NONE || 'my sides/one.tbc' | my sides/one.tbc: no one.tbc.json or one.tbc.db beside it; SETTINGS
    side.tbc --json HALF | NONE || lost | lost: No such file or directory || side.vbi.json --svg new -o new | =new
    side | side: no metadata is looked for beside a name that doesn't end with .tbc; SETTINGS || scna | scna NO COMMAND
    'my sides' | my sides is a folder: ldvbi-side scan 'my sides' || side.vbi.json --system PAL | side.vbi.json: OPTIONS
    join side.vbi.json 'my sides' | my sides is a folder: ldvbi-side scan 'my sides' || other.tbc --into hard | =hard
    /dev/null LEVELS | /dev/null is no file that can be mapped || side.vbi.json --black 16384 | side.vbi.json: OPTIONS
    side.tbc --white 65536 HALF | side.tbc: white is not from 0 to 65535
    compare side.vbi.json side.vbi.json -j 1 | compare NO COMMAND || side.vbi.json --svg folder | folder: Is a directory
    side.vbi.json --document | side.vbi.json is a document, and --document is for a TBC file
    side.vbi.json --plot-line 1 17 | side.vbi.json is a document, and --plot-line is for a TBC file
    side.tbc --meta meta.json | meta.json: No such file or directory || side.vbi.json --map absent/out | ABSENT
    side.vbi.json -o absent/out | ABSENT || join side.vbi.json side.tbc | NONE || join other.tbc side.tbc HALF | NONE
    side.vbi.json --html absent/out | ABSENT
    join other.tbc side.vbi.json --html absent/out | ABSENT || side.vbi.json --svg side.vbi.json | =side.vbi.json
    join side.vbi.json other.tbc --html other.tbc.json | =other.tbc.json || side.vbi.json --svg new --map new | =new
    join side.tbc other.tbc --meta other.tbc.json --html meta | =meta || other.tbc --svg copy --into copy | =copy
    join side.tbc side.vbi.json --system NTSC --black=60000 --white=60001 | side.tbc has no numbers to join
    side.tbc LEVELS --document -o side.tbc | =side.tbc || other.tbc --meta rows.db --into rows.db-wal | =rows.db-wal
    other.tbc -o other.tbc.json | =other.tbc.json || other.tbc --meta rows.db --into rows.db-journal | =rows.db-journal
    other.tbc --meta rows.db --into rows.db-shm | =rows.db-shm
    join side.vbi.json same.vbi.json --white 51200 | side.vbi.json: OPTIONS
    write out.tbc /dev/null --meta other.tbc.json | /dev/null is no file that can be mapped
    other.tbc --into other.tbc | =other.tbc || other.tbc --meta rows.db --into rows.db | =rows.db
"""
# What stands for parts of that
WORDS = {
    "HALF": "--system NTSC --black 16384", "NONE": NO_METADATA, "ABSENT": "absent/out: No such file or directory",
    "SETTINGS": "give --meta, or --system, --black and --white",
    "NO COMMAND": "is no file and no command; the commands are join, scan and write",
    "OPTIONS": "a document has its system and levels; they are options for a TBC file"}


def test_refused(drawn):
    """In the folder all files are as before."""
    drawn.add("other.tbc", "1..6")
    in_database(drawn.named("rows.db"), "CREATE TABLE capture (system, black_16b_ire, white_16b_ire)",
                "INSERT INTO capture VALUES ('NTSC', 16384, 51200)")
    os.link(drawn.named("other.tbc.json"), drawn.named("hard"))
    os.link(drawn.named("side.vbi.json"), drawn.named("same.vbi.json"))
    os.symlink("other.tbc.json", drawn.named("meta"))
    for name in ("my sides", "folder"):
        os.mkdir(drawn.named(name))
    for name in ("my sides/one.tbc", "side"):
        drawn.write(name, b"")
    before = drawn.files()
    os.symlink("nowhere", drawn.named("lost"))
    for words, said in cells_of(re.sub("|".join(WORDS), lambda one: WORDS[one[0]], REFUSED)):
        drawn.refused(IN_PLACE % said[1:] if said[0] == "=" else said, words)
    os.unlink(drawn.named("lost"))
    assert drawn.files() == before


def test_usage(drawn):
    none = [(" ", "the following arguments are required: side")]
    names = [(words + " ''", "a folder has to have a name" if "scan" in words and words[-6:] not in ("--meta", "-sides")
              else NO_NAME) for words in UNNAMED]
    for words, why in cells_of(USAGE) + names + none:
        status, text, said = drawn.run_command(words)
        command = "".join(" " + word for word in words.split()[:1]) * (not words.startswith("side"))
        assert (status, text, said[:18 + len(command)]) == (2, b"", "usage: ldvbi-side%s " % command)
        assert said.endswith("\nldvbi-side%s: error: %s\n" % (command, why))


# What begins as each form, and files of that, with command lines and what is said, in which ! is a pipe. A database is
# read by no other program.
PACKED = {"gzip": gzip.compress(b"video"), "bzip2": bz2.compress(b"video"), "xz": lzma.compress(b"video"),
          "lzma": lzma.compress(b"video", lzma.FORMAT_ALONE), "zip": b"PK\x03\x04" + bytes(60),
          "zstd": b"\x28\xb5\x2f\xfd" + bytes(60), "FLAC": b"fLaC\x00\x00\x00\x22" + bytes(60)}
COMPRESSED = """
    my side.tbc.gz | 'my side.tbc.gz' | gzip: zcat 'my side.tbc.gz' ! META 'my side.tbc.json' ! ldvbi-side -
    s.tbc | s.tbc LEVELS | bzip2: bzcat s.tbc ! ldvbi extract --system NTSC --black 16384 --white 51200 ! ldvbi-side -
    s.tbc | s.tbc --system PAL | bzip2: bzcat s.tbc ! META s.tbc.json --system PAL ! ldvbi-side -
    s.tbc | s.tbc --white 5 | bzip2: bzcat s.tbc ! META s.tbc.json --white 5 ! ldvbi-side - || f | f | FLAC: UNPACK
    s.xz | s.xz --meta one.json | xz: xzcat s.xz ! META one.json ! ldvbi-side - || b.tbc.gz | b.tbc.gz | gzip: UNPACK
    s.zst | s.zst | zstd: zstdcat s.zst ! META s.json ! ldvbi-side -
    s.lzma | s.lzma | lzma: lzcat s.lzma ! META s.json ! ldvbi-side - || m.json | side.tbc --meta m.json | gzip: UNPACK
    s.zip | s.zip | zip: unzip -p s.zip ! META s.json ! ldvbi-side - || a.gz | a.gz --meta a.db | gzip: UNPACK
    c.tbc.gz | c.tbc.gz | gzip: zcat c.tbc.gz ! META c.tbc.json ! ldvbi-side -
    a.gz | write out.tbc a.gz --meta b.tbc.db | gzip: UNPACK
    s.json.gz | s.json.gz | gzip: zcat s.json.gz ! ldvbi-side - || b.json | join side.vbi.json b.json | gzip: UNPACK
"""


def test_compressed_files(drawn):
    """Of a side alone the message has the command that reads it."""
    for name in ("b.tbc.db", "c.tbc.db", "c.tbc.json"):
        drawn.write(name, b"")
    table = COMPRESSED.replace("META", "ldvbi extract --meta").replace("UNPACK", "unpack it first")
    for name, words, said in cells_of(table):
        form, said = said.replace("!", "|").split(": ", 1)
        drawn.write(name, PACKED[form])
        drawn.refused("%s: it is compressed (%s): %s" % (name, form, said), words)


def test_standard_input(drawn):
    """It has a document: for a TBC file, and what is compressed, the message says what to do."""
    make = "standard input is no document; make one of a TBC file: ldvbi extract --meta %s | ldvbi-side -"
    for words, data, text in (
            ("- --meta 'a b.json'", drawn.read("side.tbc")[:100000], make % "'a b.json'"),
            ("- --meta a.db", b"\0", make % "side.tbc.json"),
            ("-", gzip.compress(b"{}"), "standard input: it is compressed (gzip): unpack it first"),
            ("-", b"", "standard input: " + NOT_JSON)):
        with open(drawn.write("in", data), "rb") as file:
            assert drawn.run_command(words, stdin=file) == (2, b"", "ldvbi-side: %s\n" % text)


def test_a_document_on_standard_input(drawn):
    """It is read as a file is, and messages name it; a page of it has no path."""
    drawn.write("cut.tbc", drawn.read("side.tbc") + b"x" * 7)
    path = drawn.write("cut.vbi.json", drawn.extracted("cut.tbc"))
    drawn.metadata("meta.json", count=12)
    for words in ("--csv --html page.html", "--meta meta.json --into copy.json --as-read"):
        status, text, said = drawn.run_command("cut.vbi.json " + words)
        assert (status, said[:24]) == (3, "ldvbi-side: cut.vbi.json")
        with open(path, "rb") as file:
            found = drawn.run_command("- " + words, stdin=file)
        assert found == (3, text, said.replace("cut.vbi.json", "standard input"))
    assert head_of(drawn.named("page.html"))[1]["side"] is None
    with open(path, "rb") as file, open(path, "ab") as same:
        assert drawn.run_command("- --csv", stdin=file, stdout=same) == (
            2, None, "ldvbi-side: %s\n" % IN_PLACE % "standard output")


@pytest.mark.parametrize("words", ("--help", "side.vbi.json --csv"))
def test_a_full_device_takes_nothing(drawn, words):
    with open("/dev/full", "wb") as full:
        assert drawn.run_command(words, env=buffered(), stdout=full) == (
            2, None, "ldvbi-side: standard output: No space left on device\n")


def test_documents_and_metadata(drawn):
    """Faults of a file that can't be read have its name, as those of what it says."""
    documents = {
        ": " + NOT_JSON: b"", ": not JSON: line 2 is wrong from column 13 on": b'{"version":2,\n"fields":[],}',
        ": not JSON: byte 13 is not UTF-8": b'{"version":"\xff"}', ": not JSON: NaN is no number": b'{"version":NaN}',
        ": not JSON: it is nested too deep": b"[" * 100000, ": not JSON: a number is too long": b"1" * 5000,
        ": field 1: seqNo is not there": drawn.document.replace(b'"seqNo":1,', b'"number":1,')}
    metadata = {
        " is no metadata with videoParameters": b"{}",
        ": no black level given": b'{"videoParameters":{"system":"NTSC"}}',
        ": SQLite can't read it: file is not a database": b"SQLite format 3\0" + bytes(1000)}
    for words, faults in (("wrong.json", documents), ("side.tbc --meta wrong.json", metadata)):
        for text, data in faults.items():
            drawn.write("wrong.json", data)
            drawn.refused("wrong.json" + text, words)


def test_a_name_stands_once():
    for error, text in ((ValueError("wrong"), "a.json: wrong"), (ValueError("a.json: wrong"), "a.json: wrong"),
                        (OSError("no library"), "no library"), (OSError(5, "Failed"), "[Errno 5] Failed: 'a.json'"),
                        (OSError(5, "Failed", "b"), "[Errno 5] Failed: 'b'"),
                        (UnicodeDecodeError("utf-8", b"\xff", 0, 1, ""), "a.json: no text in UTF-8")):
        with pytest.raises((ValueError, OSError)) as caught, naming("a.json"):
            raise error
        assert str(caught.value) == text
    for error, text in ((OSError(errno.ENFILE, "Too many"), "Too many; `ulimit -n` says how many a process may open"),
                        (OSError(5, "Failed"), "standard output: Failed"), (OSError("no library"), "no library"),
                        (OSError(5, "Failed", 0), "standard input: Failed"), (ValueError("wrong"), "wrong"),
                        (OSError(5, "Failed", ""), "a file without a name: Failed"),
                        (OSError(5, "Failed", b"a"), "a: Failed")):
        assert fault_text(error) == text


SIDES = ("whole.tbc", "lost.tbc", "dark.tbc", "cut.tbc")
# Of each option, as it stands after the name of a side, its statuses for these sides. Picture 12 is lost in lost.tbc,
# nothing is in dark.tbc, and after all pictures of cut.tbc a part of one more field.
OPTIONS = {"": (0, 1, 4, 0), "--summary": (0, 1, 4, 0), "--seek 12": (0, 1, 1, 0), **dict.fromkeys((
    "--csv", "--json", "--bad-lines", "--document", "--svg side.svg", "--html side.html", "--map side.map",
    "--chapters side.txt", "--into copy.json", "--plot-line 1 17"), (0, 0, 0, 3))}
# The same of commands, in front of the name of a side; a side without numbers can't be joined.
COMMANDS = {"scan %s": (0, 1, 4, 0), "join whole.tbc %s": (0, 0, 2, 3), "join lost.tbc %s": (0, 1, 2, 3),
            "join --json lost.tbc %s": (0, 0, 2, 3), "write out.tbc %s": (0, 1, 2, 2)}
PRINTED = ("--help", "--version")
# What goes with options, and has no status of its own
WITH_OTHERS = {"--meta", "--system", "--black", "--white", "--no-recover", "--recovered", "--as-read", "--strict",
               "--open-end", "--last", "--output"}


@pytest.fixture
def statuses(drawn):
    for name, fields, rest in zip(SIDES, ("1..30 O", "1..11 14..30 O", "Bx60", "1..30 O"), (0, 0, 0, 12345)):
        drawn.add(name, fields, rest)
        # --into copies as many fields as there are
        drawn.metadata(name + ".json", count=os.stat(drawn.named(name)).st_size // ldvbi.field_bytes("NTSC"))
    return drawn


def test_each_option_and_command(statuses):
    """Only what isn't done is said. Of many sides the weightiest status counts, and a capture that is cut, whichever it
    is."""
    forms = {**{"%s " + words: wanted for words, wanted in OPTIONS.items()}, **COMMANDS}
    rows = [(form % side, status) for form, wanted in forms.items()
            for side, status in zip((*SIDES, "absent.tbc"), (*wanted, 2))]
    for words, wanted in (*rows, ("scan whole.tbc dark.tbc", 4), ("scan dark.tbc lost.tbc", 1),
                          ("scan absent lost.tbc dark.tbc", 2), ("join cut.tbc whole.tbc lost.tbc", 3)):
        status, _, said = statuses.run_words(*words.split())
        is_said = "scan" not in words and (status in (2, 3) or status == 1 and "--seek" in words) or (
            words == "dark.tbc --chapters side.txt")  # it has none
        assert (status, said.count("\n")) == (wanted, int(is_said)), words
        assert status != 3 or said == "ldvbi-side: cut.tbc: the last field is cut: field 62 has 12345 of 478660 bytes\n"


def test_what_is_printed_alone(statuses):
    """The version, the help, and the summary of a side without an option."""
    status, text, said = statuses.run_words("--version")
    assert (status, said) == (0, "")
    assert re.search(r"^ldvbi-side %s\nlibrary [0-9.]+ \([a-zR, ]+\): /.*libldvbi\.so\.3\n\Z" %
                     re.escape(ldvbi.__version__), text)
    for name in SIDES:
        assert statuses.run_words(name) == statuses.run_words(name, "--summary")
    for command, parser in parsers("ldvbi-side").items():
        assert statuses.run_words(*command.split(), "--help") == (0, parser.format_help(), "")


def test_the_table():
    """It has each option and command once, with each status that some run ends with."""
    found = [(name, set(meanings)) for names, meanings in MEANINGS for name in names]
    wanted = {"join": {4}, "write": {4}}  # of no lead-out (test_join.py), of a still of film (test_write.py)
    for words, statuses in [*OPTIONS.items(), *COMMANDS.items()]:
        wanted.setdefault((words.split() or ["no option"])[0], set()).update(set(statuses) - {2})
    assert sorted(found) == sorted({**wanted, **dict.fromkeys(PRINTED, {0})}.items())
    options = {name for action in parser_of_side("ldvbi-side")._actions for name in action.option_strings}
    assert {name for name in options if name.startswith("--")} - WITH_OTHERS == {
        name for name, _ in found if name.startswith("--")}


# The statuses of each command, and of none, but for those of signals: yes or done, no, a fault, a cut field, can't tell
STATUSES = {"": [0, 1, 2, 3, 4], "join": [0, 1, 2, 3, 4], "scan": [0, 1, 2, 4], "write": [0, 1, 2, 4]}


def test_texts_of_commands(monkeypatch):
    """Each says its statuses, and texts of options are parts of sentences. All of them stand in the manual page and in
    the completions, which texts/write.py makes."""
    found = parsers("ldvbi-side")
    assert {*found} == {*STATUSES}
    for command, parser in found.items():
        said = statuses_of(command)
        assert list(said) == STATUSES[command] + [129, 130, 143]
        sentence = "Statuses: %s." % "; ".join("%d %s" % (one, ", or ".join(texts)) for one, texts in said.items())
        assert " ".join(parser.description.split()).endswith(" " + sentence)
        assert all(re.search("^[a-z-].*[^.]$", action.help) for action in parser._actions if action.dest != "help")
    monkeypatch.syspath_prepend(os.path.join(TOP, "texts"))
    completions, pages, program, write = map(importlib.import_module, ("completions", "pages", "program", "write"))
    side, page = program.ldvbi_side(), "share/man/ldvbi-side.1"
    of_side = {name: (side.source, functools.partial(part, side)) for name, part in pages.PARTS[side.name].items()}
    assert write.with_parts(page, of_side) == write.read(page)
    assert completions.bash(side) == write.read("share/completions/ldvbi-side.bash")
    assert completions.zsh(side) == write.read("share/completions/_ldvbi-side")
