"""Names, documents, metadata and databases that somebody made to do harm, or that broke: whatever they are, a run ends
with a documented status. A fault is one line that names the file, and leaves nothing of what was to be written. The
same of outputs that take nothing."""

import contextlib
import html
import json
import os
import random
import re
import resource
import shutil
import xml.etree.ElementTree as xml
from collections import Counter
from unittest import mock
from urllib.parse import unquote_to_bytes

from ldvbi import database
from ldvbi_side.draw.index import Fault, index_of
from ldvbi_side.outside import legible, shown
import pytest
from room import buffered, in_database
from streams import pictures
from test_databases import FORM

pytestmark = pytest.mark.unrecorded

NAMES = [
    b"new\nline", b"\r", b"'", b'"', b"`x` $(x)", b"-", b"--csv", b"-o", b"\xff\xfe", b"\xed\xa0\x80", b"<script>",
    b"'><script>", b"<!--", b"&lt;", b"]]>", b"-->", b"%s %d %", b"\x1b[2J", b" ", b"..", b"*", b"\\", b"a" * 245,
    b"\xff" * 245, "\u202e".encode(), "ü\U0001f4bf".encode()]


def ends(drawn, files, *words, statuses=(2,)):
    """The status of a run. A fault is said in one line that names one of these files, and files are as before."""
    before = drawn.states()
    status, printed, said = drawn.run_words(*words)
    assert status in statuses
    if status == 2:
        assert re.search(r"\Aldvbi-side: [^\n]*\n\Z", said) and said.strip().isprintable() and len(said) < 650
        assert any(legible(one)[:100] in said for one in files)
        assert (printed, drawn.states()) == ("", before)
    else:
        assert re.search(r"\A(ldvbi-side: [^\n]*\n)*\Z", said)
    if "copy.db" in drawn.names():  # which has all words
        found, = in_database(drawn.named("copy.db"), "SELECT vbi0, vbi1, vbi2 FROM vbi ORDER BY field_id")
        assert [list(three) for three in found] == pictures(12)
    for name in set(drawn.states()) - set(before):
        os.unlink(drawn.named(name))
    return status


def title_of(text, scripts=0):
    """The title of a page that has so many scripts."""
    assert text.count("<script") == scripts
    return html.unescape(re.search("<title>(.*?)</title>", text, re.DOTALL)[1])


def test_names(drawn):
    """Of sides that are there or absent, and of all that is written. In pages, drawings and indexes a name is text, in
    tables it stands as it is."""
    drawn.metadata("meta.json", count=12)
    os.mkdir(drawn.named("some"))
    sides = []
    for place, name in enumerate(os.fsdecode(b"some/" + name) for name in NAMES):
        end = (".tbc", ".vbi.json")[place % 2]
        for words in (["--"], ["join", "--", "side.vbi.json"], ["side.tbc", "--meta"]):
            ends(drawn, [name + end], *words, name + end)
        sides.append(name + ".vbi.json")
        for end in (".tbc", ".vbi.json"):
            os.link(drawn.named("side" + end), drawn.named(name + end))
        check_outputs(drawn, name + end)
        os.unlink(drawn.named(name + ".tbc"))
    status, printed, said = drawn.run_words("scan", "-j", "1", "--json", "--", *sides)
    assert (status, said, {one["side"] for one in json.loads(printed)["sides"]}) == (1, "", set(sides))


def check_outputs(drawn, name):
    """Of a side with this name, into files whose names begin as it does."""
    os.mkdir(drawn.named("made"))
    paths = [name.replace("some", "made", 1) + end for end in ("", "2", "3", "4", "5")]
    options = sum(zip(("--html", "--svg", "-o", "--map", "--into"), paths), ())
    assert drawn.run_words("--meta", "meta.json", "--json", *options, "--", name) == (0, "", "")
    assert drawn.names("made") == sorted(map(os.path.basename, paths))
    wanted = shown(os.path.basename(name))
    title = next(xml.fromstring(drawn.read(paths[1])).iter("{http://www.w3.org/2000/svg}title"))
    assert (title_of(drawn.text(paths[0]), 1), title.text) == (wanted, wanted)
    assert json.loads(drawn.read(paths[2]))["fields"] == 12
    index = index_of(drawn.named("some/index.html"), [drawn.named(paths[0])], [Fault("/x", name, "of " + name)])
    title_of(index, 1)  # it has a script of its own
    link, = re.findall('<a href="(.*?)">', index)
    assert unquote_to_bytes(html.unescape(link)) == os.fsencode("../" + paths[0])
    assert {wanted, shown(name), shown("of " + name)} <= {
        html.unescape(one) for one in re.findall("<t?[ad][^>]*>([^<]*)</", index.replace("<wbr/>", ""))}
    assert drawn.run_words("join", "--html", "made/both", "--", "side.vbi.json", name)[::2] == (0, "")
    assert title_of(drawn.text("made/both")) == "side.vbi.json, " + shown(name)
    shutil.rmtree(drawn.named("made"))


# What a member of JSON may be
VALUES = [
    "null", "true", "-1", "1e400", "-1e400", "NaN", "Infinity", "1" * 5000, "1e999999999", "0.5", '"\\ud800"', '""',
    "[]", '"\\udfff\\ud800"', '"\\u0000"', "{}", "[" * 200 + "]" * 200, "[" * 100000, '{"a":' * 5000 + "1" + "}" * 5000,
    "9" * 19, "2147483648", "4294967296", "18446744073709551616", '"' + "a" * 100000 + '"', "1.7976931348623157e308"]


def broken(text, chance, count):
    """Texts that are broken somewhere: cut, with other bytes, or with another value; and at their begin or end."""
    wide = [text.decode().encode(name) for name in ("utf-16", "utf-32")]
    yield from (b"", b"\0", b"\xef\xbb\xbf" + text, text[:-1].rstrip() + b",}", text + text, text + b"\0", *wide,
                b"\x1f\x8b" + text, b" " * 100000 + text[:-3])
    colons = [place for place, one in enumerate(text) if one == ord(":")]
    for _ in range(count):
        place, member = chance.randrange(1, len(text)), chance.choice(colons)
        yield text[:place]
        yield text[:place] + chance.choice([b"\0", b"\xff", b"\xc3", b"\x1b", b"[", b"}", b","]) + \
            text[place + chance.randrange(2):]
        end = next(at for at in range(member, len(text)) if text[at:at + 1] in b",]}")
        value = chance.choice(VALUES).encode()
        yield text[:member + 1] + value + text[end:]
        name = text.rindex(b'"', 0, text.rindex(b'"', 0, member + 1))
        yield text[:member + 1] + value + b"," + text[name:]  # there twice


def test_broken_texts(drawn):
    """Of documents and metadata, of which there are so many faults at least, and others."""
    field = {"vbi": {"vbiData": [0, 0, 0]}, "dropOuts": {"startx": [100], "endx": [120], "fieldLine": [17]}}
    drawn.metadata("sound.json", count=12, field=field, numberOfSequentialFields=12, fieldWidth=910)
    for seed, name, text, faults, others, *runs in (
            (30, "wrong.vbi.json", drawn.document, 60, 0, "wrong.vbi.json --json",
             "join side.vbi.json wrong.vbi.json"),
            (31, "wrong.json", drawn.read("sound.json"), 40, 4, "side.tbc --meta wrong.json --json",
             "side.tbc --meta wrong.json --into copy.json")):
        found = Counter()
        for data in broken(text, random.Random(seed), 9):
            drawn.write(name, data)
            for words in map(str.split, runs):
                found[ends(drawn, [name, words[0]], *words, statuses=(0, 1, 2, 3, 4))] += 1
        assert found[2] > faults
        assert found[0] + found[3] >= others


SOUND = (*FORM.split(";"), *("INSERT INTO field_record VALUES (4, %d, 0.5, %d, 1)" % (place, place % 2)
                             for place in range(12)))


def without(table, *statements):
    """A database that has something else in the place of a table."""
    return (*SOUND, "DROP TABLE " + table, *statements)


# Databases, each of statements, that are refused whatever is asked; test_metadata and test_databases have more
REFUSED = (
    without("drop_outs", "CREATE VIEW drop_outs AS SELECT * FROM other",
            "CREATE VIEW other AS SELECT * FROM drop_outs"),
    tuple('CREATE TABLE "\x1b[31m\n%03d" (system TEXT)' % number for number in range(100)),
    *((*SOUND, "UPDATE capture SET " + one) for one in (
        "black_16b_ire = zeroblob(100)", "white_16b_ire = '51200' || char(0)", "system = x'4e545343'")))
# and those that may be read
OTHERS = (
    without("drop_outs", "CREATE VIEW drop_outs AS WITH RECURSIVE n(i) AS (SELECT 1 UNION ALL SELECT i + 1 FROM n) "
            "SELECT i AS field_id, 16 AS field_line, x'00' AS startx, 2 AS endx FROM n LIMIT 100"),
    without("capture", "CREATE VIRTUAL TABLE capture USING fts4(system, black_16b_ire, white_16b_ire)"),
    *(without("vbi", "CREATE " + one) for one in (
        "VIEW vbi AS SELECT * FROM vbi", "TABLE vbi (field_id, vbi0 AS (field_id), vbi1, vbi2)",
        "TABLE vbi (capture_id, field_id, vbi0, vbi1, vbi2 CHECK (vbi2 = 0.5))",
        "TABLE vbi (capture_id, field_id, vbi0 TEXT, vbi1, vbi2)",
        "TABLE vbi (capture_id, field_id, vbi0, vbi1, vbi2 UNIQUE ON CONFLICT REPLACE)")),
    (*SOUND, "UPDATE field_record SET field_id = field_id + 9223372036854775700"),
    without("field_record", "CREATE TABLE field_record (field_id TEXT, is_first_field BLOB)",
            "INSERT INTO field_record VALUES ('x', zeroblob(9)), (NULL, 'y'), (1.5, 1)"),
    (*SOUND, 'CREATE TABLE "%s" (field_id, is_first_field)' % ("\x1b\n<script>" * 5000)))


def end_both(drawn, statuses):
    with mock.patch.object(database, "MOST_STEPS", 20 * database.STEPS):
        for words in (["--json"], ["--into", "copy.db"]):
            ends(drawn, ["wrong.db"], "side.tbc", "--meta", "wrong.db", *words, statuses=statuses)


def test_forms_of_databases(drawn):
    for statements in (*REFUSED, *OTHERS):
        drawn.write("wrong.db", b"")
        in_database(drawn.named("wrong.db"), *statements)
        end_both(drawn, (2,) if statements in REFUSED else (0, 2))


def test_broken_databases(drawn):
    """Of a sound one that somebody cut, encrypted, or wrote over."""
    in_database(drawn.named("wrong.db"), *SOUND)
    sound, chance = drawn.read("wrong.db"), random.Random(32)
    end_both(drawn, (0,))
    for begin, end in ((0, 16), (0, 100), (16, 100), (100, 4096), (0, len(sound))):
        drawn.write("wrong.db", sound[:begin] + bytes(one ^ 0xA5 for one in sound[begin:end]) + sound[end:])
        end_both(drawn, (0, 2) if begin == 16 else (2,))
    for _ in range(10):
        at, count = chance.randrange(len(sound)), chance.choice([1, 4, 100, 4096])
        drawn.write("wrong.db", sound[:at] + chance.randbytes(count) + sound[at + count:])
        end_both(drawn, (0, 2))
        drawn.write("wrong.db", sound[:at])
        end_both(drawn, (0, 2) if at > len(sound) - 4096 else (2,))  # the last page is empty but for its head


# What is printed, each in another way, and what is written to a file
PRINTED = ("side.tbc --csv", "side.tbc --json", "side.tbc --document", "join side.tbc side.vbi.json",
           "scan --csv side.tbc", "scan --json side.tbc", "--version", "scan --help")
WRITTEN = ("side.tbc -o", "side.tbc --html", "side.tbc --svg", "side.tbc --map", "side.tbc --into",
           "side.tbc --document -o", "side.tbc --csv -o", "join side.tbc side.vbi.json --html")


@contextlib.contextmanager
def files_of_64_bytes():
    soft, hard = resource.getrlimit(resource.RLIMIT_FSIZE)
    resource.setrlimit(resource.RLIMIT_FSIZE, (64, hard))
    try:
        yield
    finally:
        resource.setrlimit(resource.RLIMIT_FSIZE, (soft, hard))


def test_outputs_that_take_nothing(drawn):
    """To a device without room, to nobody, and to a disk on which each file has 64 bytes."""
    drawn.metadata("side.tbc.json", count=12)
    in_database(drawn.named("side.db"), *SOUND)
    before, full = drawn.files(), "No space left on device"
    for place, words in enumerate(PRINTED):
        close, said = ((None, full), (lambda: os.close(1), "Bad file descriptor"))[place % 4 == 1]
        with open("/dev/full", "wb") as file:
            assert drawn.run_command(words, stdout=file, env=buffered(), preexec_fn=close) == (
                2, None, "ldvbi-side: standard output: %s\n" % said)
    for words in WRITTEN:
        drawn.refused("/dev/full: " + full, words + " /dev/full")
    for words in (*(words + " out" for words in WRITTEN), "side.tbc --meta side.db --into out",
                  "scan -j 1 side.tbc --html pages"):
        with files_of_64_bytes():
            status, _, said = drawn.run_command(words)
        shutil.rmtree(drawn.named("pages"), ignore_errors=True)
        assert (status, said.count("\n"), drawn.files()) == (2, 1, before)
        assert re.search("^ldvbi-side: (out|side.db|pages/.*): ", said)
