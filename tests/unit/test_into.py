"""Words into ld-decode's metadata: where they go in a field of JSON, and a copy that is the same else. And the option
--into: which words it copies, where it writes, and what it leaves alone. Of databases test_databases has more."""

import io
import itertools
import json
import os
import random
import re
import resource
from unittest import mock

from compact import cells_of, word_of, words_of as drawn_words
from ldvbi.metadata import read_metadata
from ldvbi_side.into.field import place_of_words
from ldvbi_side.into.text import Places
import pytest
from room import COMMAND, reason, SIZE
from streams import NTSC, pictures, worn_line, write_stream
from test_databases import ALL_WORDS, asked, make, SAID

WORDS = 8572927, 0, 15803205
# Fields, and what becomes of them, or why they are refused, with escapes as Python has them. WORDS is a list of the
# words, and WORDS, has spaces in it. The numbers alone are others, where there are three items; any other value gives
# way to a list. A field without them gets them after all else, written as its first member is, and so does a member
# vbi. Names are what they mean, others are no matter, and what stands twice is no matter where nothing looks at it.
FORMS = r"""
    {"vbi": {"vbiData": [ 1 , 2.5,\n-1e3 ]}} | {"vbi": {"vbiData": [ 8572927 , 0,\n15803205 ]}}
    {"vbi":{"vbiData":[null,true,0]},"b":1.50} | {"vbi":{"vbiData":WORDS},"b":1.50} || {} | {"vbi":{"vbiData":WORDS}}
    {"vbi": {"vbiData": null}} | {"vbi": {"vbiData": WORDS, }} || {"vbi": {}} | {"vbi": {"vbiData": WORDS, }}
    {"vbi":{"a": 1,"vbiData": ["1",2,3]}} | {"vbi":{"a": 1,"vbiData": WORDS, }} || 5 | it is no object
    {"vbi" :\t{\n\t"a" : 1\r\n}} | {"vbi" :\t{\n\t"a" : 1,\n\t"vbiData" : WORDS, \r\n}} || {"seqNo":8} | its seqNo is 8
    {\r\n "a":\n1} | {\r\n "a":\n1,\r\n "vbi":\n{"vbiData":\n[8572927,\n0,\n15803205]}}
    { "a":1, "vbi":{ }} | { "a":1, "vbi":{"vbiData":WORDS }} || { } | {"vbi":{"vbiData":WORDS} }
    {"a": 1, "b": {}} | {"a": 1, "b": {}, "vbi": {"vbiData": WORDS, }} || {"seqNo":null} | its seqNo is null
    {"v\\u0062i":{"\\u0076biData":[1,2,3]}} | {"v\\u0062i":{"\\u0076biData":WORDS}}
    {"a":{"vbi":1},"c":"\\"vbi\\"}","vbi":{"vbiData":5}} | {"a":{"vbi":1},"c":"\\"vbi\\"}","vbi":{"vbiData":WORDS}}
    {"a":"vbi","vbi":{"a":[{"vbiData":5}],"vbiData":[]}} | {"a":"vbi","vbi":{"a":[{"vbiData":5}],"vbiData":WORDS}}
    {"a":1,"a":2} | {"a":1,"a":2,"vbi":{"vbiData":WORDS}} || {"seqNo":"7"} | its seqNo is "7"
    {"seqNo":7,"%d":"%s"} | {"seqNo":7,"%d":"%s","vbi":{"vbiData":WORDS}} || {"vbi":[1,2,3]} | its vbi is no object
    {"vbi":5,"v\\u0062i":{}} | it has more than one vbi
    {"vbi":{"vbiData":[],"a":1, "vbiData":[]}} | it has more than one vbiData
"""
# Documents without a field, and what becomes of them: the member that says which words these are comes before all
# others, in their style, or is changed where it is.
MEMBERS = r"""
    {} | {"ldvbiWords":"as read"} || \n{ "fields" : 5} | \n{ "ldvbiWords" : "as read", "fields" : 5}
    {\r\n\t"a": 1,\r\n\t"b": 2\r\n} | {\r\n\t"ldvbiWords": "as read",\r\n\t"a": 1,\r\n\t"b": 2\r\n}
    {"ldvbiWords" : [1],"\\u006cdvbiWords":"x"} | {"ldvbiWords" : "as read","\\u006cdvbiWords":"as read"}
    {"a":{"ldvbiWords":1},"fields":[]} | {"ldvbiWords":"as read","a":{"ldvbiWords":1},"fields":[]}
"""


def rows_of(table):
    """The two cells of each row, with what escapes stand for."""
    return [[cell.encode("ascii").decode("unicode_escape") for cell in row] for row in cells_of(table)]


def with_words(text, number=7):
    """The text of a field with WORDS."""
    place = place_of_words(text, json.loads(text), number)
    return text[:place.begin] + place.form % WORDS + text[place.end:]


def copied(room, text, words):
    """How many fields a document has, and the document with these words in them."""
    places, new = Places(), io.StringIO(newline="")
    read_metadata(room.write("old.json", text), places.add, on_member=places.add_member)
    places.copy(io.StringIO(text, newline=""), new, iter(words), SAID)
    return len(places), new.getvalue()


@pytest.mark.parametrize("old, new", rows_of(FORMS))
def test_where_they_go(old, new):
    new = new.replace("WORDS, ", "[8572927, 0, 15803205]").replace("WORDS", "[8572927,0,15803205]")
    assert (reason(with_words, old) or with_words(old)) == new


@pytest.mark.parametrize("old, new", rows_of(MEMBERS))
def test_no_field_at_all(room, old, new):
    assert copied(room, old, []) == (0, new)


def test_documents_all_else_is_the_same(room):
    """What isn't a word stays, as white space, and numbers in any form, but for what an older copy says of itself."""
    choose = random.Random(49)
    parts = {"?": ["1.50", "-0", "1E+2", '"\\u00fc\\/"', '"ü"', "[ 1,2 ]", '{"vbi" : 3}', "null", "1" * 30],
             "~": ["", "", " ", "\n", "\r\n\t", "  "]}

    def members(*known):
        """An object with these members in any order, in which ? stands for a value, and ~ for white space."""
        return "~{~%s~}~" % "~,~".join('"%s"~:~%s~' % one for one in choose.sample(known, len(known)))

    for _ in range(200):
        fields = [members(("x", "?"), ("y", "?"), ("vbiData", "?"), ("seqNo", number),
                          ("vbi", members(("a", "?"), ("vbiData", "[~%d~,~%d~,~%d~]")))) for number in range(1, 6)]
        text = members(("fields", "[%s]" % ",".join(fields)), ("z", "?"), ("ldvbiWords", "@"))
        text = re.sub("[?~]", lambda mark: choose.choice(parts[mark[0]]), text)
        words = [tuple(choose.choice([0, choose.randrange(0x800000, 0x1000000)]) for _ in range(3)) for _ in range(5)]
        old = text.replace("%d", choose.choice(["0", "-1", "1.5"])).replace("@", choose.choice(parts["?"]))
        assert copied(room, old, words) == (5, text.replace("@", '"as read"') % sum(words, ()))


# A side with two worn lines, of which one says another number than its field. A document has the words that it has.
FIELDS = "1..12 3.16=c0 9.18=#79999 14=-/c7/c7"
SOURCES = ("side.tbc", "side.tbc --no-recover", "side.tbc --recovered", "two.vbi.json", "recovered.vbi.json")
REFUSED_RUNS = """
    side.tbc --meta 13.json | side.tbc has 12 whole fields, and 13.json has 13
    side.vbi.json --meta 11.db | side.vbi.json has 12 whole fields, and 11.db has 11
    side.tbc --meta five.json | five.json: field 1: its vbi is no object
    side.tbc LEVELS --meta broken.json | broken.json is no metadata with videoParameters
    side.vbi.json --meta broken.json | broken.json is no metadata with videoParameters
    side.tbc LEVELS | side.tbc: no side.tbc.json or side.tbc.db beside it; give the metadata to copy by --meta
    side.vbi.json | side.vbi.json: no metadata is looked for beside a name that doesn't end with .tbc; give the metadata
         to copy by --meta
    side.vbi.json --meta 12.json --recovered | side.vbi.json is a document, and --recovered is for a TBC file
    side.tbc --meta 12.db --into j | j-journal is there: j is in use, or was left unfinished
    side.tbc --meta 12.db --into w | w-wal is there: w is in use, or was left unfinished
    side.tbc --meta 12.db --into s | s-shm is there: s is in use, or was left unfinished
    side.tbc --meta 12.db --into 12.db-wal | 12.db-wal would be written in the place of an input or of another output
    side.tbc --meta 12.db --into /dev/null | /dev/null is no file
    side.tbc --meta 12.db --into a.json | 12.db is a database, and the name of a.json ends like that of a JSON document
    side.tbc --meta 13.json --into a.db | 13.json is a JSON document, and the name of a.db ends like that of a database
"""


@pytest.fixture
def copies(drawn):
    drawn.metadata("side.tbc.json", count=12)
    make(drawn)
    return drawn


def words_of(copies, name):
    """The words of each field of a copy, or of a document; and which words a copy has, as it says itself."""
    if name.endswith(".db"):
        rows, said = asked(copies, "SELECT vbi0, vbi1, vbi2 FROM vbi ORDER BY field_id", ALL_WORDS[1], name=name)
        return list(map(list, rows)), *said[0]
    known = json.loads(copies.read(name))
    return [field["vbi"]["vbiData"] for field in known["fields"]], known.get("ldvbiWords")


def test_the_words_of_the_document(copies):
    """An older copy keeps its mode. All else stays as it was: numbers as they are written, ends of lines, letters."""
    copies.metadata("side.tbc.json", count=12, sampleRate=14318181.818181818,
                    field={"vbi": {"vbiData": [0, 0, 0], "note": "ü\U0001d11e"}})
    text = copies.text("side.tbc.json").replace(", ", ",\r\n").replace("\\u00fc", "ü")
    copies.write("side.tbc.json", text)
    before, (wanted, _) = copies.files(), words_of(copies, "side.vbi.json")
    for name, side, options in (
            ("copy.db", "side.tbc", "--meta side.tbc.db"), ("copy.db", "side.tbc", "LEVELS --meta side.tbc.db"),
            ("copy.db", "side.vbi.json", "--meta side.tbc.db"), ("copy.json", "side.tbc", "LEVELS"),
            ("copy.json", "side.tbc", "--seek 3"), ("copy.json", "side.tbc", "--document"),
            ("copy.json", "side.vbi.json", "--meta side.tbc.json"), ("copy.json", "side.tbc", "--no-recover")):
        os.chmod(copies.write(name, b"old"), 0o640)
        shown = {"--seek 3": b"field 4, frame 2\n", "--document": copies.document}.get(options, b"")
        assert copies.printed("%s %s --into %s" % (side, options, name)) == shown
        assert words_of(copies, name) == (wanted, "believed")
        assert copies.read(name) == before.setdefault(name, copies.read(name))
        assert os.stat(copies.named(name)).st_mode & 0o777 == 0o640
    assert copies.files() == before
    text = text.replace("{", '{"ldvbiWords": "believed", ', 1)
    for words in wanted:
        text = text.replace("[0,\r\n0,\r\n0]", json.dumps(words).replace(", ", ",\r\n"), 1)
    assert copies.text("copy.json") == text


@pytest.mark.parametrize("option, said", (("", "believed"), (" --as-read", "as read")))
def test_believed_read_and_recovered_words(copies, option, said):
    """Numbers and chapters that are set aside aren't believed, and a code out of place is no number."""
    fields = drawn_words(FIELDS, 30)
    fields[10][1], fields[12][2] = (worn_line(word, NTSC, 10, 10) for word in (0xF00006, 0xF79999))
    write_stream(copies.path, NTSC, fields)
    copies.metadata("side.tbc.json", count=24)
    make(copies, count=24)
    copies.printed("side.tbc --document -o two.vbi.json")
    copies.printed("side.tbc --document --recovered -o recovered.vbi.json")
    for words, (name, meta) in itertools.product(SOURCES, (("copy.json", "side.tbc.json"), ("copy.db", "side.tbc.db"))):
        copies.printed("%s --meta %s --into %s%s" % (words, meta, name, option))
        found = words_of(copies, name)
        doubtful, six, far = (word if is_there else "-" for word, is_there in (
            ("#79999", option), ("#6", "recovered" in words), ("#79999", option and "recovered" in words)))
        wanted = {3: "c0 #2 #2", 9: "- #5 " + doubtful, 11: "- %s #6" % six, 13: "- #7 " + far,
                  14: "- c7 c7" if option else "- - -"}
        assert found[1] == said
        assert {field: found[0][field - 1] for field in wanted} == {
            field: [0 if one == "-" else int(word_of(one), 16) for one in three.split()]
            for field, three in wanted.items()}


def test_refused_runs(drawn):
    for name, count, field in (("12", 12, {}), ("13", 13, {}), ("five", 12, {"vbi": 5})):
        drawn.metadata(name + ".json", count=count, field=field)
    drawn.write("broken.json", b"{")
    for count in (11, 12):
        make(drawn, count=count, name="%d.db" % count)
    for name in ("j-journal", "w-wal", "s-shm"):
        drawn.write(name, b"")
    before = drawn.files()
    for words, text in cells_of(REFUSED_RUNS):
        drawn.refused(text, words + " --into copy" * ("--into" not in words))
    through_pipe = ["sh", "-c", 'cat 12.json | "$@"', "sh", *COMMAND]
    assert drawn.run_command("side.vbi.json --meta /dev/stdin --into copy", command=through_pipe)[2] == (
        "ldvbi-side: /dev/stdin is no file that can be copied\n")
    assert drawn.files() == before


@pytest.mark.parametrize("old, new, other", (
    ("15728657, 15728657", "15728657, 15728658", "words in field 12"), ('"believed"', '"as read"', "ldvbiWords"),
    ('"fields": [', '"fields": [{"vbi": {"vbiData": [1, 2, 3]}}, ', "13 fields")))
def test_the_copy_is_read_back(copies, old, new, other):
    """Nothing is left of one that isn't as it was to be written. What is no file isn't read back."""
    before, copy_of_text = copies.names(), Places.copy

    def altered(self, file, written, *more):
        text = io.StringIO()
        copy_of_text(self, file, text, *more)
        written.write(text.getvalue().replace(old, new, 1))

    with mock.patch.object(Places, "copy", altered):
        copies.refused("side.tbc.json: its copy has other " + other, "side.tbc --into copy.json")
        assert copies.run_command("side.tbc --into /dev/null")[0] == 0
    assert copies.names() == before


@pytest.mark.unrecorded  # what records each line holds more with each of them
@pytest.mark.parametrize("meta, copy_name", (("side.tbc.json", "copy.json"), ("side.tbc.db", "copy.db")))
def test_no_document_is_held_as_a_whole(copies, meta, copy_name):
    """The process may hold no more memory than this, beside the pages of the TBC file, which are the system's."""
    write_stream(copies.named("side.tbc"), NTSC, pictures(4), 20000 * SIZE)
    copies.metadata("side.tbc.json", count=20004,
                    field={"dropOuts": {"startx": list(range(90))}, "vbi": {"vbiData": [0, 0, 0]}})
    make(copies, count=20004)
    assert os.path.getsize(copies.named("side.tbc.json")) > 8 << 20
    assert copies.run_command("side.tbc", "--meta", meta, "--into", copy_name, preexec_fn=lambda: (
        resource.setrlimit(resource.RLIMIT_DATA, 2 * (50 << 20,)))) == (0, b"", "")
    assert len(words_of(copies, copy_name)[0]) == 20004
