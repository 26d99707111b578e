"""Which sides may be captures of one disc, and what an index and a scan say of them."""

import html
import json
import os
import shlex

from compact import cells_of, made
from discs import side
from ldvbi_side.draw.discs import discs_of
from ldvbi_side.join.captures import capture_of, marks_of
from ldvbi_side.join.discs import Discs
from ldvbi_side.join.heads import head_of_side
from ldvbi_side.join.marks import MOST, marks_in, plain_marks, ranges_of
from ldvbi_side.join.others import shown_by

# What stands for sides in the table: of one disc by a users' code, and with the same programme status throughout
NAMES = {"USERS": "83D0A1/-/-", "STATUS20": "1:40/2.16=8DC0E5", "STATUS": "1:80/2.16=8DC0E5",
         "OTHER": "1:80/2.16=8BA0E5",
         "CHAPTERS": "1..40 2:30/2=-/c1/c1 32:80/2=-/c2/c2"}
# Why, sides a, b, .., and those that are put together, with what shows it
TABLE = """
    a users' code | USERS 1..40 ; 1..40 ; USERS 41..80 | a c by users' code
    other users' codes beside the same chapters | CHAPTERS USERS ; CHAPTERS 83D0A2/-/- ; CHAPTERS | a c by chapter
    side B ends elsewhere | USERS 1..40 O ; USERS 1..60 O | none
    by what a player may lose there | USERS 1..40 O ; USERS 1..30 O | a b by users' code
    not by more | USERS 1..40 O ; USERS 1..29 O | none
    unless its last ones are unread | USERS 1..40 O ; USERS 1..20 Bx20 O | a b by users' code
    or are in either | USERS 1..20 O ; USERS 1..25 Bx30 O ; USERS 1..20 O | a b c by users' code
    so of two | USERS 1..20 O ; USERS 1..25 Bx30 O | a b by users' code
    so whichever comes first | USERS 1..20 Bx20 O ; USERS 1..40 O | a b by users' code
    some whose end isn't shown | USERS 1..60 ; USERS 1..40 O ; USERS 1..60 | a b c by users' code
    a side begins elsewhere | L USERS 1..40 ; L USERS 12..40 | none || by ten | L USERS 1..40 ; L USERS 11..40
        | a b by users' code
    minutes end alike | USERS m0..3x3000 O ; USERS m0..4x3000 O ; USERS m0..3x3000 O | a c by users' code
    side B has other chapters | CHAPTERS USERS ; 1..40 2:30/2=-/c3/c3 32:80/2=-/c4/c4 USERS | none
    chapters | CHAPTERS ; CHAPTERS USERS | a b by chapter
    of one alone | 1..40 2:80/2=-/c1/c1 ; 1..40 2:80/2=-/c1/c1 | none
    a programme status | 1..40 STATUS ; 1..40 STATUS | a b by programme status
    another one | 1..40 STATUS ; 1..40 OTHER | none
    nothing shown | 1..40 ; 1..40 | none || no numbers | USERS B ; USERS 1..40 | none
    another system | USERS 1..40 ; NTSC USERS 1..40 | none
    film and video | NTSC USERS f1..40 ; NTSC USERS 1..40 | none
    halves by a whole one | 1..20 STATUS20 ; 21..40 STATUS20 ; 1..40 STATUS | a b c by programme status
    two discs | USERS 1..40 ; 83D0A2/-/- 1..40 ; 83D0A2/-/- 1..40 ; USERS 1..40
        | a d by users' code, b c by users' code
    two sides in one file | USERS 1..40 Ox2 Lx2 1..40 Ox2 ; USERS 1..40 | none
    three, each tied to both others | USERS 1..40 ; USERS 1..40 ; USERS 1..40 | a b c by users' code
    one that ties two which differ | USERS 1..40 O ; USERS 1..60 O ; USERS 1..20 | a c by users' code
"""


def marked(text, name):
    """What the head of the page of a side has, as it is read from there."""
    return marks_in(json.loads(json.dumps(head_of_side(named(text)))), name)


def named(text):
    """The side of a text with names."""
    for short, parts in NAMES.items():
        text = text.replace(short, parts)
    return made(text, side)


def test_table():
    for why, texts, *wanted in cells_of(TABLE):
        discs = Discs()
        for text, name in zip(texts.split(" ; "), "abcd"):
            discs.add(marked(text, name))
        found = ", ".join("%s by %s" % (" ".join(one.sides), ", ".join(one.by)) for one in discs.found()) or "none"
        assert (why, found) == (why, *wanted)


def test_what_join_says_shows_it():
    """The same by a capture as by the head of its page, and by captures that nothing ties."""
    ones = list(map(named, ("1..20 STATUS20", "21..40 STATUS20", "1..40 STATUS")))
    captures = [capture_of(one, name) for one, name in zip(ones, "abc")]
    assert shown_by(captures) == ["programme status"] and shown_by(captures[:2]) == []
    assert [marks_in(head_of_side(one), name) for one, name in zip(ones, "abc")] == [one.marks for one in captures]


def test_the_first_of_each_group():
    """That a side ties to: two halves, and then the whole disc; options that all were read with are the command's."""
    discs = Discs()
    found = [discs.add(marked(text, name), options) for text, name, options in (
        ("1..20 STATUS20", "a b.tbc", ["--strict", "--black=1"]), ("21..40 STATUS20", "-b.tbc", ["--black=1"]),
        ("B", "no.tbc", []), ("1..40 STATUS", "c.tbc", ["--black=1"]), ("1..40 STATUS", "d.tbc", ["--black=1"]))]
    assert found == [[], [], [], ["a b.tbc", "-b.tbc"], ["a b.tbc"]]
    one, = discs.found()
    assert one.command() == "ldvbi-side join --black=1 -- 'a b.tbc' -b.tbc c.tbc d.tbc"


def test_numbers_that_last():
    """Ranges of every other one, and of what doesn't fit."""
    assert ranges_of([1, 3, 5, 6, 7, 20]) == [range(1, 6, 2), range(6, 8), range(20, 21)]
    assert ranges_of([]) == []


def test_too_many_marks():
    """A side whose programme status changes with each number shows nothing."""
    marks = marks_of(named("1..40 STATUS"), "a")
    ones = marks.said["programme status"] * MOST
    assert plain_marks(marks._replace(said={"chapter": [], "programme status": ones[:MOST - len(marks.lasting)]}))
    assert plain_marks(marks._replace(said={"chapter": [], "programme status": ones})) is None


def test_what_a_scan_says(room):
    """Of two captures of one disc, and one of another disc. In a row stands the side that it may go with, below the
    command that joins them. An index is of pages of all scans, with the options with which they were read, and not of
    a side that isn't there any longer; a page that was read before says the same of its side."""
    for name, text in (("a 1", "83D0A1/-/- 1..30 O"), ("a2", "83D0A1/-/- 1..11 14..30 O"), ("b", "83D0A2/-/- 1..30 O")):
        room.add("sides/%s.tbc" % name, text)
    command = "ldvbi-side join 'sides/a 1.tbc' sides/a2.tbc"
    first = room.scan("--csv --html pages sides")
    assert [row.split(",")[-1] for row in first[1].splitlines()] == ["with", "", "sides/a 1.tbc", ""]
    assert room.scan("--csv --html pages sides") == first
    known = json.loads(room.scan("--json sides")[1])
    assert [one["with"] for one in known["sides"]] == [[], ["sides/a 1.tbc"], []]
    assert known["discs"] == [{"sides": ["sides/a 1.tbc", "sides/a2.tbc"], "by": ["users' code"], "join": command}]
    assert room.scan("sides")[1].splitlines()[4:] == ["may be one disc (users' code): " + command]
    assert room.run_words(*shlex.split(command)[1:])[0] == 0
    room.scan("--html", "others", "--black", "16384", "sides/a 1.tbc")
    room.scan("--html", "others", "--black", "16384", "sides/a2.tbc", "sides/b.tbc")
    text = room.text("others/index.html")
    begin = text.index("<h2>May be one disc</h2>")
    command = shlex.join(["ldvbi-side", "join", "--black=16384", *(
        os.path.realpath(room.named(name)) for name in ("sides/a 1.tbc", "sides/a2.tbc"))])
    assert "<li>users&#x27; code: <code>%s</code></li>" % html.escape(command) in text[begin:]
    os.unlink(room.named("sides/a2.tbc"))
    room.scan("--html", "others", "--black", "16384", "sides/b.tbc")
    assert "one disc" not in room.text("others/index.html")
    assert discs_of([]) == ""
