"""The command `write`: what is written of drawn captures, field by field beside the truth; the same written again; what
is refused, and what is left then."""

import contextlib
import json
import os
import signal

from captured import CASES, disc, draw, drawn, entries_of, FILM, going_back, inside, lost, PAL, places_in, TIMES, VIDEO
from discs import pictures
from ldvbi.metadata import Metadata
from ldvbi_side.command import write as command
from ldvbi_side.write import copying, told
import pytest
from room import IN_PLACE, in_database, SIZE

# Cases in which a picture is unsure: the player may have jumped within it, or what is unread may be lead-out's
AMID = ("a field twice", "unread at the ends", "film, a still without a number")


@pytest.mark.parametrize("name, form", [*((name, "json") for name in CASES), *((name, "db") for name in (
    "pictures lost", "each lacks others", "a second field", "second fields", "film, filled", "times"))])
def test_what_is_written(room, name, form):
    """Each field of the disc's numbers stands there once, in order, and padding only where no capture has one. The
    output is judged in the same way by itself."""
    one, captures, padding = CASES[name]
    status, text, said = room.run_words(drawn(room, name, form))
    assert said == "" and "otherwise" not in text
    unread = [place for _, more in captures for place in more.get("unread", ())]
    places = places_in(room.named("out.tbc"), one, unread)
    wanted = [None if place in padding else place for place in inside(one)]
    assert places == [None] * (len(one.words) % 2) + wanted
    assert (status, text.split(":")[1].strip()) == (
        (1, "no") if padding else (4, "can't tell") if name in AMID else (0, "yes\nwritten"))
    status, text, _ = room.run_words("out.tbc --open-end")
    assert (status, text[:10]) == ((1, "whole: no:") if padding else (0, "whole: yes"))
    assert (" padding" in text.split("\n", maxsplit=1)[0]) == bool(padding)
    assert sorted(set(room.names()) - {letter + end for letter in "abc" for end in (
        ".tbc", ".pcm", ".efm", ".tbc.json", ".tbc.db")}) == [
            "out.efm", "out.pcm", "out.stretches.csv", "out.tbc", "out.tbc." + form]


def test_what_is_printed(room):
    assert room.run_words(drawn(room, "pictures lost")) == (1, (
        "whole: no: 3 pictures are padding (9 to 11); 1 picture may have another's field (8)\n"
        "written: 48 fields, 4 stretches, 0 changes\na.tbc: 42 fields, 21 pictures\n"), "")
    for words, said in (("9", "padding in fields 17 to 22, between 8 in field 15 and 12 in field 23"), ("12", None)):
        assert room.run_words("out.tbc --seek " + words) == (
            (1, "", "ldvbi-side: not found: %s\n" % said) if said else (0, "field 23, frame 12\n", ""))
    table = ("field,fields,frame,first,last,source,source field,how\n1,14,1,1,7,a.tbc,7,whole\n"
             "15,2,8,8,8,a.tbc,21,unsure\n17,6,9,9,11,,,padding\n23,26,12,12,24,a.tbc,23,whole\n")
    assert room.text("out.stretches.csv") == table
    for name in room.names():
        if name.startswith("out"):
            os.unlink(room.named(name))
    assert room.run_words("write out.tbc a.tbc --plan") == (1, table, "")
    assert "out.tbc" not in room.names()


def test_the_last_number_is_given(room):
    """The capture has 24 pictures with all their fields, and no lead-out."""
    draw(room.named("a.tbc"), VIDEO, VIDEO.order[:-6])
    lacks = "whole: no: 4 fields lost; 2 pictures lost"
    for words, status, head in (
            ("write out.tbc a.tbc --last 26", 1, lacks), ("write new.tbc a.tbc --last 24", 0, "whole: yes"),
            ("a.tbc --last 24", 0, "whole: yes"), ("a.tbc --last 26", 1, lacks),
            ("scan a.tbc --last 24", 0, "side "), ("scan a.tbc --last 26", 1, "side ")):
        found, text, _ = room.run_words(words)
        assert found == status and text.startswith(head) and "otherwise" not in text, words
    assert "a.tbc: has 24, none of them alone, lacks none, whole: no" in room.run_words(
        "join a.tbc new.tbc --last 25")[1]


@pytest.mark.parametrize("one, step, form", ((FILM, 0, "json"), (FILM, 0, "db"), (VIDEO, 1, "json")))
def test_an_output_is_written_again(room, one, step, form):
    """Alone it stays the same, byte for byte; another capture fills its padding as if both had been there at first,
    also that in the place of a second field."""
    draw(room.named("a.tbc"), one, lost(one, (5, step, 7 - 6 * step), (15, 0, 5)), form=form)
    draw(room.named("b.tbc"), one, [place for place in one.order if one.at[3] <= place < one.at[10]], form=form)
    for words in ("o.tbc a.tbc", "p.tbc o.tbc b.tbc", "q.tbc p.tbc", "r.tbc a.tbc b.tbc"):
        assert room.run_words("write " + words)[0] == 1
    ends = [".tbc", ".pcm", ".efm"] + [".tbc.json"] * (form == "json")
    for other in "qr":
        assert [room.read("p" + end) == room.read(other + end) for end in ends] == [True] * len(ends)
    assert entries_of(room.named("p.tbc")) == entries_of(room.named("r.tbc"))
    assert places_in(room.named("p.tbc"), one).count(None) == 5


def test_options(room):
    drawn(room, "whole")
    assert room.run_words("write out.tbc a.tbc --ends")[0] == 0
    assert places_in(room.named("out.tbc"), VIDEO) == VIDEO.order
    draw(room.named("b.tbc"), VIDEO, VIDEO.order[VIDEO.at[9]:])
    status, text, _ = room.run_words("write out.tbc b.tbc --from 1")
    assert (status, text.split("\n")[0]) == (1, "whole: no: 8 pictures are padding (1 to 8)")
    assert places_in(room.named("out.tbc"), VIDEO) == [None] * 16 + inside(VIDEO)[16:]
    assert room.run_words("out.tbc --seek 8")[2].endswith(
        ": the numbers begin at 9, in field 17, after padding in fields 1 to 16\n")
    assert room.run_words("write out.tbc b.tbc")[1].split("\n")[0] == "whole: no: begins at 9, ends at 24"
    draw(room.named("a.tbc"), VIDEO, lost(VIDEO, (9, 0, 8)))
    assert room.run_words("write out.tbc a.tbc --sure")[1].startswith(
        "whole: no: 4 pictures are padding (9 to 12); 1 picture lacks fields (8)\n")
    draw(room.named("t.tbc"), TIMES, TIMES.order[20:])
    assert room.run_words("write time.tbc t.tbc --from 0:00:00.05")[1].startswith(
        "whole: no: 2 times are padding (0:00:00.05 to 0:00:00.06)")
    room.refused("--from 0:01: t.tbc has times", "write time.tbc t.tbc --from 0:01")
    assert room.run_words("write o.tbc a.tbc --meta a.tbc.json --recovered")[0] == 1


def test_two_worn_captures_make_one_whole_side(room):
    """One lost fields within a picture, and has some unread; the other one went back, and lost others. Both have jumps
    within frames, so that pictures beside them are unsure in one, and sure in the other."""
    orders = [lost(VIDEO, (5, 1, 4), (18, 0, 3)), going_back(lost(VIDEO, (10, 1, 7)), VIDEO.at[21], VIDEO.at[15] + 1)]
    for letter, order, more in zip("ab", orders, ({"unread": range(VIDEO.at[12], VIDEO.at[13])}, {"jitter": 1})):
        draw(room.named(letter + ".tbc"), VIDEO, order, **more)
    joined = room.run_words("join a.tbc b.tbc --ranges")[1].split("\n")[1:-1]
    status, text, said = room.run_words("write out.tbc a.tbc b.tbc --ends")
    assert (status, text.split("\n")[0], said) == (0, "whole: yes", "")
    assert places_in(room.named("out.tbc"), VIDEO, range(VIDEO.at[12], VIDEO.at[13])) == VIDEO.order
    status, text, _ = room.run_words("out.tbc")
    assert (status, text.split("\n")[0]) == (0, "whole: yes")
    # join has said from where, without the ends
    rows = [row.split(",") for row in room.text("out.stretches.csv").split("\n")[1:-1]]
    assert [[row.split(",")[place] for place in (0, 1, 2, 3, 5)] for row in joined] == [
        [row[3], row[4], row[5], row[6], row[7]] for row in rows if row[3]]


def test_sound_that_one_lacks_is_left_out(room):
    words = drawn(room, "each lacks others")
    os.unlink(room.named("b.pcm"))
    assert room.run_words(words)[0] == 0
    assert "out.pcm" not in room.names() and "out.efm" in room.names()
    for end in ("", ".json"):  # beside a file whose name has no end the sound has its whole name
        os.rename(room.named("b.tbc" + end), room.named("b" + end))
    assert room.run_words(words.replace("b.tbc", "b"))[0] == 0
    assert "out.efm" in room.names()


@pytest.mark.parametrize("form", ["json", "db"])
def test_a_picture_is_taken_where_it_has_fewer_dropouts(room, form):
    """Pictures 4 to 8 have ten fields with 98 samples more in a, and those beside them in b."""
    at = VIDEO.at
    draw(room.named("a.tbc"), VIDEO, VIDEO.order, form=form, worse=range(at[4], at[9]))
    draw(room.named("b.tbc"), VIDEO, VIDEO.order, form=form, worse=[*range(at[1], at[4]), *range(at[9], at[14])])
    for change, wanted in ((489, [["1", "3", "a.tbc"], ["4", "8", "b.tbc"], ["9", "24", "a.tbc"]]),
                           (490, [["1", "24", "a.tbc"]])):
        assert room.run_words("write out.tbc a.tbc b.tbc --change %d" % change)[0] == 0
        assert [row.split(",")[3:6] for row in room.text("out.stretches.csv").split("\n")[1:-1]] == wanted


def test_dropouts_and_phases_that_are_known(room):
    """Dropouts of another form count for none; they aren't known if no field has any. A phase is 1 to 8, else 0. In a
    database a field may have several rows of dropouts, or none."""
    def facts(*fields):
        found = told.Told(False)
        for field in fields:
            found.add(0, "", field)
        return found.facts(Metadata("", None, None, None, []))

    def dropouts(*spans):
        return {"dropOuts": {"startx": [one for one, _ in spans], "endx": [one for _, one in spans]}}

    some = facts(dropouts((3, 7)), {}, {"dropOuts": {"endx": 3}}, dropouts((1, 1), (8, 9)), dropouts())
    assert (list(some.damage), some.phase) == ([5, 0, 0, 3, 0], None)
    assert facts({"dropOuts": []}, {}, dropouts((2, 0))).damage is None and list(facts(dropouts()).damage) == [0]
    assert list(facts(*({"fieldPhaseID": one} for one in (1, 8, 9, 0, -1, True, 2.0, None))).phase) == [1, 8] + 6 * [0]
    draw(room.named("a.tbc"), VIDEO, VIDEO.order[:5], form="db", worse=[2])
    for statements, wanted in (
            (["CREATE TABLE ones AS SELECT field_id, startx, endx FROM drop_outs", "DROP TABLE drop_outs",
              "ALTER TABLE ones RENAME TO drop_outs", "DELETE FROM drop_outs WHERE field_id = 3",
              "INSERT INTO drop_outs VALUES (2, 7, 9)"], [2, 2, 103, 0, 2]), (["DELETE FROM drop_outs"], None)):
        in_database(room.named("a.tbc.db"), *statements)
        found = told.Told(False)
        found.add_rows(room.named("a.tbc.db"))
        damage = found.facts(Metadata("", None, None, None, [])).damage
        assert (damage and list(damage)) == wanted


def test_numbers_set_aside_are_no_words(room):
    """And a picture of two fields alone is written as it is, byte for byte, but for what says that it is written."""
    one = disc(pictures(range(1, 9)))
    one.words[12][2] = 0xF79999
    draw(room.named("a.tbc"), one, one.order)
    assert room.run_words("write out.tbc a.tbc")[0] == 4
    assert entries_of(room.named("out.tbc"))[6]["vbi"]["vbiData"] == [0, one.words[12][1], 0]
    name = os.fsdecode(b"two\xff.tbc")
    draw(room.named(name), VIDEO, VIDEO.order[6:8])
    room.run_words("write", "new.tbc", name)
    assert room.text("new.tbc.json") == room.text(name + ".json").replace('"isMapped": false', '"isMapped": true')
    assert b",two\xff.tbc," in room.read("new.stretches.csv")
    draw(room.named("one.tbc"), VIDEO, VIDEO.order[6:7])
    room.run_words("write one_too.tbc one.tbc")
    assert places_in(room.named("one_too.tbc"), VIDEO) == [6, None]


def test_seams(room):
    """The colour's phase of b is one on in all its fields."""
    words = drawn(room, "ahead, filled")
    document = json.loads(room.text("b.tbc.json"))
    for field in document["fields"]:
        field["fieldPhaseID"] = field["fieldPhaseID"] % 4 + 1
    room.write("b.tbc.json", json.dumps(document))
    text = room.run_words(words)[1]
    assert text.startswith("whole: no: 1 seam\n") and text.endswith("\nseam after field 36: phase\n")


def test_what_is_read_otherwise_is_said(room, monkeypatch):
    words = drawn(room, "whole")
    made = command.plan

    def turned(*given):
        found = made(*given)
        one = found.stretches[0]
        return found._replace(stretches=[one._replace(fields=20), one._replace(
            out=21, fields=28, field=one.field + 21)])
    monkeypatch.setattr(command, "refuse_wrong", lambda *_: None)
    monkeypatch.setattr(command, "plan", turned)
    status, text, _ = room.run_words(words)
    assert status == 1 and text.startswith("whole: no: read otherwise: ") and "read otherwise: 12 in field 22, " in text


# ---- Refusals, after which nothing is left

def changed(change):
    """A change of a document."""
    def made(data):
        document = json.loads(data)
        change(document)
        return json.dumps(document).encode()
    return made


def other(name):
    """Another value of a member of the parameters."""
    return changed(lambda one: one["videoParameters"].update({name: 51000}))


PARAMETERS = {"sampleRate": 14.5, "blanking16bIre": 16000, "activeVideoStart": 134, "activeVideoEnd": 894,
              "colourBurstStart": 74, "colourBurstEnd": 110, "isSubcarrierLocked": True}
# The files that are changed, or made, each with a function of its bytes, or without one if it is removed; more words;
# and why what is asked of two captures is refused then
REFUSED = (
    ({"b.tbc.json": changed(lambda one: one["videoParameters"].update(black16bIre=7))}, "",
     "black16bIre of a.tbc is 16384, of b.tbc 7: decode both in one way"),
    *(({"b.tbc.json": other(name)}, "", "%s of a.tbc is %s, of b.tbc 51000: decode both in one way" % (name, value))
      for name, value in {**PARAMETERS, "white16bIre": 51200}.items()),
    ({"b.tbc.json": changed(lambda one: one["fields"].pop())}, "", "b.tbc has 55 whole fields, and b.tbc.json has 54"),
    ({"b.tbc.json": changed(lambda one: one["fields"][3].update(seqNo=9))}, "",
     "b.tbc.json: field 4: its seqNo is 9"),
    ({"b.tbc": lambda data: data + b"12"}, "", "b.tbc: its last field is cut: 2 bytes; head -c makes it whole"),
    ({"b.pcm": lambda data: data + b"1234"}, "",
     "b.pcm has 161896 bytes, and its fields' audioSamples come to 161892"),
    ({"b.tbc.json": changed(lambda one: one["fields"][2].pop("efmTValues")), "b.efm": lambda data: data[:2370]}, "",
     "b.efm has 2370 bytes, and its fields' efmTValues come to no sum"),
    ({"b.tbc.json": None}, "", "b.tbc: no b.tbc.json or b.tbc.db beside it"),
    *(({one: None, name: lambda _: b"old"}, "", name + " is there, and would be taken for a part of what is written: "
       "remove it") for one, name in (("b.pcm", "out.pcm"), ("b.efm", "out.efm"), ("no", "out.tbc.db"))),
    ({}, "--from 0:00:01.00", "--from 0:00:01.00: a.tbc has pictures"),
    ({}, "--from 0:01", "--from 0:01: a.tbc has pictures"),
    ({}, "--from 0 --most-padding 1", "2 of 50 fields would be padding; see --most-padding"),
    ({}, "p.tbc", "system of a.tbc is NTSC, of p.tbc PAL: decode both in one way"),
    ({}, "d.tbc", "metadata of one form is needed: a.tbc.json, b.tbc.json, d.tbc.db"),
    ({}, "side.vbi.json", "side.vbi.json is a document: fields are taken from TBC files"),
    ({"b.tbc": lambda _: b" " * 99 + b'{"version":2}'}, "", "b.tbc is a document: fields are taken from TBC files"))


def test_refused(room):
    words = drawn(room, "each lacks others", **PARAMETERS)
    draw(room.named("p.tbc"), PAL, PAL.order)
    draw(room.named("d.tbc"), VIDEO, VIDEO.order, form="db")
    room.write("side.vbi.json", '{"version":2}')
    for files, more, text in REFUSED:
        before = {name: room.read(name) for name in files if name in room.names()}
        for name, change in files.items():
            if change:
                room.write(name, change(before.get(name)))
            elif name in before:
                os.unlink(room.named(name))
        names = room.names()
        room.refused(text, words + " " + more if more else words)
        assert room.names() == names
        for name in files:
            if name in before:
                room.write(name, before[name])
            elif name in names:
                os.unlink(room.named(name))
    room.write("b.tbc.json", changed(lambda one: one["videoParameters"].pop("sampleRate"))(room.read("b.tbc.json")))
    os.link(room.named("a.tbc"), room.named("out.tbc"))
    room.refused(IN_PLACE % "out.tbc", words + " b.tbc")
    os.unlink(room.named("out.tbc"))
    os.mkdir(room.named("out.tbc"))
    room.refused("out.tbc is no file", words)
    os.unlink(room.named("b.pcm"))
    os.mkdir(room.named("b.pcm"))
    room.refused("b.pcm is no file", words)
    assert room.names("out.tbc") == [] and not [name for name in room.names() if "part" in name]


def test_refused_databases_and_words(room):
    draw(room.named("b.tbc"), VIDEO, VIDEO.order, form="db")
    room.write("out.tbc.json", "old")
    room.refused("out.tbc.json is there, and would be taken for a part of what is written: remove it",
                 "write out.tbc b.tbc")
    room.refused("absent: No such file or directory", "write out.tbc b.tbc --meta absent")
    for statements, text in (
            (["CREATE TRIGGER more AFTER INSERT ON vbi BEGIN SELECT 1; END"],
             "its trigger more of the table vbi may write something else"),
            (["DROP TRIGGER more", "UPDATE field_record SET field_id = 99 WHERE field_id = 3"],
             "the fields' numbers, field_id, leave some out, or have one twice"),
            (["UPDATE field_record SET field_id = 4, capture_id = 2 WHERE field_id = 99"],
             "the fields' numbers, field_id, leave some out, or have one twice"),
            (["DELETE FROM field_record"], "the fields' numbers, field_id, leave some out, or have one twice"),
            (["ALTER TABLE field_record RENAME COLUMN is_first_field TO other"],
             "no table, or more than one, has the fields"),
            (["ALTER TABLE vbi RENAME COLUMN vbi0 TO other"], "no table vbi with field_id, vbi0, vbi1 and vbi2")):
        in_database(room.named("b.tbc.db"), *statements)
        room.refused("b.tbc.db: " + text, "write out.tbc b.tbc")
    room.refused("/dev/null is no file that can be copied", "write out.tbc b.tbc --meta /dev/null")
    for words, text in (("out.raw a.tbc", "the name of what is written has to end with .tbc"),
                        ("out.tbc a.tbc b.tbc --meta a.tbc.json", "--meta names the metadata of one capture"),
                        ("out.tbc a.tbc --from x", "argument --from: no picture and no time: 'x'"),
                        ("out.tbc a.tbc --change x", "argument --change: no number: 'x'")):
        status, printed, said = room.run_words("write " + words)
        assert (status, printed, said.split(": error: ")[1]) == (2, "", text + "\n")


def test_a_full_disk(room, monkeypatch):
    """What 48 fields of 60 need, with a part of what is beside them; a byte less isn't enough."""
    words = drawn(room, "whole")
    before = room.files()
    needed = int(48 * (SIZE + sum(len(before["a" + end]) for end in (".pcm", ".efm", ".tbc.json")) / 60))
    for free, status, end in ((20500000, 2, "20 MB are free, and 24 MB are needed\n"), (needed - 1, 2, "\n"),
                              (needed, 0, "")):
        monkeypatch.setattr(os, "statvfs", lambda _, free=free: os.statvfs_result([1, 1, 0, 0, free] + [0] * 5))
        found, _, said = room.run_words(words)
        assert (found, room.files() == before, said[-len(end):]) == (status, status == 2, end)


def changed_after(monkeypatch, change):
    """Has something happen as soon as the sound is written."""
    copy = copying.copy_sound

    def copied(*given):
        change()
        return copy(*given)
    monkeypatch.setattr(command, "copy_sound", copied)


@pytest.mark.parametrize("text, change", (
    ("b.tbc was changed meanwhile", lambda room: os.utime(room.named("b.tbc"))),
    ("b.efm was changed meanwhile", lambda room: os.unlink(room.named("b.efm"))),
    ("out.tbc: a.pcm was made shorter meanwhile", lambda room: os.truncate(room.named("a.pcm"), 100))))
def test_captures_that_change_meanwhile(room, monkeypatch, text, change):
    words = drawn(room, "each lacks others")
    os.unlink(room.named("a.efm"))
    room.write("out.tbc", b"old")
    changed_after(monkeypatch, lambda: change(room))
    names = {*room.names(), "b.efm"}
    room.refused(text, words)
    assert {*room.names(), "b.efm"} == names and room.read("out.tbc") == b"old"


def test_databases_are_joined_as_texts_are(room):
    """Whether what is joined could be copied is no matter."""
    answers = []
    for form in ("json", "db"):
        drawn(room, "each lacks others", form)
        if form == "json":
            room.write("b.tbc.json", changed(lambda one: one["fields"][3].update(seqNo=9))(room.read("b.tbc.json")))
        answers.append(room.run_command("join --json a.tbc b.tbc"))
        for letter in "ab":
            os.unlink(room.named(letter + ".tbc." + form))
        assert not told.is_database_at(room.named("a.tbc." + form))
    assert answers[0][0] == 0 and answers[0] == answers[1]
    drawn(room, "each lacks others", "db")  # one of which no table has the fields
    in_database(room.named("a.tbc.db"), "ALTER TABLE field_record RENAME COLUMN is_first_field TO other")
    assert room.run_command("join a.tbc b.tbc")[0] == 0


def test_what_sqlite_cannot_write(room, monkeypatch):
    """As if a disk failed; or since what a database has calls a function, of which one may take hours."""
    words = drawn(room, "whole", "db")
    in_database(room.named("a.tbc.db"), "CREATE TABLE more (a)", "CREATE INDEX of_more ON more (abs(a))")
    before = room.files()
    room.refused("out.tbc: SQLite can't write the metadata: not authorized to use function: abs", words)
    monkeypatch.setattr("ldvbi_side.write.rows._KEPT", "CREATE TEMP TABLE no")
    room.refused("out.tbc: SQLite can't write the metadata: incomplete input", words)
    assert room.files() == before


def test_it_ends_in_order(room, monkeypatch):
    words = drawn(room, "each lacks others")
    before = room.files()
    changed_after(monkeypatch, lambda: os.kill(os.getpid(), signal.SIGINT))
    with contextlib.chdir(room.folder), pytest.raises(KeyboardInterrupt):
        command.write_side("ldvbi-side", words.split()[1:])
    assert room.files() == before
