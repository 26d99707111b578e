"""`scan` as a day's work: what it writes of each side and of captures of one disc, options of single sides from a
table, and several scans into one folder of pages."""

import contextlib
import csv
import json
import os
import shutil

from captured import Disc, draw, losing, places_in
from compact import cells_of
from discs import LEAD_IN, LEAD_OUT, pictures
from ldvbi_side.command.main import scanned
from ldvbi_side.command.progress import heard_by
from ldvbi_side.command.scan import scan
import pytest
from room import DEADLINE, IN_PLACE, SIZE
from test_scan import listed


def disc(count, users):
    """A disc of so many pictures, with a users' code in its lead-in."""
    return Disc(["%s 88FFFF 88FFFF" % users, *[LEAD_IN] * 5, *pictures(range(1, count + 1)), *[LEAD_OUT] * 6])


ONE, OTHER = disc(24, "83D0A1"), disc(20, "83D0A2")


@pytest.fixture
def archive(room):
    """Two captures of one disc, of which each lacks others, and one of another disc."""
    os.mkdir(room.named("sides"))
    draw(room.named("sides/a.tbc"), ONE, losing(ONE.order, (ONE.at[9], 6)))
    draw(room.named("sides/b.tbc"), ONE, losing(ONE.order, (ONE.at[15], 4)), jitter=1)
    draw(room.named("sides/c.tbc"), OTHER, OTHER.order)
    return room


def inside(one):
    """The places of a disc that are of its numbers."""
    return list(range(6, len(one.words) - 6))


def test_captures_of_one_disc_are_written(archive, monkeypatch):
    """As the command write does it, by the first one's options; the status is that of the file, and of the other
    disc."""
    monkeypatch.setattr(os, "statvfs", lambda _: os.statvfs_result([4096, 4096, 0, 0, 1000000] + [0] * 5))
    status, text, said = archive.run_words("scan -j1 --csv sides --write out")
    assert [row.split(",")[1] for row in text.splitlines()[1:]] == ["no", "no", "yes"]
    assert said.replace("ldvbi-side: ", "").splitlines() == [
        "out: 4096 MB are free, and about 27 MB are needed for 1 side", *("out/a.tbc: " + line for line in (
            "4096 MB are free, and 24 MB are needed", "whole: yes", "written: 48 fields, 2 stretches, 1 change",
            "sides/a.tbc: 24 fields, 12 pictures", "sides/b.tbc: 24 fields, 12 pictures"))]
    assert (status, places_in(archive.named("out/a.tbc"), ONE)) == (0, inside(ONE))
    written = {name: archive.read("out/" + name) for name in archive.names("out")}
    done = []  # as a terminal shows it: what is written, and read again
    with heard_by(lambda *fields: done.append(fields)):
        assert archive.run_words("write out/again.tbc sides/a.tbc sides/b.tbc")[0] == 0
    assert [done.count((fields, 48)) for fields in (0, 48)] == [2, 2]
    assert written == {name: archive.read("out/" + name.replace("a.", "again.", 1)) for name in written}
    assert archive.run_words("join --csv sides/a.tbc sides/b.tbc")[2] == ""  # they are of one disc
    archive.write("table.csv", "side,last\nsides/a.tbc,26\n")
    for more, status, whole in (("", 0, "yes"), (" --sides table.csv", 1, "no: 4 fields lost; 2 pictures lost")):
        found, _, said = archive.run_words("scan -j1 --csv sides --write out" + more)  # over the older file
        assert (found, said.splitlines()[2]) == (status, "ldvbi-side: out/a.tbc: whole: " + whole)
    os.unlink(archive.named("sides/b.efm"))
    assert archive.run_words("scan -j1 --csv sides --write less")[0] == 0
    assert archive.names("less") == ["a.pcm", "a.stretches.csv", "a.tbc", "a.tbc.json"]
    os.unlink(archive.named("sides/b.tbc"))
    assert archive.run_words("scan -j1 --csv sides --write none")[::2] == (1, "") and archive.names("none") == []


def test_what_is_not_written(archive):
    """A fault of one disc is said, and the others go on. No side of the scan is replaced, of whichever disc it is."""
    shutil.copytree(archive.named("sides"), archive.named("before"))
    status, _, said = archive.run_words("scan -j1 --csv sides --write sides")
    assert (status, said.splitlines()[1]) == (2, "ldvbi-side: sides/a.tbc: " + IN_PLACE % "sides/a.pcm")
    draw(archive.named("sides/d.tbc"), OTHER, losing(OTHER.order, (OTHER.at[9], 4)))
    archive.metadata("sides/b.tbc.json")
    status, _, said = archive.run_words("scan -j1 --csv sides --write out")
    first, second, *_ = said.splitlines()
    assert status == 2 and first.endswith(" and about 53 MB are needed for 2 sides") and second == (
        "ldvbi-side: out/a.tbc: sides/b.tbc has 56 whole fields, and sides/b.tbc.json has 0")
    assert archive.names("out") == ["c.efm", "c.pcm", "c.stretches.csv", "c.tbc", "c.tbc.json"]
    assert places_in(archive.named("out/c.tbc"), OTHER) == inside(OTHER)
    for name in archive.names("before"):
        assert archive.read("before/" + name) == archive.read("sides/" + name) or name == "b.tbc.json"
    # a document has no fields to be written
    archive.write("sides/b.vbi.json", archive.extracted("sides/b.tbc"))
    for name in "bcd":
        os.unlink(archive.named("sides/%s.tbc" % name))
    status, text, said = archive.run_words("scan -j1 sides --write none")
    assert "join sides/a.tbc sides/b.vbi.json" in text and (status, said, archive.names("none")) == (1, "", [])


def test_padding_is_as_black_as_the_first_capture(archive):
    """Whatever a table says of the others. Both lack pictures 9 to 11."""
    draw(archive.named("sides/b.tbc"), ONE, losing(ONE.order, (ONE.at[9], 6)), jitter=1)
    archive.write("table.csv", "side,black\nsides/a.tbc,16000\n")
    os.makedirs(archive.named("out/a.tbc"))
    status, _, said = archive.run_words("scan -j1 sides --sides table.csv --write out")
    assert (status, said.splitlines()[2:]) == (2, ["ldvbi-side: out/a.tbc is no file"])
    os.rmdir(archive.named("out/a.tbc"))
    assert archive.run_words("scan -j1 sides --sides table.csv --write out")[0] == 1
    assert archive.read("out/a.tbc")[16 * SIZE:22 * SIZE] == (16000).to_bytes(2, "little") * (3 * SIZE)


def test_maps_and_chapters(archive):
    """Beside the pages, each in folders as those of the sides."""
    os.mkdir(archive.named("more"))
    os.rename(archive.named("sides"), archive.named("more/sides"))
    archive.add("more/none.tbc", "b1..30 O")  # without chapters
    archive.scan("-j1 --html pages more")
    archive.scan("-j1 --html pages --map maps more")
    status, _, said = archive.scan("-j1 --csv --html pages --chapters chapters more")
    assert (status, said) == (1, "ldvbi-side: no chapter of the side is believed: chapters/none.ffmeta isn't written\n")
    assert [archive.names(name) for name in ("maps", "maps/sides", "chapters", "chapters/sides")] == [
        ["none.map", "sides"], ["a.map", "b.map", "c.map"], ["sides"], ["a.ffmeta", "b.ffmeta", "c.ffmeta"]]
    for option, name in (("--map", "maps/sides/a.map"), ("--chapters", "chapters/sides/a.ffmeta")):
        archive.run_words("more/sides/a.tbc", option, "alone")
        assert archive.read("alone") == archive.read(name)


def test_options_of_single_sides(drawn):
    """By columns, and by `try` of an earlier scan; what isn't in the table is read by the options of all."""
    drawn.add("open.tbc", "1..30")
    drawn.add("dark.tbc", setup=("NTSC", 16384, 30000))
    drawn.add("a b.tbc", "1..30")
    drawn.metadata("other.json", white16bIre=30000)
    words = "--csv", "-j1", "open.tbc", "dark.tbc", "a b.tbc"
    found = drawn.scan(*words)[1]
    rows = {row["side"]: row for row in csv.DictReader(found.splitlines())}
    assert [row["whole"] for row in rows.values()] == ["can't tell"] * 3 and rows["dark.tbc"]["try"] == "--white 30000"
    for table, wanted in (
            (found.replace("60,,", "60,--open-end,", 1), ["yes", "yes", "can't tell"]),
            ("\ufeffside,open_end,meta\r\n./open.tbc,yes,\r\n\r\ndark.tbc,no,other.json\r\n",
             ["can't tell", "yes", "yes"]),
            ("side,last,white\nopen.tbc,30,\na b.tbc,31,\ndark.tbc,,30000\n", ["no", "yes", "yes"]),
            ("side,open_end\nopen.tbc,1\na b.tbc,true\ndark.tbc,0\n", ["yes", "can't tell", "yes"]),
            ("side,open_end\nopen.tbc,\na b.tbc,false\ndark.tbc,no\n", ["can't tell"] * 3)):
        drawn.write("table.csv", table)
        _, text, said = drawn.scan(*words, "--sides", "table.csv")
        assert ([row["whole"] for row in csv.DictReader(text.splitlines())], said) == (wanted, ""), table
    drawn.write("table.csv", "side,white\nopen.tbc,\ndark.tbc,30000\n")
    text = drawn.scan(*words, "--open-end", "--sides", "table.csv")[1]
    assert [row["whole"] for row in csv.DictReader(text.splitlines())] == ["yes"] * 3


# Tables that are refused, and why
BAD = r"""
    a,side\n | line 1, column 1: 'a' is none of COLUMNS, or stands twice
    side,side\n | line 1, column 2: 'side' is none of COLUMNS, or stands twice
    white\n1\n | line 1: there is no column side || \n | line 1: there is no column side
    side,white\nx,1\nside.tbc,x\n | line 3, column white: argument --white: invalid int value: 'x'
    side,system\nside.tbc,SECAM\n
        | line 2, column system: argument --system: invalid choice: 'SECAM' (choose from 'NTSC', 'PAL')
    side,open_end\nside.tbc,perhaps\n | line 2, column open_end: neither yes nor no: 'perhaps'
    side,last\nside.tbc,chapter 3\n
        | line 2, column last: argument --last: neither a picture number nor a time h:mm, h:mm:ss or h:mm:ss.pp:
        'chapter 3'
    side,try\nside.tbc,--html x\n | line 2, column try: unrecognized arguments: --html x
    side,try\nside.tbc,--whit 1\n | line 2, column try: unrecognized arguments: --whit 1
    side,try\nside.tbc,-h\n | line 2, column try: unrecognized arguments: -h
    side,try\nside.tbc,'\n | line 2, column try: No closing quotation
    side,white\nside.tbc\n | line 2 has 1 columns, and the first line 2
    side,white\nside.tbc,1\n./side.tbc,1\n | line 3, column side: ./side.tbc stands in line 2, too
"""


def test_bad_tables(room):
    room.add("side.tbc")
    columns = "side, system, black, white, meta, last, open_end, try"
    for table, said in cells_of(BAD):
        room.write("sides.csv", table.replace(r"\n", "\n"))
        room.refused("sides.csv: " + said.replace("COLUMNS", columns), "scan side.tbc --sides sides.csv")
    room.write("sides.csv", 'side\n"%s"\n' % ("x" * 200000))
    room.refused("sides.csv: field larger than field limit (131072)", "scan side.tbc --sides sides.csv")
    room.refused("absent: No such file or directory", "scan side.tbc --sides absent")
    for others, said in ((b"\xff.tbc,1\n", "1 of its sides isn't"), (b"a.tbc,1\nb.tbc,1\n", "2 of its sides aren't")):
        room.write("sides.csv", b"side,white\n" + others)
        assert room.scan("--csv side.tbc --sides sides.csv")[1:] == (
            room.scan("--csv side.tbc")[1], "ldvbi-side: sides.csv: %s in this scan\n" % said)
    for words in ("--sides ''", "--write ''", "--map ''", "--chapters ''"):
        assert room.scan("side.tbc " + words)[0] == 2


def not_read(task):
    raise ValueError("%s is read again" % task.path)


def test_a_page_of_a_side_with_options_of_its_own(room):
    """It isn't read again as long as the table says the same of it, and its metadata is older."""
    room.add("side.tbc")
    room.metadata("other.json")
    words = ["-j1", "--csv", "--html", room.named("pages"), "--sides", room.named("sides.csv"), room.path]
    room.write("sides.csv", "side,meta\n%s,%s\n" % (room.path, room.named("other.json")))
    assert [scan(words, scanned), scan(words, not_read)] == [0, 0]
    os.utime(room.named("other.json"))
    assert [scan(words, not_read), scan(words, scanned)] == [2, 0]
    room.write("sides.csv", "side,white\n%s,51000\n" % room.path)
    assert [scan(words, not_read), scan(words, scanned), scan(words, not_read)] == [2, 0, 0]


def adds(task):
    """Writes more to the file that keeps the name of a page, and reads no side."""
    with open(task.page, "ab") as file:
        file.write(b"\xff")
    raise ValueError("it is added to")


def test_a_page_of_somebody_else(room):
    """What stands where a scan kept the name of a page stays, if it isn't the scan's."""
    room.add("1.tbc")
    with contextlib.chdir(room.folder):
        assert scan(["--html", "pages", "1.tbc"], adds) == 2
    assert room.read("pages/1.html")[-3:] == b">\n\xff"


def test_packed_sides(room):
    """A row has the command that the side alone has."""
    room.write("side.tbc.gz", b"\x1f\x8b\x08\x00" + bytes(20))
    room.metadata("side.tbc.json")
    alone = room.run_words("side.tbc.gz")[2].rstrip("\n").partition(": ")[2]
    assert alone.endswith("| ldvbi-side -")
    known = json.loads(room.scan("--json .")[1])["sides"][0]
    assert "%s: %s" % (known["side"], known["fault"]) == alone.replace("side.tbc", "./side.tbc")


def test_an_archive_on_several_machines(room):
    """Each scans folders of its own into one folder of pages, at the same time, and the index has all of them. What
    isn't to be seen from the last machine isn't gone."""
    places = [room.named("archive/%d" % place) for place in range(4)]
    for place, folder in enumerate(places):
        room.add(os.path.join(folder, "side.tbc"), "83D0A1/-/- 1..30 O" if place < 2 else "1..11 14..30 O")
    room.write("archive/3/odd.vbi.json", "{")
    runs = [room.started("scan", "--csv", "--html", "pages", folder) for folder in places]
    assert [run.wait(DEADLINE) for run in runs] == [0, 0, 1, 2]
    assert room.names("pages") == ["index.html", *("side%s.html" % end for end in ("-2", "-3", "-4", ""))]
    wanted = ["no"] * 2 + ["not read"] + ["yes"] * 2
    assert [whole for _, whole, _ in listed(room)] == wanted
    assert "users&#x27; code: <code>ldvbi-side join %s" % os.path.realpath(places[0]) in room.text("pages/index.html")
    for folder in places[1:]:
        os.rename(folder, folder + ".elsewhere")
    assert room.run_words("scan", "--csv", "--html", "pages", places[0])[0] == 0
    assert [whole for _, whole, _ in listed(room)] == wanted
    os.mkdir(places[1])
    room.run_words("scan", "--csv", "--html", "pages", places[0])
    assert [whole for _, whole, _ in listed(room)] == ["no"] * 2 + ["not read", "yes", "gone"]
