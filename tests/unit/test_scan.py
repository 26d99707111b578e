"""`scan`: the table of a folder of sides, the pages with their index, and which files of folders are sides."""

import contextlib
import csv
import fcntl
import gzip
import io
import json
import os
import re
import shutil
import subprocess
import sys
import threading
from pathlib import Path
from unittest import mock

from compact import cells_of
from ldvbi.packed import packed_as
from ldvbi_side.command.folders import files_of, Found, name_below, page_names, sides_in
from ldvbi_side.command.into import copies_in
from ldvbi_side.command.main import scanned
from ldvbi_side.command.outputs import locked
from ldvbi_side.command.rows import Csv, fault_row, Json, row_of, Text
from ldvbi_side.command.scan import _Folder, scan
import pytest
from room import buffered, COMMAND, DEADLINE, in_database, IN_PLACE
from streams import TOP

HEAD = "side whole lost unread format from to last lead-in lead-out fields try why system with".split()
# The columns of the text after the side, and of the rows below
TEXT = "whole lost unread system format from to last lead-in lead-out fields try why".split()
# A side of every kind, in the order of the table: its name, its fields, and its row after the name, of which the last
# cell begins so; - is nothing. The metadata has NTSC and white 51200.
SIDES = """
    a/cut.tbc | 1..30 | no | 0 | 0 | NTSC | cav | 1 | 30 | 30 | 0 | 0 | 60 | - | field 61 is cut
    a/database.tbc | 1..30 O | yes | 0 | 0 | NTSC | cav | 1 | 30 | 30 | 0 | 1 | 61 | - | -
    a/joined.tbc | Lx2 1..30 Ox2 Lx2 1..25 Ox2 | no | 0 | 0 | NTSC | cav | 1 | 30 | 25 | 4 | 4 | 118 | -
        | lead-in again in
    a/levels.tbc | 1..30 | can't tell | 0 | 0 | NTSC | neither | - | - | - | 0 | 0 | 60 | --white 30000
        | no picture number and no time
    a/lost.tbc | 1..11 14..30 O | no | 2 | 0 | NTSC | cav | 1 | 30 | 30 | 0 | 1 | 57 | -
        | 4 fields lost; 2 pictures lost
    b/packed.tbc | - | fault | - | - | - | - | - | - | - | - | - | - | - | it is compressed (gzip): zcat b/packed.tbc
    b/times.tbc | t0..20 O | yes | 0 | 0 | NTSC | clv | 0:00:00.00 | 0:00:00.20 | 0:00:00.20 | 0 | 1 | 43 | - | -
    b/unread.tbc | 1..30 23=B O | yes | 0 | 1 | NTSC | cav | 1 | 30 | 30 | 0 | 1 | 61 | - | -
"""
# The members that say nothing of a side that wasn't read
MEMBERS = "whole lost unread format from to last leadIn leadOut fields try reasons system".split()
DARK = ("NTSC", 16384, 30000)  # white is less than the middle of the metadata's levels
YES = "side.tbc,yes,0,0,cav,1,30,30,0,1,61,,,NTSC,"
NO = "side.tbc,no,2,0,cav,1,8,8,0,1,13,,4 fields lost; 2 pictures lost,NTSC,"


def test_each_kind(room):
    """Sides are read one after the other, and side by side; those that have a page aren't read again."""
    more = {"a/cut.tbc": {"rest": 12345}, "a/levels.tbc": {"setup": DARK}}
    for name, fields, *_ in cells_of(SIDES):
        room.add(name, fields.replace("-", "B"), **more.get(name, {}))
    room.write("b/packed.tbc", gzip.compress(b"video"))
    in_database(room.named("a/database.tbc.db"),
                "CREATE TABLE capture (system TEXT, black_16b_ire INTEGER, white_16b_ire INTEGER)",
                "INSERT INTO capture VALUES ('NTSC', 16384, 51200)")
    os.unlink(room.named("a/database.tbc.json"))
    found = [room.scan("--csv --html one a b"),
             room.run_words("scan --json -j 4 --html four b a", env=buffered()), room.scan("--html four a b")]
    assert [(status, said) for status, _, said in found] == [(2, "")] * 3
    head, *rows = csv.reader(found[0][1].splitlines())
    assert (head, len(rows)) == (HEAD, len(cells_of(SIDES)))
    for row, (name, _, *cells) in zip(rows, cells_of(SIDES)):
        *wanted, begin = ["" if cell == "-" else cell for cell in cells]
        found_cells = dict(zip(HEAD, row))
        why = found_cells.pop("why")
        assert (found_cells, why[:len(begin) or None]) == ({"side": name, **dict(zip(TEXT, wanted)), "with": ""}, begin)
    known = json.loads(found[1][1])["sides"]
    assert [(one["side"], one["fields"] or "", "; ".join(one["reasons"]) or one["fault"] or "") for one in known] == [
        (row[0], row[10] and int(row[10]), row[12]) for row in rows]
    assert [row.split()[0] for row in found[2][1].splitlines()] == ["side", *(row[0] for row in rows)]
    names = [os.path.basename(one["page"]) for one in known if one["page"]] + ["index.html"]
    assert len(names) == len(rows)  # one has a fault; and the index
    assert room.names("one") == room.names("four") == sorted(names)
    for name in names:
        assert room.read("one/" + name) == room.read("four/" + name)


# A row of the text, of the width that the longest name has
FORM = "%-11s  %-10s  %6s  %6s  %6s  %7s  %10s  %10s  %10s  %7s  %8s  %7s  %13s  %s\n"


def test_rows():
    """Of a side, and of one that wasn't read, as text, as CSV and as JSON; each is printed at once."""
    said = {"numbers": {"least": 1, "greatest": 30}, "counts": {"lost": 2, "unread": 0}, "whole": "no", "system": "PAL",
            "format": "cav", "last": 29, "leadIn": 3, "leadOut": 4, "fields": 57, "try": None,
            "reasons": [{"text": "one"}, {"text": "other"}]}
    read, failed = row_of("a\x1b.tbc", said, "a.html"), fault_row("b.tbc", "it \n broke")
    read["with"] = ["b", "c"]
    for make, *wanted in (
            (lambda: Text(["longest.tbc", "b.tbc"]),
             FORM % ("side", *TEXT),
             FORM % ("a?.tbc", "no", 2, 0, "PAL", "cav", 1, 30, 29, 3, 4, 57, "-", "one; other"),
             FORM % ("b.tbc", "fault", *"-" * 11, "it broke"), "x: join\n"),
            (Csv, ",".join(HEAD) + "\n", "a\\x1b.tbc,no,2,0,cav,1,30,29,3,4,57,,one; other,PAL,b; c\n",
             "b.tbc,fault,,,,,,,,,,,it broke,,\n", ""),
            (Json, "", "", "", json.dumps({"version": 2, "sides": [{
                "side": "a\x1b.tbc", "whole": "no", "lost": 2, "unread": 0, "system": "PAL", "format": "cav", "from": 1,
                "to": 30, "last": 29, "leadIn": 3, "leadOut": 4, "fields": 57, "with": ["b", "c"], "try": None,
                "reasons": ["one", "other"], "fault": None, "page": "a.html"}, {
                "side": "b.tbc", **dict.fromkeys(MEMBERS), "with": [], "reasons": [], "fault": "it broke",
                "page": None}], "discs": ["plain"]}) + "\n")):
        data = io.BytesIO()
        with contextlib.redirect_stdout(io.TextIOWrapper(data)) as out:
            table = make()
            out.flush()
            table.add(read)
            assert data.getvalue().decode() == "".join(wanted[:2])
            table.add(failed)
            assert data.getvalue().decode() == "".join(wanted[:3])
            table.end([mock.Mock(**{"text.return_value": "x", "command.return_value": "join",
                                    "as_json.return_value": "plain"})])
            out.flush()
        assert data.getvalue().decode() == "".join(wanted)


def listed(room):
    """The names of an index, each with its link, how whole its side is, and why."""
    found = re.findall('<tr role="row"><td role="cell">(.*?)</td><td role="cell" class="[a-z]*" data-key="[0-4]">'
                       '(.*?)</td><td role="cell">(.*?)</td>',
                       room.text("pages/index.html").replace("<wbr/>", "").replace(room.folder, ".."))
    return [(re.sub('<a href="(.*)">(.*)</a>', r"\2@\1", name), whole, why) for name, whole, why in found]


def test_sides_of_two_scans(room):
    """What a folder lacks that is scanned is gone, and what another one has stays; two of one name have paths."""
    for name in ("nas/clv/1.tbc", "nas/cav/1.tbc", "more/cav/1.tbc", "more/lost.tbc"):
        room.add(name, "1..11 14..30 O" if "lost" in name else "1..30 O")
    room.write("nas/odd.vbi.json", "{")
    room.write("more/odd.vbi.json", "[")
    room.scan("--html pages nas")
    assert [one[:2] for one in listed(room)] == [
        ("odd.vbi.json", "not read"), ("cav/1.tbc@cav-1.html", "yes"), ("clv/1.tbc@clv-1.html", "yes")]
    os.unlink(room.named("nas/clv/1.tbc"))
    os.unlink(room.named("more/odd.vbi.json"))
    index = room.text("pages/index.html")
    room.write("pages/index.html", index.replace('ldvbi-faults" content="[', 'ldvbi-faults" content="[1, [1, 2, 3], '))
    room.scan("--html pages more")
    assert [one[:2] for one in listed(room)] == [
        ("lost.tbc@lost.html", "no"), ("odd.vbi.json", "not read"), ("../more/cav/1.tbc@cav-1-2.html", "yes"),
        ("../nas/cav/1.tbc@cav-1.html", "yes"), ("clv/1.tbc@clv-1.html", "gone")]
    assert listed(room)[-1][-1] == "../nas/clv/1.tbc isn&#x27;t there any longer; whole: yes"
    assert "<h1>5 sides, whole: 2 yes, 1 no, 0 can&#x27;t tell, 1 not read, 1 gone</h1>" in room.text(
        "pages/index.html")
    assert "<h1>cav/<wbr/>1.<wbr/>tbc</h1>" in room.text("pages/cav-1-2.html")
    os.unlink(room.named("nas/odd.vbi.json"))  # which has no page
    # a page of another version isn't listed, nor is an index, or what says the same elsewhere; one without a path is
    with open(room.write("document", room.extracted("more/lost.tbc")), "rb") as file:
        room.run_command("- --html pages/piped.html", stdin=file)
    text = room.text("pages/cav-1.html").replace("nas/cav", "nas/x")
    room.write("pages/other.html", text.replace("{&quot;version&quot;: 3", "{&quot;version&quot;: 2"))
    room.write("pages/elsewhere.html", text.replace("<meta name", "<link name"))
    room.scan("--html pages more")
    assert [one[:2] for one in listed(room)] == [
        ("-@piped.html", "no"), ("lost.tbc@lost.html", "no"), ("../more/cav/1.tbc@cav-1-2.html", "yes"),
        ("../nas/cav/1.tbc@cav-1.html", "yes"), ("clv/1.tbc@clv-1.html", "gone")]


def page_of(room):
    """The page of side.tbc, which is whole."""
    status, text, said = room.scan("--json --html pages side.tbc")
    assert (status, said) == (0, "")
    return json.loads(text)["sides"][0]["page"]


def grows(task):
    """Reads a side, of which something is written meanwhile."""
    answer = scanned(task)
    os.utime(task.path + ".json")
    return answer


def test_a_page_that_is_newer(room):
    """The side isn't read again, but keeps its row: what is in its file now isn't looked at. One that is older than its
    side, or than the metadata, or lacks what a row has, is written anew. It is as old as the begin of reading."""
    room.add("side.tbc")
    assert scan(["--csv", "--html", room.named("pages"), room.path], grows) == 0
    assert os.path.getmtime(room.named("pages/side.html")) < os.path.getmtime(room.path + ".json")
    page = page_of(room)
    whole = room.text(page)
    for name in ("side.tbc", "side.tbc.json"):
        room.write(page, whole + "<p>")
        assert (page_of(room), room.text(page)) == (page, whole + "<p>")
        shutil.copystat(room.named(page), room.named(name))
        assert (page_of(room), room.text(page)) == (page, whole)
    room.write(page, whole.replace("&quot;options&quot;", "&quot;other&quot;"))
    assert (page_of(room), room.text(page)) == (page, whole)
    room.add("side.tbc", "1..3 6..8 O")
    for name in ("side.tbc", "side.tbc.json"):
        os.utime(room.named(name), ns=(0, 0))
    for words, wanted in (("", YES), ("--again", NO), ("", NO)):
        assert room.row("--html pages side.tbc " + words) == wanted
    assert "from 1 to 8" in room.text(page)
    assert [one[:2] for one in listed(room)] == [("side.tbc@side.html", "no")]


def test_options(drawn):
    """A page that was written with other options than those that are given says nothing. A document has its own system
    and levels; a TBC file beside it may have none of its own."""
    drawn.add("open.tbc", "1..30")
    drawn.add("dark.tbc", setup=DARK)
    drawn.metadata("other.json", white16bIre=30000)
    for side, words in (("open", "--open-end"), ("dark", "--white 30000"), ("dark", "--meta other.json")):
        for given, whole in (("", "can't tell"), (words, "yes"), ("", "can't tell")):
            assert drawn.row("--html pages %s %s.tbc" % (given, side)).startswith("%s.tbc,%s,0,0," % (side, whole))
    drawn.write("empty.tbc", b"")
    rows = drawn.scan("--csv LEVELS side.tbc side.vbi.json empty.tbc")[1].split("\n")
    assert [row.split(",")[1] for row in rows[1:-1]] == ["can't tell", "no", "no"]


def test_copies(drawn):
    """Each side has one, whatever its page says, but none that has a fault, and no document."""
    for name, count in (("a/1.tbc", 61), ("a/2.tbc", 60), ("c.tbc", 61)):
        drawn.add(name, "1..30 9.18=#79999 O")
        drawn.metadata(name + ".json", count=count)
    drawn.write("a/3.vbi.json", drawn.document)
    drawn.scan("--html pages a c.tbc")
    status, text, said = drawn.scan("--csv --html pages --into one a c.tbc")
    assert (status, said, text.split("\n")[2]) == (
        2, "", 'a/2.tbc,fault,,,,,,,,,,,"has 61 whole fields, and a/2.tbc.json has 60",,')
    assert [drawn.names("one"), drawn.names("one/a")] == [["a", "c.tbc.json"], ["1.tbc.json"]]
    for path, words, said, wanted in (
            ("one/a/1.tbc.json", "--into one a", "believed", [0, 0xF00005, 0]),
            ("one/c.tbc.json", "--into one --as-read c.tbc", "as read", [0, 0xF00005, 0xF79999])):
        drawn.scan("--html pages " + words)
        known = json.loads(drawn.read(path))
        assert (known["ldvbiWords"], known["fields"][8]["vbi"]["vbiData"]) == (said, wanted)


def test_what_is_loaded():
    """What makes pages is loaded for those alone, and what joins captures not at all: each process would load it."""
    text = "import sys; from ldvbi_side.command import main, scan; print(*sys.modules)"
    loaded = subprocess.check_output([sys.executable, "-c", text], text=True).split()
    assert not {"ldvbi_side.draw.page", "ldvbi_side.draw.drawing", "ldvbi_side.draw.index", "html.parser",
                "ldvbi_side.write.joined"} & set(loaded)


# Files, what is asked for, and the sides that are found; what is named is taken for one, whatever its name is
FOLDERS = (
    ("d/b.tbc d/a/z.tbc d/a.tbc d/c/a.tbc c.tbc", "d c.tbc", "c.tbc d/a/z.tbc d/a.tbc d/b.tbc d/c/a.tbc"),
    ("d/a.tbc d/a.tbc.json d/a.tbc.db d/a.json d/a.efm d/a.html d/b.vbi.json d/tbc d/folder.tbc/x", "d",
     "d/a.tbc d/b.vbi.json"),
    ("d/a.json d/tbc", "d/a.json d/tbc absent", "absent d/a.json d/tbc"),
    ("d/a.tbc d/a.vbi.json d/a.tbc.gz d/b.tbc.gz d/c.tbc.zst d/d.tbc.xz d/e.vbi.json d/e/e.tbc d/f.gz d/g.zip", "d",
     "d/a.tbc d/b.tbc.gz d/c.tbc.zst d/d.tbc.xz d/e/e.tbc d/e.vbi.json"),
    ("d/a.vbi.json d/a.tbc", "d/a.vbi.json d/a.tbc", "d/a.tbc d/a.vbi.json"),
    ("d/a.tbc d/b.tbc", "d/a.tbc d ./d/a.tbc", "./d/a.tbc d/b.tbc"),
    ("d/a.tbc d/e/b.tbc d/e/again>../d d/c.tbc>a.tbc", "d", "d/a.tbc d/e/b.tbc"),
    ("d/a.tbc d/e/b.tbc d/e/again>../d l>d", "l", "l/a.tbc l/e/b.tbc"))
# Sides 1, 2, .. by their names, pages that are there with their sides, and the names of the sides' pages
LONG = "ü" * 127 + ".tbc"  # the longest name that there is, in bytes
PAGES = (
    ("nas/cav/side1.tbc nas/clv/side1.tbc b.vbi.json c.tbc.gz d", "",
     "nas-cav-side1.html nas-clv-side1.html b.html c.html d.html"),
    ("a-b.tbc a/b.tbc A/b.tbc a-b-2.tbc", "", "a-b.html a-b-2.html A-b-3.html a-b-2-2.html"),
    ("a.tbc", "c.html:/1 b.html:/1", "b.html"),
    ("a.tbc b.tbc .tbc index.tbc", "a.html:/2 b.html:/3 c.html:", "a-2.html a.html b.html index-2.html"),
    (LONG + " " + LONG, "side.html:", "ü" * 100 + ".html " + "ü" * 100 + "-2.html"))


def make(names):
    """Files, and links, after which it is said where to."""
    for name, _, target in (name.partition(">") for name in names.split()):
        os.makedirs(os.path.dirname(name) or ".", exist_ok=True)
        if target:
            os.symlink(target, name)
        else:
            Path(name).touch()


def test_sides_in_folders(monkeypatch, tmp_path):
    """Which there are, of which files, and where their copies stand, if they have metadata."""
    monkeypatch.chdir(tmp_path)
    for files, paths, wanted in FOLDERS:
        shutil.rmtree("d", ignore_errors=True)
        make(files)
        named = set(map(os.path.realpath, paths.split()))
        assert sides_in(paths.split()) == [Found(path, is_named=os.path.realpath(path) in named) for path in
                                           wanted.split()]
    with mock.patch("os.scandir", side_effect=PermissionError(13, "Permission denied", "d")):
        assert sides_in(["d"]) == [Found("d", "Permission denied")]
    make("a.tbc a.tbc.db a/1.tbc.json a/b/1.tbc.db a/b/2.vbi.json.json")
    assert (files_of("a.tbc"), files_of("b.tbc")) == (["a.tbc", "a.tbc.db"], ["b.tbc"])
    for paths, sides, wanted in (("a", "a/1.tbc a/b/2.vbi.json a/3.tbc", "x/1.tbc.json - -"),
                                 ("a/b a", "a/b/1.tbc a/1.tbc", "x/b/1.tbc.db x/1.tbc.json")):
        assert [one or "-" for one in copies_in("x", paths.split(), sides.split())] == wanted.split()


def test_names_of_pages():
    for names, known, wanted in PAGES:
        sides = [("/%d" % place, name) for place, name in enumerate(names.split(), 1)]
        assert page_names(sides, dict(one.split(":") for one in known.split())) == wanted.split()
    for path, folders, name in (("d/e/a.tbc", "d", "e/a.tbc"), ("d/e/a.tbc", "d/e d/", "e/a.tbc"),
                                ("./a.tbc", ".", "a.tbc"), ("dd/a.tbc", "d", "a.tbc"), ("/d/a.tbc", "/", "d/a.tbc")):
        assert name_below(path, folders.split()) == name


def test_packed_forms():
    for begin, name in ((b"\x1f\x8b\x08\x08", "gzip"), (b"fLaC\x80\x00\x00\x22\x10", "FLAC"), (b"\x1f\x8b\x09", None),
                        (b"\x1f\x8b\x08\x40", None), (b"fLaC", None), (b"\x00\x1f\x8b\x08", None)):
        assert packed_as(begin + bytes(8)) == name


def test_refused(drawn):
    """Nobody waits for the other end of pipes, which nobody named; what has the name of a page and is none stays."""
    for name in ("empty", "copies"):
        os.mkdir(drawn.named(name))
    for name in ("side.tbc", "pages/index.html", "sides/3.tbc"):
        drawn.add(name)
    os.unlink(drawn.named("sides/3.tbc.json"))
    for name in ("pages/side.html", "copies/side.tbc.json", "sides/1.tbc", "sides/2.vbi.json", "sides/3.tbc.json"):
        os.mkfifo(drawn.named(name))
    for text, words in (("no .tbc and no .vbi.json in empty", "empty"),
                        (IN_PLACE % "./side.tbc.json", "side.tbc --into ."),
                        (IN_PLACE % "pages/index.html", "--html pages pages/index.html"),
                        ("side.tbc/pages/deep: Not a directory", "side.tbc --html side.tbc/pages/deep"),
                        ("absent: No such file or directory", "side.tbc --meta absent"),
                        ("side.vbi.json: a document has its system and levels; they are options for a TBC file",
                         "z.vbi.json side.vbi.json LEVELS")):
        drawn.refused(text, "scan " + words)
    assert drawn.row("--into copies side.tbc").split(",")[-3] == "copies/side.tbc.json is no file"
    status, text, said = drawn.scan("--csv sides")
    assert (status, said, [row.split(",")[-3] for row in text.split("\n")[1:-1]]) == (
        2, "", ["is no file", "is no file", "sides/3.tbc.json is no file"])
    drawn.refused("sides/3.tbc.json is no file", "sides/3.tbc")
    assert page_of(drawn) == "pages/side-2.html"
    os.rename(drawn.named("copies/side.tbc.json"), drawn.named("pages/index.html"))
    drawn.refused("pages/index.html is no file", "scan --html pages side.tbc")


def test_two_scans_at_once(room):
    """The index is written from what is in the folder then, while no other process writes one."""
    room.add("a/1.tbc")
    room.add("b/2.tbc")
    write = _Folder.write_index

    def later(folder, *rows):
        with mock.patch.object(_Folder, "write_index", write):
            assert room.scan("--html pages b")[::2] == (0, "")
        before = room.text("pages/index.html")
        with locked(folder.path):
            waiting = threading.Thread(target=write, args=(folder, *rows))
            waiting.start()
            waiting.join(1)
            assert waiting.is_alive() and room.text("pages/index.html") == before
        waiting.join(DEADLINE)

    with mock.patch.object(_Folder, "write_index", later):
        room.scan("--html pages a")
    assert re.findall(r'href="([^"]*)"', room.text("pages/index.html")) == ["1.html", "2.html"]
    other = os.open(room.named("pages"), os.O_RDONLY)
    room.cleanup.callback(os.close, other)
    with locked(room.named("pages")), pytest.raises(BlockingIOError):
        fcntl.flock(other, fcntl.LOCK_EX | fcntl.LOCK_NB)
    fcntl.flock(other, fcntl.LOCK_EX | fcntl.LOCK_NB)


def test_few_open_files(room):
    """What the system refuses isn't said of standard output."""
    room.add("side.tbc")
    limited = ["sh", "-c", 'ulimit -n 8; exec "$@"', "sh", *COMMAND]
    assert room.run_words("scan --csv .", command=limited)[::2] == (
        2, "ldvbi-side: Too many open files; `ulimit -n` says how many a process may open\n")


def test_control_characters(room):
    """Of a name they are escaped, so that none acts on a terminal."""
    room.add("a\x1b[31m\x85\n.tbc")
    room.metadata("a\x1b[31m\x85\n.tbc.json", count=61)
    for words in ("scan --csv", "join --csv", "join --ranges", "join --map -", "write --plan out.tbc"):
        status, text, _ = room.run_words(*words.split(), "a\x1b[31m\x85\n.tbc", "a\x1b[31m\x85\n.tbc")
        assert (status, "a\\x1b[31m\\x85\\n.tbc" in text, "\x1b" in text) == (0, True, False)


def test_names_and_notes(room):
    """The processes of a scan read in the file by which the command was started. Letters that are none are marks."""
    room.add("side.tbc")
    room.metadata("side.tbc.json", black16bIre=16383.5)
    os.link(room.named("side.tbc"), room.named(os.fsdecode(b"\xff\n.tbc")))
    assert room.run_words("scan --csv side.tbc", command=[os.path.join(TOP, "python", "ldvbi-side")]) == (
        0, "%s\n%s\n" % (",".join(HEAD), YES), "ldvbi-side: side.tbc: black16bIre is 16383.5, rounded to 16384\n")
    assert [row.split()[0] for row in room.scan(".")[1].splitlines()] == ["side", "./side.tbc", "./??.tbc"]
