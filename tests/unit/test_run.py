"""The command: metadata beside TBC files, tables, chapters. And where what is around it isn't as usual: streams that
are closed or a terminal's, signals at any time, no reader, names and files of others."""

import contextlib
import fcntl
import importlib
import json
import os
import pathlib
import re
import shutil
import signal
import sqlite3
import sys
import termios
import time
from unittest import mock

from compact import cells_of, words_of
from ldvbi_side.__main__ import main
from ldvbi_side.command.parsers import parser_of_scan
import pytest
from room import buffered, DEADLINE, IN_PLACE, in_database, SIZE
from streams import line_with, NTSC, PAL, PROGRAM, TOP, write_stream

# Runs, and their status, what they print and what they say, or -; by the metadata second fields begin frames
TAKEN = """
    side.tbc --seek 4 | 0 | field 5, frame 2 | - || side.tbc LEVELS --seek 4 | 0 | field 5, frame 3 | -
    side.tbc --meta other.json LEVELS --seek 4 | 0 | field 5, frame 2 | -
    side.tbc --meta other.json --seek 4 | 1 | - | not found: no number of the side is believed
    side.vbi.json --seek 4 | 0 | field 5, frame 3 | -
    side.vbi.json --seek 12 | 1 | - | not found: the numbers end at 11, in field 12
    side.vbi.json --meta side.tbc.json --seek 4 | 0 | field 5, frame 2 | -
    side.vbi.json --meta none.json --seek 4 | 0 | field 5, frame 3 | none.json has no isFirstField for each field
    side.tbc --meta more.json --seek 4 | 0 | field 5, frame 3
        | side.tbc: 12 fields, more.json says 14, so its isFirstField isn't used: ANOTHER
    cut.tbc --meta count.json --seek 4 | 0 | field 5, frame 3
        | cut.tbc: 12 fields and 7 bytes, count.json says 11: ANOTHER
"""
FIELDS = """field,frame,format,picture,chapter,time,stop,doubt,status,users,unknown
1,1,cav,1,,,,,,,
2,1,neither,,1,,,,,,
4,2,cav,2,,,stop,"picture 79999 on line 18, pass 1: lines",,,
"""
# A side, and its chapters as ffprobe has them: number, time base, begin and end, in fields and in seconds, and name
CHAPTERS = (
    (NTSC, "L 1..6 7:13/2=-/c1/c1", ("0,1001/60000,2,0.033367,6,0.100100,Chapter 0",
                                     "1,1001/60000,6,0.100100,13,0.216883,Chapter 1")),
    (PAL, "L 1..6 7:13/2=-/c21/c21", ("0,1/50,2,0.040000,6,0.120000,Chapter 0",
                                      "1,1/50,6,0.120000,13,0.260000,Chapter 21")))


def test_the_library_is_needed(drawn):
    """By what judges, of a document, too; one sentence says how to get it."""
    absent = dict(os.environ, LDVBI_LIBRARY="/absent")
    for words in ("side.vbi.json --csv", "side.tbc LEVELS --document", "join side.vbi.json side.vbi.json"):
        status, text, said = drawn.run_command(words, env=absent)
        assert (status, text, said.count("\n")) == (2, b"", 1)
        assert said.startswith("ldvbi-side: no library to read and judge with (/absent: ")
    assert drawn.run_command("--help", env=absent) == drawn.run_command("--help")
    status, text, said = drawn.run_words("--version", env=absent)
    assert (status, said) == (0, "")
    assert re.fullmatch(r".*\nno library to read and judge with \(/absent: .*\n", text)


def test_metadata_is_taken(drawn):
    """That beside the TBC file is where options leave something open; and a number of fields is compared."""
    for name, count, more in (
            ("side.tbc", 12, {}), ("side.vbi.json", 12, {}), ("none", None, {}), ("more", 14, {}),
            ("other", 12, {"black16bIre": 60000, "white16bIre": 60001}),
            ("count", None, {"numberOfSequentialFields": 11})):
        drawn.metadata(name + ".json", count=count, **more)
    drawn.write("cut.tbc", drawn.read("side.tbc") + b"x" * 7)
    for words, status, text, said in cells_of(TAKEN):
        said = said.replace("ANOTHER", "another system, or another file's metadata?")
        assert drawn.run_words(words) == (int(status), *("" if one == "-" else begin + one + "\n" for begin, one in (
            ("", text), ("ldvbi-side: ", said))))
    text = drawn.run_command("cut.tbc --meta count.json --json")[1]
    assert text.endswith(b"}\n")
    known = json.loads(text)
    assert (known["metadataFields"], known["frameBegin"]) == (11, 1)
    assert drawn.printed("side.tbc --white 51200 --document") == drawn.document
    assert drawn.printed("side.tbc LEVELS --document --recovered")[:12] == b'{"version":3'
    os.rename(drawn.named("side.tbc.json"), drawn.named("side.tbc.db"))
    assert drawn.printed("side.tbc --document") == drawn.document


def test_fields(drawn, monkeypatch):
    """The documents say what the columns of tables hold, as texts/write.py writes it."""
    write_stream(drawn.path, NTSC, words_of("-/#1/#1 -/c1/c1 B S/#2/#79999"))
    assert drawn.run_words("side.tbc LEVELS --csv --map map") == (0, FIELDS, "")
    monkeypatch.syspath_prepend(os.path.join(TOP, "texts"))
    written = importlib.import_module("write")
    for path, words in (("docs/ANSWER.md", "side.tbc LEVELS --bad-lines"),
                        ("docs/FORMATS.md", "scan --csv LEVELS side.tbc")):
        assert drawn.run_command(words)[0] < 2
        assert written.with_parts(path) == written.read(path)


def test_bad_lines(drawn):
    """No word is nearer to line 16 than black is. Without samples a page draws none."""
    write_stream(drawn.path, NTSC, [[
        line_with(0, NTSC, [(900, 909, True)]), line_with(0x82CFFF, NTSC, [(170, 174, False)]),
        line_with(0, NTSC, [(164, 909, True)])]])
    rows = drawn.printed("side.tbc LEVELS --bad-lines").decode().splitlines()[1:]
    for row, begin in zip(rows, ("1,16,unfinished,27300,-", "1,17,change 170,29120,82CFFF", "1,18,hold 200,30940,")):
        assert row.startswith(begin)
    assert len(rows) == 3
    drawn.write("side.vbi.json", drawn.extracted("side.tbc"))
    drawn.printed("side.vbi.json --html side.html")
    assert "Bad lines," not in drawn.text("side.html")


@pytest.mark.parametrize("setup, words, wanted", CHAPTERS)
def test_chapters(drawn, setup, words, wanted):
    """As ffmpeg and ffprobe read them. The labels are the same."""
    write_stream(drawn.path, setup, words_of(words))
    for name in ("side.ffmeta", "side.txt"):
        drawn.printed("side.tbc --system %s --black %d --white %d --chapters %s" % (*setup, name))
    found = drawn.run_words("-v error -show_chapters -of csv side.ffmeta", command=["ffprobe"])
    assert found == (0, "".join("chapter,%s\n" % row for row in wanted), "")
    _, found, _ = drawn.run_words("-v error -i side.ffmeta -f ffmetadata -", command=["ffmpeg"])
    assert re.sub("encoder=.*\n", "", found) == drawn.text("side.ffmeta").replace("\n\n", "\n")
    assert drawn.text("side.txt").splitlines() == ["\t".join(row.split(",")[place] for place in (3, 5, 6))
                                                   for row in wanted]


def test_no_chapters(drawn):
    """A player would take its own chapters away for a file that has none. An older file stays."""
    write_stream(drawn.path, NTSC, words_of("Bx4"))
    drawn.write("old.txt", b"old")
    for name in ("old.txt", "new.txt"):
        said = "ldvbi-side: no chapter of the side is believed: %s isn't written\n" % name
        assert drawn.run_words("side.tbc LEVELS --chapters " + name) == (0, "", said)
    assert drawn.read("old.txt") == b"old" and not os.path.exists(drawn.named("new.txt"))


@pytest.mark.parametrize("option", ("--map", "--chapters", "--svg", "--html"))
def test_files_on_standard_output(drawn, option):
    """By either of its names, as a pipe or a file. It takes one thing."""
    write_stream(drawn.path, NTSC, words_of("L 1..6 7:13/2=-/c1/c1"))
    shown = drawn.printed("side.tbc LEVELS %s -" % option)
    drawn.printed("side.tbc LEVELS %s file" % option)
    assert drawn.read("file") == shown.replace(b" %s -" % option.encode(), b" %s file" % option.encode())
    assert drawn.printed("side.tbc LEVELS %s /dev/stdout" % option) == shown.replace(b" -\n", b" /dev/stdout\n")
    for more in ("--csv", "--seek 3", "--svg -" if option == "--map" else "--map -"):
        status, text, said = drawn.run_command("side.tbc LEVELS %s - %s" % (option, more))
        assert (status, text) == (2, b"") and said.endswith("error: standard output takes one thing\n")


def test_the_pictures_of_the_documents(drawn):
    """Those of docs/SIDES.md, made again."""
    docs = pathlib.Path(TOP, "docs")
    drawn.run_command(str(docs / "pictures" / "make_side.sh"), PROGRAM, drawn.folder, command=["sh"])
    for name in ("side.svg", "clv.svg"):
        assert "(pictures/%s)" % name in (docs / "SIDES.md").read_text(encoding="utf-8")
        assert drawn.read(name) == (docs / "pictures" / name).read_bytes()


@pytest.mark.parametrize("words", ("side.vbi.json", "join side.vbi.json side.vbi.json", "scan side.vbi.json",
                                   "write out.tbc side.tbc"))
def test_standard_output_in_the_place_of_an_input(drawn, words):
    drawn.metadata("side.tbc.json", count=12)
    name = words.split()[-1]
    before = drawn.read(name)
    with open(drawn.named(name), "ab") as file:
        said = "ldvbi-side: %s\n" % IN_PLACE % "standard output"
        assert drawn.run_command(words, stdout=file) == (2, None, said)
    assert (drawn.read(name), drawn.names()) == (before, ["side.tbc", "side.tbc.json", "side.vbi.json"])


@pytest.mark.parametrize("count, taken", ((61, "b.tbc"), (60, "a.tbc"), (62, "a.tbc")))
def test_dropouts_of_captures(room, count, taken):
    """Those of metadata with another count of fields say nothing of a capture."""
    for name, last, fields in (("a.tbc", 200, 61), ("b.tbc", 110, count)):
        room.add(name)
        drops = {"startx": [100], "endx": [last], "fieldLine": [50]}
        room.metadata(name + ".json", count=fields, field={"dropOuts": drops})
    rows = room.run_words("join a.tbc b.tbc --csv")[1].splitlines()
    assert rows[1:3] == ["1,%s,1,0,read" % taken, "2,%s,3,1,read" % taken]
    assert "\nnothing but their numbers shows that these are one disc\n" in room.run_words("join a.tbc b.tbc")[1]


ENDLESS = ("CREATE TABLE capture (system, black_16b_ire, white_16b_ire)",
           "INSERT INTO capture VALUES ('NTSC', 16384, 51200)",
           "CREATE VIEW drop_outs AS WITH RECURSIVE n(i) AS (SELECT 1 UNION ALL SELECT i + 1 FROM n) "
           "SELECT i AS field_id, 16 AS field_line, 1 AS startx, 2 AS endx FROM n WHERE i < 0")
# Runs the command with a signal that comes while Python ends, and perhaps with one before, after which it ignores none
ENDING = """import atexit, os, signal, sys
import ldvbi_side.command.main
from ldvbi_side import outside
from ldvbi_side.__main__ import main
if %d:
    ldvbi_side.command.main.main = lambda _: (signal.raise_signal(signal.SIGINT), sum(range(10)))
    outside._PATIENCE = -1
atexit.register(lambda: (os.kill(os.getpid(), %d), os.write(2, b"ignored")))
sys.argv[1:] = ["side.vbi.json", "--seek", "3"]
sys.exit(main())"""
# Runs with standard streams that are closed. Where nothing is printed nothing is wrong.
CLOSED = (
    ((1,), "side.tbc --svg side.svg", 0, b"", "ldvbi-side: side.tbc: black16bIre is 16383.5, rounded to 16384\n"),
    ((0, 1, 2), "side.tbc --csv --map side.map", 2, b"", ""),
    ((1,), "side.vbi.json --seek 3", 2, b"", "ldvbi-side: standard output: Bad file descriptor\n"),
    ((2,), "side.tbc --seek 3 --map side.map", 0, b"field 4, frame 2\n", ""), ((2,), "absent", 2, b"", ""),
    ((2,), "side.vbi.json --\udcff", 2, b"", ""), ((2,), "ü\udcff", 2, b"", ""),
    ((0, 2), "scan --csv absent", 2, b"SIDES\nabsent,fault,,,,,,,,,,,No such file or directory,,\n", ""),
    ((0,), "-", 2, b"", "ldvbi-side: standard input: Bad file descriptor\n"),
    ((0,), "side.vbi.json --seek 3", 0, b"field 4, frame 2\n", ""))


@pytest.mark.parametrize("numbers, words, wanted", [(*row[:2], row[2:]) for row in CLOSED])
def test_closed_streams(drawn, numbers, words, wanted):
    drawn.metadata("side.tbc.json", black16bIre=16383.5)
    status, text, said = drawn.run_command(words, preexec_fn=lambda: [os.close(number) for number in numbers])
    assert (status, re.sub(b"^side,.*", b"SIDES", text), said) == wanted
    for name, begin in (("side.svg", b"<svg"), ("side.map", b"kind,number")):
        assert name not in words or drawn.read(name).startswith(begin)


def test_what_is_in_the_place_of_closed_streams(room):
    """Processes that the command starts have it, too."""
    asked = "import os; from ldvbi_side import outside; outside.open_streams()\n" \
            "os._exit(sum(os.get_inheritable(number) << number for number in range(3)))"
    assert room.run_command("-c", asked, command=[sys.executable], preexec_fn=lambda: os.closerange(0, 3))[0] == 7


@pytest.mark.parametrize("words, more", (("absent", {}), ("absent", {"PYTHONUNBUFFERED": "1"}), ("--black", {})))
def test_a_full_device_takes_no_messages(drawn, words, more):
    with open("/dev/full", "wb") as full:
        assert drawn.run_command(words, env={**buffered(), **more}, stderr=full) == (2, b"", "")


@pytest.mark.parametrize("number, is_stopped, wanted", (
    (signal.SIGINT, False, (-signal.SIGINT, "field 4, frame 2\n", "")),
    (signal.SIGTERM, True, (130, "", "ignored")), (signal.SIGHUP, False, (-signal.SIGHUP, "field 4, frame 2\n", ""))))
def test_while_python_ends(drawn, number, is_stopped, wanted):
    """All has been written then, or the command was stopped, and the status is that of the first signal."""
    assert drawn.run_words("-c", ENDING % (is_stopped, number), command=[sys.executable]) == wanted


def test_ctrl_c_in_a_call():
    """A program that calls the command may heed signals as Python does, and have a timer."""
    before = [*map(signal.getsignal, (signal.SIGINT, signal.SIGTERM, signal.SIGHUP))]
    signal.setitimer(signal.ITIMER_REAL, DEADLINE)
    with mock.patch("ldvbi_side.command.main.main", side_effect=KeyboardInterrupt), \
            mock.patch("ldvbi_side.__main__.drop_standard_output") as drop:
        assert (main([]), drop.call_count) == (130, 1)
    assert signal.setitimer(signal.ITIMER_REAL, 0)[0] > 0
    assert [*map(signal.getsignal, (signal.SIGINT, signal.SIGTERM, signal.SIGHUP))] == before


@pytest.mark.parametrize("name, number, status, more", (
    ("ldvbi_side/__init__.py", signal.SIGINT, 130, {"command": [sys.executable, "ldvbi-side"]}),
    ("argparse.py", signal.SIGTERM, 143, {})))
def test_while_it_is_loaded(drawn, name, number, status, more):
    """The package, or one of Python's modules, isn't loaded before there is a text in the pipe."""
    os.mkfifo(drawn.named("pipe"))
    os.mkdir(drawn.named("ldvbi_side"))
    shutil.copy(os.path.join(TOP, "python", "ldvbi-side"), drawn.folder)
    drawn.write(name, "with open('pipe') as file:\n    file.read()\n")
    process = drawn.started("side.vbi.json", **more)
    with drawn.opened_by(process, "pipe"):
        drawn.stopped(process, number, status)


# Ends the process as Ctrl-C does, as soon as a module is looked for.
STOPS_AT = """import os, signal, sys

class Finder:
    def find_spec(name, path=None, target=None):
        if name == "%s":
            os.kill(os.getpid(), signal.SIGINT)

sys.meta_path.insert(0, Finder)
"""
SCRIPT = os.path.join(TOP, "python", "ldvbi-side")


@pytest.mark.parametrize("begin, words, wanted", (
    # the script has Python leave out the modules by which it knows of others, and in which Ctrl-C would be told
    ("import os, signal\nos.kill(os.getpid(), signal.SIGINT)\n", [SCRIPT, "--help"], 0),
    (STOPS_AT % "ldvbi_side.__main__", [sys.executable, "-m", "ldvbi_side", "side.vbi.json", "--seek", "3"], 130),
    (STOPS_AT % "ldvbi_side.outside", [sys.executable, "-m", "ldvbi_side"], 130),
    (STOPS_AT % "ldvbi_side.outside", [sys.executable, "./ldvbi-side", "x"], 130),  # the script that pip makes
    # as a part of another program the package leaves signals as they are
    (STOPS_AT % "ldvbi_side.near", [sys.executable, "-m", "other.part", "ldvbi_side"], 7),
    (STOPS_AT % "ldvbi_side.near",
     [sys.executable, "-c", "import sys; del sys.argv[0]; import other", "ldvbi_side"], 7),
    # and so it does where Ctrl-C is ignored
    (STOPS_AT % "ldvbi_side.outside", ["sh", "-c", 'trap "" INT; exec "$@"', "sh", sys.executable, "-m", "ldvbi_side",
                                       "--help"], 0)))
def test_while_first_modules_are_loaded(room, begin, words, wanted):
    """Python's own, or those of the package."""
    room.write("sitecustomize.py", begin)
    room.write("ldvbi-side", "from ldvbi_side.__main__ import main\nmain()\n")
    room.write("other.py", "try:\n    import ldvbi_side.near\nexcept KeyboardInterrupt as stop:\n"
                           "    raise SystemExit(7 if type(stop) is KeyboardInterrupt else 8)\n")
    paths = os.pathsep.join([room.folder, os.environ["PYTHONPATH"]])
    assert room.run_words(*words, command=[], env={**os.environ, "PYTHONPATH": paths})[::2] == (wanted, "")


def test_in_a_function_whose_exceptions_are_dropped(drawn):
    """As those that SQLite calls, while it reads a view that has no end. Nothing is said of that."""
    in_database(drawn.named("side.tbc.db"), *ENDLESS)
    process = drawn.started("side.tbc --meta side.tbc.db --into copy.db")
    with contextlib.closing(sqlite3.connect(drawn.named("side.tbc.db"), timeout=0.5)) as other, \
            pytest.raises(sqlite3.OperationalError, match="locked"):  # as soon as it reads the view
        while process.poll() is None:
            other.executescript("BEGIN EXCLUSIVE; ROLLBACK")
    process.send_signal(signal.SIGTERM)
    drawn.ended(process, 143, b"")
    assert "copy.db" not in drawn.names()


def test_progress(drawn):
    """None of documents, where nobody looks, or between the lines of a document. What isn't judged is read once."""
    for words in ("--summary", "--document", "--document -o out"):
        shown, text = drawn.on_terminal(int(words == "--summary"), "side.tbc LEVELS " + words)
        assert shown.startswith("\r0 of 12 fields, 0 %\x1b[K")
        assert shown.endswith("\r12 of 12 fields, 100 %\x1b[K\r\x1b[K")
        assert drawn.run_command("side.tbc LEVELS " + words)[1:] == (text, "")
    assert drawn.read("out") == drawn.document
    assert drawn.on_terminal(0, "side.vbi.json --seek 3")[0] == ""
    drawn.metadata("meta.json", count=12)
    assert drawn.on_terminal(0, "side.tbc --meta meta.json --into copy --as-read")[0].count("\r0 of 12 fields") == 1
    shown, _ = drawn.on_terminal(0, "side.tbc LEVELS --document", is_output_on_it=True)
    assert shown.replace("\r\n", "\n").encode() == drawn.document


@pytest.fixture
def printing(drawn):
    """The process that prints a long document."""
    write_stream(drawn.path, NTSC, [[0, 0, 0]], 1000 * SIZE)
    return drawn.started("side.tbc LEVELS --document")


def test_while_nobody_reads(drawn, printing):
    """The pipe is full, and what can't be written any more must not be waited for."""
    before, waiting = -1, 0
    while waiting != before or waiting < 4096:
        time.sleep(0.1)
        assert printing.poll() is None
        count = fcntl.ioctl(printing.stdout.fileno(), termios.FIONREAD, bytes(4))
        before, waiting = waiting, int.from_bytes(count, sys.byteorder)
    printing.send_signal(signal.SIGINT)
    assert (printing.wait(DEADLINE), printing.stderr.read()) == (130, b"")
    assert drawn.extracted("side.tbc").startswith(printing.stdout.read())


def test_no_reader(drawn, printing):
    """From the begin on, or once it has seen a part."""
    ours, theirs = os.pipe()
    os.close(ours)
    assert drawn.run_command("side.vbi.json --csv", stdout=theirs, env=buffered()) == (2, None, "")
    os.close(theirs)
    printing.stdout.read(100)
    printing.stdout.close()
    assert (printing.stderr.read(), printing.wait(DEADLINE)) == (b"", 2)


@pytest.mark.parametrize("encoding, shown", (("ascii", b"\\xfc\\udcff"), ("utf-8", b"\xc3\xbc\xff"),
                                             ("UTF8", b"\xc3\xbc\xff")))
def test_names(drawn, encoding, shown):
    """A letter that a locale lacks is escaped; a name that is no text is printed as it is, but not in messages."""
    name = os.fsdecode(b"\xc3\xbc\xff.vbi.json")
    drawn.write(name, drawn.document)
    status, text, _ = drawn.run_command("join", "--csv", name, name, env=dict(os.environ, PYTHONIOENCODING=encoding))
    assert (status, text.split(b"\n")[1]) == (0, b"0,%s.vbi.json,1,1,read" % shown)
    drawn.printed("join", "--map", "map", name, name)
    assert b",\xc3\xbc\xff.vbi.json\n" in drawn.read("map")
    drawn.refused("\\x1b[31m\\n\\udcff: No such file or directory", os.fsdecode(b"\x1b[31m\n\xff"))
    drawn.refused("a file without a name: No such file or directory", "")
    drawn.write("-x", drawn.document)
    for status, words in ((1, "-- -x"), (1, "join -- -x -x"), (1, "scan -- -x")):
        assert drawn.run_command(words)[::2] == (status, "")


def test_what_has_no_end(drawn):
    for words in ("/dev/zero", "side.tbc --meta /dev/zero", "scan --csv /dev/zero"):
        assert drawn.run_command(words)[0] == 2
    with open("/dev/zero", "rb") as zeros:
        assert drawn.run_command("-", stdin=zeros) == (
            2, b"", "ldvbi-side: standard input is no document; make one of a TBC file: ldvbi extract --meta "
            "side.tbc.json | ldvbi-side -\n")


@pytest.mark.parametrize("processors, jobs", ((None, 1), (3, 3), (8, 4)))
def test_how_many_sides_a_scan_reads_at_a_time(processors, jobs):
    with mock.patch("os.cpu_count", return_value=processors):
        assert parser_of_scan("").parse_args(["."]).jobs == jobs
