"""What can't be shown as it is, documents without an end, and pages of other programs. Files
that appear when they are whole, and outputs that would be written in the place of an input."""

import contextlib
import functools
import io
import itertools
import json
import os
import pathlib
import re
import signal
import stat
from unittest import mock

import discs
from ldvbi_side import outside
from ldvbi_side.command import outputs
from ldvbi_side.command.outputs import whole_file, whole_files, whole_path
from ldvbi_side.draw.index import Fault, faults_in, head_of, index_of, PART, sides_of
from ldvbi_side.draw.page import MARK
from ldvbi_side.join.heads import said_of
from ldvbi_side.outside import bytes_of_document, legible, printable, shown, uncontrolled
import pytest
from room import IN_PLACE, reason

# A name with Escape, a line's end, bytes that aren't UTF-8 and characters that are set aside; letters of any kind stay.
NAME = os.fsdecode(b"\x1b[31m\n\xff\x7f\xc2\x9f") + "\ufffe\uffff\U0001ffff ü\u0416\u65e5\U0001f4bf<&>"


@contextlib.contextmanager
def whole_one(path):
    """One of several paths."""
    with whole_files([path], ["-wal"]) as parts:
        yield parts[0]


WRITERS = whole_file, functools.partial(whole_path, ends=[])
LETTERS, SIGN = " ü\u0416\u65e5\U0001f4bf<&>", "\ufffd"


@pytest.mark.parametrize("call, text, wanted", (
    (legible, NAME, r"\x1b[31m\n\udcff\x7f\x9f\ufffe\uffff\U0001ffff" + LETTERS),
    (legible, "a" * 600, "a" * 600), (legible, "a" * 400 + "b" * 400, "a" * 397 + "..." + "b" * 200),
    (printable, NAME, "?[31m" + "?" * 7 + LETTERS), (shown, NAME, SIGN + "[31m" + SIGN * 7 + LETTERS),
    (shown, "a\u200db\ue000\ufffd\n", "a\u200db\ue000\ufffd" + SIGN)))  # marks without a width belong to writing
def test_texts(call, text, wanted):
    assert call(text) == wanted


def test_which_characters():
    """A page has all but those that are set aside; a row of CSV has all but control characters."""
    codes = (0, 0x1F, 0x20, 0x7E, 0x7F, 0x80, 0x9F, 0xA0, 0xD7FF, 0xD800, 0xDFFF, 0xE000, 0xFFFC, 0xFFFE, 0xFFFF,
             0x10000, 0x1FFFD, 0x1FFFE, 0x20000, 0x10FFFF)
    assert [code for code in codes if shown("\n" + chr(code)) == SIGN + chr(code)] == [
        0x20, 0x7E, 0xA0, 0xD7FF, 0xE000, 0xFFFC, 0x10000, 0x1FFFD, 0x20000]
    assert [code for code in codes if uncontrolled("\n" + chr(code)) != r"\n" + chr(code)] == [
        0, 0x1F, 0x7F, 0x80, 0x9F]


def test_what_is_printed_to_no_file():
    """A program that takes it gets it as it is."""
    with contextlib.redirect_stdout(io.StringIO()) as taken:
        outside.open_streams()
        print("\udcff")
    assert taken.getvalue() == "\udcff\n"


def read_document(data):
    file = io.BufferedReader(io.BytesIO(data))
    return bytes_of_document(file, file.peek(64))


def test_how_much_is_read():
    for data in (b"", b" \n", b'\n{"version":2', b"[]" + b" " * 100000):
        assert read_document(data) == data
    assert len(read_document(bytes(100000000))) < 1000000  # it begins as none
    long = mock.Mock(**{"read.return_value": b"{}"})
    assert (bytes_of_document(long, b"{"), long.read.mock_calls) == (b"{}", [mock.call((512 << 20) + 1)])
    with mock.patch.object(outside, "MOST_BYTES", 1000):
        assert len(read_document(b"{" + bytes(999))) == 1000
        assert reason(read_document, b"{" + bytes(1000)) == "it is longer than any document"


MARKS = {"pace": "video", "said": {"chapter": [], "programme status": []}, "lasting": [[1, 9, 1]], "users": [],
         "begins": None, "ends": [8, 9]}
# What a page of others says, by member
WRONG = {
    "whole": ("perhaps", None, ["yes"]), "fields": (None, True, 1.5), "reasons": (None, ["lost"], [{"text": 1}], 5),
    "numbers": (None, [], {"count": 1, "least": 1}, {"count": 1, "greatest": 1},
                {"count": "1", "least": 1, "greatest": 1}), "lost": (None,),
    "format": (1,), "counts": ([], {"lost": 1}), "leadIn": (None, True), "leadOut": ("1",), "try": (1, []),
    "side": (1,), "options": (None, 1, [1]), "system": (None,), "unit": (1,),
    "marks": (1, [], {}, *({**MARKS, **one} for one in (
        {"said": 1}, {"said": {"chapter": []}}, {"lasting": [[1, 2, 0]]}, {"lasting": [[1, 1 << 40, 1]]},
        {"lasting": [["1", 2, 1]]}, {"users": [[1]]}, {"users": [[[1], "000"]]}, {"users": [[1, 0]]}, {"begins": [1]},
        {"ends": [1, None]}, {"said": {"chapter": [[1, 2, "1"]], "programme status": []}},
        {"said": {"chapter": [], "programme status": [[1, 2, 1]]}})))}
META = '<meta name="%s" content="%%s">' % MARK
NO_PAGES = ("", "<", "<![", "<![if x", "<![[foo]]><body>", "<!doctype [<!", "<" * 100000, "\0" * 100000,
            '<meta name="ldvbi-side">', "<meta name=x>", b"<title>\xff\xfe</title>", *(META % one for one in (
                "[" * 100000, "{&quot;version&quot;:NaN}", "1" * 5000, "[]", "{&quot;version&quot;: 3}")))


@pytest.fixture
def said():
    return said_of(discs.typed(discs.pictures(range(1, 9))))


def page_saying(room, said):
    content = json.dumps(said).replace("&", "&amp;").replace('"', "&quot;")
    return room.write("page.html", "<title>side</title>%s<body>" % META % content)


def refused(room, page, why="no page that --html wrote"):
    assert reason(index_of, room.named("index.html"), [page]) == "%s is %s" % (page, why)


def test_how_much_of_a_page_is_read(room):
    """Its head is within 64 parts: one of 2048 characters, and each next one of twice as many, up to 65536. After one
    in which its body begins nothing is read."""
    head = '<meta name="ldvbi-faults" content=\'[["a", "b", "c"]]\'>'
    for text, wanted in ((head.rjust(31 * 2048 + 59 * 65536), ["a"]), (head.rjust(31 * 2048 + 59 * 65536 + 1), []),
                         ((head + "<body>").ljust(2048) + head.replace('"a"', '"d"'), ["a"])):
        assert [one.side for one in faults_in(room.write("index.html", text))] == wanted


def test_pages_of_one_name(room, said):
    """An index has the paths of their sides, as far as they are known, and what to try; so of a side without a page."""
    pages = []
    for name, path in (("a", None), ("b", "/x/side"), ("c", "/y/side")):
        said["side"], said["try"] = path, path and "--black 5"
        pages.append(room.write(name, room.read(page_saying(room, said))))
    for some, *wanted in ((pages, ["/x/side", "/y/side", "side"], ["--black 5", "--black 5", ""]),
                          (pages[1:2], ["side"], ["--black 5"])):
        text = index_of(room.named("index.html"), some).replace("<wbr/>", "")
        assert [re.findall("<a href=.*?>(.*?)</a>", text),
                re.findall('role="cell">(--.*?|)</td><td role="cell">PAL<', text)] == wanted
    text = index_of(room.named("index.html"), pages[1:2], [Fault("/z/side", "side", "odd")]).replace("<wbr/>", "")
    assert {"/x/side", "/z/side"} == set(re.findall("/[xz]/side", re.sub("<meta.*?>", "", text)))


def test_what_pages_of_others_say(room, said):
    """However long their head is, of which a part is read at once."""
    for marks in (None, MARKS):
        said["marks"] = marks
        assert head_of(page_saying(room, said)) == ("side", said)
    for name, values in WRONG.items():
        for value in values:
            refused(room, page_saying(room, {**said, name: value}))
    for name in said.keys() - {"version"}:
        refused(room, page_saying(room, {one: value for one, value in said.items() if one != name}))
    page_saying(room, {**said, "side": ["/x/side"]})
    assert sides_of(room.folder) == {"page.html": None}
    said["reasons"] = [{"why": "x", "whole": "no", "text": "a reason" * 20000}]
    assert len(json.dumps(said)) > 2 * PART
    assert head_of(page_saying(room, said)) == ("side", said)


def test_what_is_no_page(room):
    for text in NO_PAGES:
        refused(room, room.write("page.html", text))
    for known in ("{}", "{&quot;version&quot;: 1}"):
        refused(room, room.write("page.html", META % known), "a page of another version: write it again")
    refused(room, "/dev/zero", "no file")


@pytest.mark.parametrize("name", ("n" * 255, "n" * 215, "ü" * 125 + "b", os.fsdecode(b"\xff" * 254)))
def test_each_is_written(room, name):
    """A part has its file's name where that fits in 255 bytes, else as much as does, and digits that are its own."""
    fits = "n" * (255 - len(outputs._part_by("", 1)))
    assert re.fullmatch(r"\.ldvbi-%s\.[0-9a-f]{8}-1\.part" % fits, outputs._part_by(fits, 1))
    assert re.fullmatch(r"\.ldvbi-n{223}(\.[0-9a-f]{8}){2}-1\.part", outputs._part_by("n" * 255, 1))
    assert outputs._part_by(name[:-1] + "x", 1) != outputs._part_by(name, 1)
    path = room.named(name)
    with whole_file(path) as file:
        file.write("whole")
    with whole_path(path, []) as part, open(part, "wb") as file:
        file.write(b"path")
    assert room.files() == {name: b"path"}
    for kept, part in (("os.unlink", whole_file(path)), ("shutil.rmtree", whole_path(path, []))):
        with pytest.raises(KeyboardInterrupt), mock.patch(kept), part:
            raise KeyboardInterrupt
        assert len(room.names()) == 2
        outputs.drop_part(path, os.getpid())
        assert room.names() == [name]


@pytest.mark.parametrize("write", (*WRITERS, whole_one))
def test_a_sudden_end(room, write):
    """Nothing is left of what isn't complete then, nor of what is beside it."""
    with pytest.raises(FileNotFoundError), write(room.path) as part:
        for end in ("", "-wal") * (write is whole_one):
            room.write(part + end, "new")
        outputs._drop_own()
        assert room.names() == []


def test_what_processes_left_that_are_gone(room):
    """Those of this machine alone, and nothing that only looks so; a process may be somebody else's."""
    part = os.path.basename(outputs._part_by("page.html", os.getpid()))
    gone = 4194305  # no process has such a number
    kept = [part, *(part.replace("-%d.part" % os.getpid(), end) for end in ("-1.part", "-x.part")),
            ".ldvbi-page.html.00000000-%d.part" % gone, "page.html.%d.part" % gone, ".ldvbi-%s" % gone]
    left = os.path.basename(outputs._part_by("page.html", gone))
    os.mkdir(room.named(left.replace("page", "base")))
    for name in (*kept, left, left.replace("page", "base") + "/part"):
        room.write(name, "")
    with mock.patch("os.getpgid", side_effect=PermissionError):
        outputs.drop_parts(room.folder)
        assert left in room.names()
    outputs.drop_parts(room.folder)
    assert room.names() == sorted(kept)


@pytest.mark.parametrize("write", (*WRITERS, whole_one))
@pytest.mark.parametrize("older, mode", ((None, None), ("old", 0o640)))
def test_it_appears_at_the_end(room, write, older, mode):
    """Where there was none, and where one is replaced, whose mode it has. It has its name when it is on the disk."""
    synced, mask = [], os.umask(0)
    os.umask(mask)
    if older:
        os.chmod(room.write(room.path, older), mode)

    def sync(descriptor):
        synced.append(pathlib.Path("/proc/self/fd/%d" % descriptor).read_text(encoding="utf-8"))
        assert room.files().get("side.tbc") == (older and older.encode())

    with mock.patch("os.fsync", sync), write(room.path) as part:
        if write is whole_file:
            part.write("new ü\n")
        else:
            pathlib.Path(part).write_text("new ü\n", encoding="utf-8")
    assert (synced, room.files()) == (["new ü\n"], {"side.tbc": "new ü\n".encode()})
    assert stat.S_IMODE(os.stat(room.path).st_mode) == (mode or 0o666 & ~mask)


def test_faults_and_links(room):
    """A fault of the system is of the file that was asked for, unless it names another one. A link stays one."""
    for words, name in (((28, "No space left on device"), room.path), ((2, "No such file", "other"), "other"),
                        (("a fault of ours",), None)):
        with pytest.raises(OSError) as raised, whole_file(room.path):
            raise OSError(*words)
        assert raised.value.filename == name
    assert room.names() == []
    os.symlink("target", room.named("link"))
    with whole_file(room.named("link")) as file:
        file.write("new")
    assert (os.path.islink(room.named("link")), room.read("target")) == (True, b"new")


def test_no_place_for_it(room):
    """The part of another run is there, for one."""
    part = room.write(outputs._part_by(room.path, os.getpid()), "old")
    os.symlink("two", room.named("one"))
    os.symlink("one", room.named("two"))
    before = room.names()
    for call, (name, kind) in (*itertools.product(WRITERS, (
            ("one", OSError), (part + "/side.html", NotADirectoryError), ("side.tbc", FileExistsError),
            ("absent/side.html", FileNotFoundError))), (whole_file, ("", IsADirectoryError))):
        with pytest.raises(kind) as raised, call(room.named(name)):
            pytest.fail("there is a file")
        assert raised.value.filename in (room.named(name), part)
    assert (room.names(), room.read(part)) == (before, b"old")


def test_which_are_refused(room):
    side, meta, new = room.write("side.tbc", "old"), room.write("side.tbc.json", "old"), room.named("new")
    near, again = os.path.relpath(side), room.named("./new")
    with open(side, "ab") as file:
        number = file.fileno()
        for name, written_to, inputs in (
                (None, [new, None], [side, meta]), (None, [None, meta, new], [side, None]),
                (None, [meta], [side, "absent"]), (None, ["/dev/null", "/dev/null"], ["/dev/null"]),
                (None, [1], [0, side]), (None, [99], [99]),  # 99 is no open file
                (new, [new, new], []), (again, [new, again], []), (near, [None, near], [side, meta]),
                (side, [number, side], []), (number, [number], [side])):
            assert reason(outputs.refuse_inputs, written_to, inputs) == (name and IN_PLACE % name)


@pytest.mark.parametrize("share, waits", ((0, 500), (0.04, 500), (0.0625, 400), (1, 25)))
def test_a_process_that_heeds_no_signal_ends_without_its_parts(room, share, waits):
    """Once it has had half a second of a processor, of which it gets such a share, or ten seconds. It looks fifty times
    a second. Another signal is heeded meanwhile."""
    part, (ours, theirs) = room.write("part", "old"), os.pipe()
    handlers = iter((outside._stop, signal.SIG_IGN, signal.SIG_IGN, *[outside._stop] * 1000))
    os.write(theirs, bytes([signal.SIGINT, signal.SIGTERM]))
    with mock.patch.object(outputs, "_own", [part]), mock.patch.object(signal, "getsignal", lambda _: next(handlers)), \
            mock.patch("time.sleep") as wait, mock.patch("time.monotonic", lambda: wait.call_count / 50), \
            mock.patch("time.process_time", lambda: share * wait.call_count / 50), \
            mock.patch.object(os, "_exit", side_effect=SystemExit) as end, pytest.raises(SystemExit):
        outside._watch(ours, mock.Mock())
    end.assert_called_once_with(128 + signal.SIGTERM)
    assert (wait.mock_calls, room.names()) == ([mock.call(0.02)] * (1 + waits), [])
