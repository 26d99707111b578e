"""The module ldvbi: which objects it takes samples from, where it looks for the library, and that it has what the
header says. And what its calls refuse: the library gets each number as it is, and what it answers is said. All that it
refuses has tests/library/refusals.py."""

import _testbuffer
import array
import ctypes
import functools
import gc
import io
import mmap
import os
import pathlib
import re
import shutil
import subprocess
import sys
import types
from unittest import mock

from compact import cells_of, made
from discs import side
import ldvbi
from ldvbi import (complete_times, draw_line, find_clock, find_pace, judge, judge_chapters, judge_ends, judge_field,
                   judge_side, judge_stops, judging, library, near, nearest, next_stop, read_field, read_line,
                   read_rows, recover_pile, seek, seek_chapter, seeking, sides, stream, Stream)
from ldvbi.collector import paused
from ldvbi_side.__main__ import main
from ldvbi.samples import Samples
import pytest
from room import reason
from streams import line_with, NTSC, TOP

# A line of one word, which is taken in each kind of object: samples of 16 bits, or raw bytes, and nothing else
SHOWN = line_with(0xF12345, NTSC)


def test_taken():
    view, samples, mapped = memoryview(SHOWN), array.array("H", SHOWN), mmap.mmap(-1, len(SHOWN))
    mapped.write(SHOWN)
    for source in (SHOWN, bytearray(SHOWN), mapped, memoryview(b"x" + SHOWN + b"y")[1:-1],
                   io.BytesIO(SHOWN).getbuffer(), samples, memoryview(samples).cast("B"), view.cast("H"),
                   view.cast("c"), view.cast("H", (2, 455)), (ctypes.c_uint16 * 910).from_buffer_copy(SHOWN),
                   ctypes.create_string_buffer(SHOWN, 1820), memoryview(array.array("B", SHOWN)).cast("H")):
        assert ldvbi.read_line(source, *NTSC) == (ldvbi.Cause.word, 1, 0, 0xF12345)
    assert ldvbi.read_line(line_with(0, NTSC, [(14, 33, True)]), *NTSC) == (ldvbi.Cause.change, 0, 34, 0)


def test_refused():
    """In Fortran's order, column by column, samples lie otherwise than they are counted, though there are no gaps."""
    view, numbers = memoryview(SHOWN), list(array.array("H", SHOWN))
    columns = _testbuffer.ndarray(numbers, shape=[2, 455], format="H", flags=_testbuffer.ND_FORTRAN)
    form = "of the format %s, not H (16 bits without sign, the low byte first)"
    for text, source in (
            *((form % kind, array.array(kind, SHOWN)) for kind in "Bfih"),
            *((form % kind, view.cast(kind)) for kind in "Ib"),
            (form % "<B", (ctypes.c_uint8 * 1820).from_buffer_copy(SHOWN)),
            (form % ">H", (ctypes.c_uint16.__ctype_be__ * 910).from_buffer_copy(SHOWN)),
            (form % "d", memoryview(array.array("d", bytes(1820 + 4))).cast("B")[:1820]),
            ("not bytes in one piece", columns), ("not bytes in one piece", memoryview(SHOWN + SHOWN)[::2]),
            ("not bytes, but of the type NoneType", None), ("not bytes, but of the type list", [1, 2])):
        for call in (read_line, read_rows, read_field, Stream):
            assert reason(call, source, *NTSC) == "samples are " + text


@pytest.mark.parametrize("is_refused", (False, True))
def test_a_buffer_is_held(is_refused):
    """As long as it has to be, and it is given back then: else there is a BufferError."""
    line = bytearray(SHOWN)
    with Samples(line) as memory:
        pytest.raises(BufferError, line.append, 0)
    assert memory.length == 1820  # it is there still, and holds nothing any more
    line.extend(b"x" * is_refused)
    assert (reason(ldvbi.read_line, line, *NTSC) is not None) == is_refused
    line.append(0)


def test_the_collector_is_paused():
    """It doesn't look through what was made meanwhile. What was so before stays so."""
    gc.unfreeze()
    gc.collect()
    before = gc.get_stats()
    with paused():
        assert not gc.isenabled()
        kept = [[] for _ in range(15000)]
        with paused():
            pass
        assert not gc.isenabled()
    assert (gc.isenabled(), gc.get_stats(), gc.get_freeze_count(), len(kept)) == (True, before, 0, 15000)
    gc.freeze()
    with paused():
        kept += [[] for _ in range(15000)]
    assert gc.get_freeze_count() > 0
    gc.unfreeze()


def test_calls_that_make_little_count_no_objects(monkeypatch):
    """To count those that are frozen takes as long as there are many. Not each Python can freeze them."""
    freeze = mock.Mock()
    for count, frozen in ((10000, lambda: pytest.fail("counted")), (10001, lambda: 0)):
        monkeypatch.setattr(gc, "get_count", lambda count=count: (count, 0, 0))
        monkeypatch.setattr(gc, "get_freeze_count", frozen)
        monkeypatch.setattr(gc, "freeze", freeze)
        with paused():
            assert not gc.isenabled() and not freeze.called
    assert freeze.call_count == 1
    monkeypatch.delattr(gc, "freeze")
    with paused():
        assert not gc.isenabled()


def test_a_program_that_calls_the_command_keeps_its_collector(tmp_path, capsys):
    """What it has made is still looked through."""
    gc.unfreeze()
    assert main([str(tmp_path / "none.json")]) == 2 and gc.get_freeze_count() == 0


# ---- Where the library is, and what it has

MAKE, NAMES = "`make lib` or `make rust` builds", "LDVBI_LIBRARY names its file"
REFUSED = "the library's status is 99"
LOADED, HERE = library.library_text, os.environ["LDVBI_LIBRARY"]
HEADER = re.sub(r"/\*.*?\*/", "", pathlib.Path(TOP, "include", "ldvbi.h").read_text("ascii"), flags=re.S)
# What a library is too old for that lacks one of these calls
OLD = """
    say its version | version || find paces | find_pace || complete times | complete_times || find clocks | find_clock
    judge numbers | judge || judge one field | judge_field || judge chapters | judge_chapters
    judge stops | judge_stops || judge whole sides | judge_ends, find_both, judge_side, set_aside
    check plans | check_plan
    seek numbers | seek || seek chapters | seek_chapter || seek stops | next_stop || find nearest words | nearest
    recover words | recover_rows, recover_fields || recover words of piles | recover_pile
    write the document with recovered words | recovered_record
"""


def other(interface=3, status=0, cause=0, **more):
    """A library with this interface, whose calls return this status and write this cause; and with more calls."""
    def call(*words):
        for one in words:
            if isinstance(one, ctypes.Array):
                one[0] = cause
        return status

    known = {"ldvbi_" + name: functools.partial(call) for name in (
        "read_line", "read_rows", "read_field", "read_fields", "draw_line")}
    return types.SimpleNamespace(_name="FILE", ldvbi_abi=lambda: interface, **known, **more)


def judging_as(state, status=0):
    """A library whose judge answers number 5 in this state."""
    def call(*words):
        if words[-1]:
            judging.PACKED_NUMBER.pack_into(words[-2], 0, 5, state)
        return status if words[-1] else 0
    return other(ldvbi_judge=call)


@pytest.fixture
def anew(monkeypatch):
    """Has a library loaded anew: this one, or the one of a file."""
    def load(one):
        library.library.cache_clear()
        library.later_call.cache_clear()
        if isinstance(one, str):
            monkeypatch.setenv("LDVBI_LIBRARY", one)
        else:
            monkeypatch.setattr(library.ctypes, "CDLL", lambda _: one)
    yield load
    load("")


def causes():
    return read_line(bytes(1820), "NTSC", 1, 2).cause, next(ldvbi.fields(bytearray(478660), "NTSC", 1, 2))[0].cause


def state():
    return judge(bytes(24), "NTSC")[0]


@pytest.mark.parametrize("asked, one, wanted", (
    (causes, "/absent", "no library to read and judge with (/absent: cannot open shared object file: No such file or "
     "directory): " + MAKE + " it, " + NAMES),
    (causes, other(1), "HERE has the interface 1, not 3: %s the one that fits, %s" % (MAKE, NAMES)),
    # causes and states that a later library adds stay numbers, and its statuses are refusals
    (causes, other(cause=5), (5, 5)), (causes, other(cause=255), (255, 255)), (causes, other(status=99), REFUSED),
    (state, judging_as(4), (5, 4)), (state, judging_as(2 ** 31), (5, 2 ** 31)), (state, judging_as(0, 99), REFUSED),
    # the proved one is known by its version: from then on plain Rust says what it is
    (LOADED, other(ldvbi_version=lambda: 1999), "library 0.1.999 (proved or plain Rust): FILE"),
    (LOADED, other(ldvbi_version=lambda: 2000), "library 0.2.0 (proved): FILE"),
    (LOADED, other(ldvbi_version=lambda: 12000000), "library 12.0.0 (proved): FILE"),
    (LOADED, other(ldvbi_version=lambda: 11999999, ldvbi_plain_rust=None),
     "library 11.999.999 (plain Rust, not proved): FILE")))
def test_what_is_loaded(anew, asked, one, wanted):
    anew(one)
    assert (ldvbi.classify(0xF12345).first, ldvbi.field_bytes("PAL")) == (12345, 710510)  # which need no library
    found = reason(asked, kind=(OSError, ValueError)) or asked()
    assert (found.replace(HERE, "HERE") if isinstance(found, str) else found) == wanted


def test_an_older_one(anew):
    """It reads samples, and says what it is too old for."""
    anew(other(cause=1))
    rows = [(purpose, "ldvbi_" + name) for purpose, names in cells_of(OLD) for name in names.split(", ")]
    assert (causes(), sorted(name for _, name in rows)) == ((1, 1), sorted(library._LATER))
    for purpose, name in rows:
        assert reason(library.later_call, name, kind=OSError) == (
            "FILE is too old to %s, it has no %s: %s a later one, %s" % (purpose, name, MAKE, NAMES))


def test_what_the_loader_finds(room, anew):
    """In a folder whose name isn't UTF-8."""
    folder = room.named(os.fsdecode(b"\xff"))
    os.mkdir(folder)
    path = shutil.copy(os.environ["LDVBI_LIBRARY"], os.path.join(folder, "other.so"))
    code = "from ldvbi.library import library_text; print(ascii(library_text()))"
    found = subprocess.run([sys.executable, "-c", code], stdout=subprocess.PIPE, text=True, check=True, env={
        **os.environ, "LDVBI_LIBRARY": "other.so", "LD_LIBRARY_PATH": folder}).stdout
    assert found.startswith("'library %s (p" % ldvbi.__version__) and found.endswith("): %s\n" % ascii(path)[1:])
    anew("libc.so.6")
    assert re.fullmatch(r"no library to read and judge with \(.*undefined symbol: ldvbi_abi\): %s it, %s" % (
        MAKE, NAMES), reason(causes, kind=OSError))
    with mock.patch("builtins.open", side_effect=OSError):
        assert library._path_of("libldvbi.so.3") == "libldvbi.so.3"
    assert library._path_of("x/../y") == os.path.abspath("y")


def test_the_header_says_so():
    """The arguments of each call, each number of an enumeration, and what is said of a status."""
    of_type = {"uint32_t": ctypes.c_uint32, "size_t": ctypes.c_size_t}
    for name, kinds in (*library._ARGUMENTS.items(), *((name, kinds) for name, (_, kinds) in library._LATER.items())):
        given = re.findall(r"[^,]+", re.search(r"\b%s\((?:void|([^)]*))\)" % name, HEADER)[1] or "")
        assert kinds == [ctypes.c_void_p if "*" in one else of_type[one.split()[0]] for one in given], name
    statuses = [value for name, value in vars(library).items() if name.startswith("BAD_")]
    for name, text in re.findall(r"enum Ldvbi(\w+) {(.*?)}", HEADER, re.S):
        ours = [0, *statuses] if name == "Status" else list(getattr(ldvbi, name))
        assert ["= %d" % one for one in [0] * (name == "Rule") + ours] == re.findall(r"= \d+", text), name
    texts = re.findall(r'"([^"]*)"', HEADER.partition("ldvbi_status_text")[2].partition("return")[0])
    texts = [None, texts[1], *("the library's status is %d" % one for one in (2, 3)), *texts[4:]]
    assert [reason(library.check, status) for status in (0, *statuses)] == texts


def test_all_that_is_public():
    names = {name for name, value in vars(ldvbi).items() if name[0] != "_" and not isinstance(value, types.ModuleType)}
    assert names == {*ldvbi.__all__, "BLOCK", "PACKED_FIELD"}
    assert ldvbi.__version__ == re.search(r'VERSION_TEXT "(.*)"', HEADER)[1]


def test_places(room, monkeypatch):
    """Each place before those after it, where the variable is empty or unset. Without a file the loader is asked."""
    os.makedirs(room.named("share/ldvbi/python/ldvbi"))
    monkeypatch.setattr(library, "__file__", room.named("share/ldvbi/python/ldvbi/library.py"))
    monkeypatch.setenv("LDVBI_LIBRARY", "")
    assert library._library_file() == "libldvbi.so.3"
    for place in ("lib", "share/ldvbi/rust", "share/ldvbi", "share/ldvbi/python", "share/ldvbi/python/ldvbi"):
        os.makedirs(room.named(place), exist_ok=True)
        path = room.write(place + "/libldvbi.so.3", "")
        assert os.path.realpath(library._library_file()) == path
    monkeypatch.delenv("LDVBI_LIBRARY")
    assert os.path.realpath(library._library_file()) == path


# ---- What is refused

WIDE = (65536, 2 ** 32 - 1, 2 ** 32, 2 ** 32 + 1, 2 ** 64 + 1, -1)
LINE, FIELD = draw_line(0xF12345, *NTSC), bytes(ldvbi.field_bytes("NTSC"))
NO_SYSTEM, NOT_BELOW = "system is neither NTSC nor PAL", "black is not below white"
COUNTED = "neither pictures nor times are counted"
PACE = "pace is neither that of video nor of film, nor to be found"
BOTH = "numbers are on one field of a picture or on both, or that is to be found"
READINGS = made("0..48", side).readings
# Calls with dropouts after them
PILE, THREE = (recover_pile, LINE, *NTSC, 17), (read_rows, LINE * 3, *NTSC, True)
ONE, TWO = (read_field, FIELD, *NTSC, True), (Stream, FIELD * 2, *NTSC, True)
LINES = "1 to 28 lines have %d bytes each, and these are %d"
# What isn't taken, and calls that don't take it. Of what is refused for more than one reason that is said which comes
# first in the library's order.
ROWS = (
    (NO_SYSTEM, (read_line, LINE, "ntsc", 2, 2), (ldvbi.line_bytes, 3), (ldvbi.field_bytes, "SECAM"),
     (recover_pile, b"", 3, 2, 2, 17)),
    (NOT_BELOW, (nearest, b"", "NTSC", 2, 2), (recover_pile, LINE, "NTSC", 2, 2, 17), (Stream, b"", "NTSC", 2, 2, 1)),
    ("black is not a whole number", (read_line, LINE, "NTSC", 1.0, 2)),
    ("white is not a whole number", (read_line, LINE, "NTSC", 1, "2")),
    ("field is -1", (next_stop, Stream(b"", *NTSC), -1)), ("most is -1", (next_stop, Stream(b"", *NTSC), 0, -1)),
    ("word is not a whole number", (draw_line, "F12345", *NTSC)),
    ("number is no code word", (ldvbi.classify, 0x7FFFFF)),
    ("a line has 1820 bytes, not 1819", (read_line, LINE[1:], *NTSC)),
    ("three lines have 5460 bytes, not 0", (read_rows, b"", "NTSC", 1, 2), (read_rows, b"", "NTSC", 1, 2, True)),
    ("a field has 710510 bytes, not 0", (read_field, b"", "PAL", 1, 2), (read_field, b"", "PAL", 1, 2, True)),
    (LINES % (1820, 0), (nearest, b"", *NTSC), (recover_pile, b"", *NTSC, 17)),
    (LINES % (1820, 52780), (nearest, 29 * LINE, *NTSC), (recover_pile, 29 * LINE, *NTSC, 17, [(28, 1, 2)])),
    ("line is none of 16, 17 and 18", (recover_pile, LINE, *NTSC, 2 ** 32 + 17)),
    (COUNTED, (seek, Stream(b"", *NTSC), 7, "chapters"), (judge_field, READINGS[:5], 0, "PAL", "chapters")),
    (PACE, (seek, Stream(b"", *NTSC), 7, "pictures", "slow"),
     (judge_field, READINGS[:5], 0, "PAL", "pictures", "find")),
    *(("field %d of %d, which may be 97 at most" % (field, count), (judge_field, READINGS[:count], field, "PAL"))
      for field, count in ((0, 98), (5, 5), (-1, 5))),
    ("dropouts are for recovered words alone: give recover, too",
     *((call, FIELD, *NTSC, False, []) for call in (Stream, ldvbi.fields, read_field, read_rows))),
    ("a dropout is in line 1 of 1, counted from 0", (*PILE, [(1, 1, 2)])),
    ("a dropout's columns are 3 to 2", (*PILE, [(0, 3, 2)]), (*THREE, [(17, 3, 2)])),
    ("a dropout's columns are -1 to 4", (*THREE, [(17, -1, 4)])),
    ("a dropout is not 3 numbers: index, first, last", (*PILE, [(0, 17, 1, 2)])),
    ("a dropout is in field 2 of 2, counted from 0", (*TWO, [(2, 17, 1, 4)])),
    ("a dropout is in field -1 of 2, counted from 0", (*TWO, [(-1, 17, 1, 4)])),
    ("a dropout is not 4 numbers: field, line, first, last", (*TWO, [(17, 1, 4)]), (*TWO, [5])),
    ("a dropout is in line 15, not in 16, 17 or 18", (*THREE, [(15, 1, 4)])),
    ("a dropout is in line 4294967313, not in 16, 17 or 18", (*ONE, [(2 ** 32 + 17, 1, 4)])),
    ("a dropout's first is not a whole number", (*THREE, [(17, 1.0, 4)])),
    ("a dropout's line is not a whole number", (*ONE, [("17", 1, 4)])),
    ("a dropout is not 3 numbers: line, first, last", (*THREE, [(17, 1)]), (*ONE, [5]), (*ONE, [(0, 17, 1, 4)])))


def test_rows():
    for text, *calls in ROWS:
        for call, *words in calls:
            assert reason(call, *words) == text


def test_wide_numbers():
    """Numbers at the edges of 16 and 32 bits, and beyond them: each is refused by what it is, and never by what is left
    of it in fewer bits."""
    black, white = ("%s is not from 0 to 65535" % name for name in ("black", "white"))
    rows = [row for wide in WIDE for row in (
        (NO_SYSTEM, wide, 16384, 65535), (black, "NTSC", wide, 65535), (white, "NTSC", 100, wide))]
    rows += [(black, "NTSC", 65536, 65537), (NOT_BELOW, "NTSC", 65535, 65535), (None, "NTSC", 0, 65535)]
    calls = (read_line, LINE), (read_rows, LINE * 3), (read_field, FIELD), (Stream, b""), (draw_line, 0xF12345)
    for text, *setup in rows:
        assert {reason(call, first, *setup) for call, first in calls} == {text}
    for word in (257, *WIDE):
        assert reason(draw_line, word, *NTSC) == "number is no code word"


def test_what_is_judged():
    """What is asked for is looked at before the readings are."""
    wrong = ((NO_SYSTEM, ("SECAM", None, 3)), (COUNTED, ("chapters", None, 0, 3, 1.0, *WIDE)),
             (PACE, ("slow", None, 0, 4, *WIDE)), (BOTH, ("both", None, 2, 4, *WIDE)))
    for call, count in ((judge_side, 4), (find_clock, 4), (judge, 3), (find_pace, 2), (complete_times, 1)):
        for place, (text, values) in enumerate(wrong[:count]):
            for value, readings in ((value, readings) for value in values for readings in ([], [5])):
                later = (9, 9)[:max(min(count, 3) - place - 1, 0)]
                assert reason(call, readings, *("PAL", 1, 3)[:place], value, *later) == text


def test_each_call(monkeypatch):
    """A fault of a call of the library, which none has, is raised: the call fails where it is to write something."""
    one = made("1..3 -/#79999/- B", side)
    packed, away = (b"".join(ldvbi.PACKED_FIELD.pack(*sum(map(tuple, field), ())) for field in shown.readings)
                    for shown in (one, made("1..30 201..210 41..60", side)))

    def fields(**more):
        return Stream(FIELD, *NTSC, recover=True, **more)

    def later_call(name, asked):
        works = library.later_call(asked)
        return works if asked != "ldvbi_" + name else lambda *given: 99 if any(
            len(one) for one in given if isinstance(one, ctypes.Array)) else works(*given)

    for name, call, *words in (
            ("judge", judge, packed, "PAL"), ("judge_field", judge_field, packed, 1, "PAL"),
            ("complete_times", complete_times, packed, "PAL"), ("find_pace", find_pace, packed, "PAL"),
            ("judge_chapters", judge_chapters, packed), ("judge_stops", judge_stops, packed),
            ("judge_ends", judge_ends, packed), ("judge", judge_side, packed, "PAL", "pictures", "video"),
            *((name, judge_side, packed, "PAL") for name in ("find_pace", "judge_ends", "judge_side")),
            ("find_clock", find_clock, packed, "PAL"),
            ("find_clock", functools.partial(judge_side, clock="find"), packed, "PAL"),
            ("judge_side", functools.partial(judge_side, clock=(1, 0, 0)), packed, "PAL"),
            ("set_aside", judge_side, away, "PAL"),
            ("nearest", nearest, LINE, *NTSC), ("seek", lambda: seek(fields(), 1)),
            ("seek_chapter", lambda: seek_chapter(fields(), 1)), ("next_stop", lambda: next_stop(fields())),
            ("recover_fields", lambda: list(fields())), ("recovered_record", lambda: list(fields().records())),
            ("recover_fields", lambda: list(fields(dropouts=[(0, 17, 3, 4)])))):
        for module in (judging, near, seeking, sides, stream):
            monkeypatch.setattr(module, "later_call", functools.partial(later_call, name))
        assert reason(call, *words) == REFUSED
    monkeypatch.setattr(sides, "later_call", functools.partial(later_call, "set_aside"))
    assert reason(judge_side, packed, "PAL") is None  # in which no number is set aside
