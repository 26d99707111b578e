"""Judging fields and whole sides: states, what is counted, paces, the forms that readings come in, gaps; and seeking in
the bytes of a side. What the library answers have tests/library/judged.txt and whole.txt; that what is sought is found
as the judge answers it of the whole side, and how many fields are read at most, is proved."""

import ctypes
import functools
import mmap

from compact import made, words_of
from discs import side
import ldvbi
from ldvbi import Both, Counted, Gap, GapKind, Number, Pace, Reason, State, Verdict
import pytest
from room import reason
from streams import NTSC, PAL, write_fields, write_stream

NOTHING = Number(None, State.nothing)
LETTERS = {State.believed: "b", State.doubtful: "d", State.due: "u"}
# Sides, and the numbers and states of their fields: believed, doubtful, due (u) or nothing (-)
STATES = (
    ("1 2 Bx2 4 -/#79999/- B 6 7 2:14/2=B", "1b - 2b - 3u - 4b - 5u - 6b - 7b -"),
    ("NTSC f1..3", "1b - - 2b - 3b - -", "pictures", "film"),
    ("NTSC f1..3", "1d - - 2d - 3d - -", Counted.pictures, Pace.video), ("NTSC f1..3", "1b - - 2b - 3b - -"),
    ("NTSC t1797..1802 5=B", "1797b - 1798b - 1799u - 1800b - 1801b - 1802b -", "times"),
    ("t1497..1502 5=B", "1497b - 1498b - 1499u - 1500b - 1501b - 1502b -", 2, 3))


def asked(call, text, *words, **more):
    """What a call answers of the side with this text."""
    one = made(text, side)
    return call(one.readings, one.system, *words, **more)


def test_states_rows():
    for text, wanted, *words in STATES:
        assert " ".join("-" if one == NOTHING else "%d%s" % (one.number, LETTERS[one.state]) for one in
                        asked(ldvbi.judge, text, *words)) == wanted


def test_one_field():
    """Each of the first fields, of the 97 that all of them rest on, and the pace of all."""
    fields, words = made("NTSC f1..59 41=B 61=999", side).readings, ("NTSC", "pictures", "film")
    assert [ldvbi.judge_field(fields[:97], place, *words) for place in range(49)] == ldvbi.judge(fields, *words)[:49]
    paces = [ldvbi.find_pace(fields, *asked) for asked in (("NTSC",), ("NTSC", Counted.times), ("PAL", 1))]
    assert paces == [Pace.film, Pace.video, Pace.video]


def test_first_of():
    numbers = asked(ldvbi.judge, "1..3 -/#79999/- B 5..7 30 3..6")
    assert [ldvbi.first_of(numbers, number) for number in (None, *range(9), 30, 79999)] == [
        None, None, 0, 2, 4, 6, 8, 10, 12, None, None, None]


# The same readings in each form that they come in: readings, a stream, and what the library wrote.
def test_each(room):
    words = [0xF00003, 0x803DDD, 0, 0x803DDD, 0xF00005, 0x803DDD, 0xF00006, 0x803DDD]
    three, five, six = (Number(number, State.believed) for number in (3, 5, 6))
    wanted = [three, NOTHING, (4, State.due), NOTHING, five, NOTHING, six, NOTHING], [NOTHING, three] * 4
    write_stream(room.path, NTSC, [[0, word, word] for word in words], 5)
    readings = list(ldvbi.fields(room.path, *NTSC))
    plain = [tuple(map(tuple, field)) for field in readings]
    with ldvbi.Stream(room.path, *NTSC) as stream:
        block, = stream.packed(0, 8)
        known = bytes(block)
        for form in (lambda: readings, lambda: iter(readings), lambda: plain, lambda: ldvbi.fields(room.path, *NTSC),
                     lambda: stream, lambda: block, lambda: known, lambda: bytearray(known),
                     lambda: memoryview(b"x" + known)[1:], lambda: (ctypes.c_uint32 * 48).from_buffer_copy(known)):
            assert (ldvbi.judge(form(), ldvbi.System.NTSC), ldvbi.judge_chapters(form())) == wanted
    assert (len(readings), reason(ldvbi.judge, stream, "NTSC")) == (8, "the stream is closed")
    assert repr(ldvbi.judge(known, "NTSC")[0]) == "Number(number=3, state=<State.believed: 1>)"


@pytest.mark.parametrize("one", ([], b"", iter([]), ldvbi.Stream(b"", *NTSC)))
def test_none(one):
    assert [ldvbi.judge(one, "NTSC"), ldvbi.judge_chapters(one), ldvbi.judge_stops(one)] == [[]] * 3
    assert (ldvbi.find_pace(one, "NTSC"), ldvbi.complete_times(one, "NTSC")) == (Pace.video, b"")


def test_refused():
    line = (0, 0, 0, 0)
    for readings, text in ((None, "readings are not those of fields, but of the type NoneType"),
                           (b"12345", "packed readings have 24 bytes to a field, and these are 5"),
                           ([[line] * 3, [line] * 2], "readings[1] is not three readings"),
                           ([[line, line, (0, 0, 0, 2 ** 32)]], "readings[0] is not three readings")):
        for call in (ldvbi.judge, ldvbi.find_pace, ldvbi.complete_times, ldvbi.judge_side, ldvbi.find_clock):
            assert reason(call, readings, "PAL") == text
        assert [reason(call, readings) for call in (ldvbi.judge_chapters, ldvbi.judge_stops)] == [text] * 2


def test_times_that_are_completed():
    """By itself no field here would be believed. What the library completes has tests/library/judged.txt."""
    text = "t1496..1497 s59.23/-/- B s59.24/-/- B s0.0/-/- B s0.1/-/- B s0.2/-/-"
    wanted = made("t1496..1497 s59.23/@0:00/- B s59.24/@0:00/- B s0.0/@0:01/- B s0.1/@0:01/- B s0.2/@0:01/-", side)
    alone = asked(ldvbi.judge, text, "times")
    assert [one.state for one in alone[::2]] == [State.doubtful] * 2 + [State.nothing] * 5
    completed = asked(ldvbi.complete_times, text)
    assert completed == wanted.readings.data
    assert ldvbi.judge(completed, "PAL", "times")[::2] == [(number, State.believed) for number in range(1496, 1503)]


def test_ends_of_times_that_are_completed():
    """Lead-out stands on line 17 of a field whose line 16 shows second and picture, 42 fields after the last time: line
    17 is completed there, and the side ends by the readings themselves."""
    one = made("t1496..1502 Bx40 s0.23/80EEEE/-", side)
    completed = ldvbi.complete_times(one.readings, one.system)
    ended = functools.partial(ldvbi.judge_side, one.readings, one.system, "times")
    assert ldvbi.judge_ends(completed)[-1] != ldvbi.judge_ends(one.readings)[-1] == ldvbi.End.lead_out
    assert Reason.end_unseen not in ended(completed=completed).reasons
    assert ended(completed=completed).numbers == ldvbi.judge(completed, one.system, "times")
    assert reason(ended, completed=completed[24:]) == "of 55 fields there are 54 completed ones"


def test_what_stands_beside():
    found = asked(ldvbi.judge_side, "L 1..30!15 22=? O")
    assert (found.first, found.last, found.swap, found.pace, found.on_both) == (1, 57, None, Pace.video, False)
    assert found.tally._asdict() == dict.fromkeys(found.tally._fields, 0) | {
        "gaps": 1, "lost": 2, "lost_numbers": 1, "unread": 1}
    assert found.gaps == (Gap(27, 29, 2, 0, 14, 16, GapKind.lost),)
    assert found.numbers == asked(ldvbi.judge, "L 1..30!15 22=? O")
    # the field that shows picture 11, which belongs into the one before
    found = asked(ldvbi.judge_side, "1..30 ~21 O")
    assert (found.verdict, found.reasons, found.swap) == (Verdict.not_whole, Reason.is_swapped, 21)
    found = asked(ldvbi.judge_side, "1..30 -/#70/#70 B -/#80/#80 B 200..230 O")
    assert found.gaps == (Gap(58, 64, 334, 2, 30, 200, GapKind.lost),)
    # the player jumps ahead and comes back; pictures 31 to 40 are misread, and these are set aside
    found = asked(ldvbi.judge_side, "1..30 201..210 31..60 O")
    assert (found.verdict, found.reasons) == (Verdict.not_whole, Reason.is_inserted)
    assert found.gaps == (Gap(58, 60, 20, 0, 30, 201, GapKind.inserted), Gap(78, 80, 0, 0, 210, 31, GapKind.inserted))
    assert found.tally.inserted == 20
    found = asked(ldvbi.judge_side, "1..30 201..210 41..60 O")
    assert (found.verdict, found.reasons) == (Verdict.cannot_tell, Reason.is_open)
    assert found.gaps == (Gap(58, 60, 0, 0, 30, 201, GapKind.replaced), Gap(78, 80, 0, 0, 210, 41, GapKind.replaced))
    assert found.aside == tuple(range(60, 80, 2))
    assert found.numbers == [Number(number, State.doubtful if field in found.aside else state) for field, (
        number, state) in enumerate(asked(ldvbi.judge, "1..30 201..210 41..60 O"))]
    found = asked(ldvbi.judge_side, "L Bx9 O")
    assert (found.first, found.last, found.swap, found.gaps, found.reasons) == (None, None, None, (), Reason.no_numbers)
    found = asked(ldvbi.judge_side, "1..30 Bx120 91..110 O")
    assert (found.verdict, found.reasons, found.blank) == (Verdict.cannot_tell, Reason.is_blank, 59)
    assert asked(ldvbi.judge_side, "1..30 Bx80 71..110 O").blank is None


def test_padding():
    """Of padding without a number, in which number 5 is due, and of a field that shows one."""
    one = made("1..4 Bx2 6..30 O", side)
    judged = functools.partial(ldvbi.judge_side, one.readings, one.system)
    padding = [place in (8, 9, 20) for place in range(61)]
    found = judged(padding=padding)
    assert (found.verdict, found.reasons, found.padded) == (Verdict.not_whole, Reason.is_padded, 3)
    assert judged(padding=[False] * 61) == judged() == found._replace(verdict=Verdict.whole, reasons=0, padded=0)
    assert reason(judged, padding=padding[1:]) == "of 61 fields there are 60 marks of padding"


def test_what_is_asked():
    assert asked(ldvbi.judge_side, "1..30", may_end=True).verdict is Verdict.whole
    for both, is_so in ((Both.find, True), ("on_both", True), (1, True), (Both.on_one, False)):
        found = asked(ldvbi.judge_side, "b1..30 O", both=both)
        assert (found.on_both, found.verdict is Verdict.whole) == (is_so, is_so)
    for pace, wanted in (("film", Pace.film), (Pace.video, Pace.video), (3, Pace.film)):
        assert asked(ldvbi.judge_side, "NTSC f1..30", "pictures", pace).pace is wanted
    # more gaps than a first call has room for: pictures 4, 14, .. are lost
    found = asked(ldvbi.judge_side, "1..1000!4%10 O")
    assert [(gap.from_, gap.to, gap.fields) for gap in found.gaps] == [
        (number - 1, number + 1, 2) for number in range(4, 1000, 10)]
    assert (found.tally.gaps, found.tally.lost) == (100, 200)


def test_ends():
    states = ldvbi.judge_ends(made("L O -/88FFFF*/80EEEE* 88FFFF/-/-", side).readings)
    assert [state.name for state in states] == ["lead_in", "lead_out", "doubtful", "none"]


def side_of(text, setup=PAL):
    """The side with this text, and a cut field, in memory. No pages are touched but those of drawn lines."""
    fields = words_of(text)
    memory = mmap.mmap(-1, len(fields) * ldvbi.field_bytes(setup[0]) + 400000)
    write_fields(memory, setup, fields)
    return ldvbi.Stream(memory, *setup)


VIDEO, FILM = (State.believed, Pace.video), (State.believed, Pace.film)
MISREAD, LONG = "1..299 299=-/#79999/#7", "Lx30 1..399 Ox300"  # picture 150 is misread
# Numbers that are sought in the bytes of a side, and the answer: the field, counted from 0, the state, and the pace
SOUGHT = (
    ("f100..299", NTSC, (206,), (265, *FILM)), ("f100..299", NTSC, (206, "pictures", "film"), (265, *FILM)),
    ("t3000..3399", PAL, (3111, "times"), (222, *VIDEO)), (MISREAD, PAL, (150,), (298, State.due, Pace.video)),
    (MISREAD, PAL, (79999,), None), ("", PAL, (5,), None), ("5..6", PAL, (5,), None), ("5..7", PAL, (6,), (2, *VIDEO)),
    *((LONG, PAL, (number,), (28 + 2 * number, *VIDEO)) for number in (1, 200, 399)),
    *((LONG, PAL, (number,), None) for number in (0, 400, 2 ** 32 - 1)))


def test_seeking():
    for text, setup, words, wanted in SOUGHT:
        found = ldvbi.seek(side_of(text, setup), *words)
        assert (found and (found.field, found.number.state, found.pace)) == wanted
        assert found is None or found.number.number == words[0]
    with side_of("5..7") as closed:
        assert ldvbi.seek(closed, 7)[0] == 4
    assert reason(ldvbi.seek, closed, 7) == "the stream is closed"


def test_seek_chapter():
    text = "Lx30 1..399 232:430/2=-/c1/c1 432:630/2=-/c3/c3 632:828/2=-/c4/c4 Ox300"
    for more, found in (("", (31, 231, None, 431, 631, None)),
                        ("400:433=B 634=-/c9/c9", (31, 231, None, 433, 631, None)),
                        ("30:260/2=?", (None, 261, None, 431, 631, None))):
        chapters = side_of(text + " " + more)
        assert tuple(ldvbi.seek_chapter(chapters, chapter) for chapter in range(6)) == found
        assert [ldvbi.seek_chapter(chapters, chapter) for chapter in (9, 79, 2 ** 32)] == [None] * 3
    assert ldvbi.seek_chapter(side_of(""), 0) is None


def test_next_stop():
    stops = side_of("1..9 4=S/-/- 7=-/S/- 12=-/-/S 18=S/S/-")
    assert [ldvbi.next_stop(stops, field) for field in (0, 3, 4, 6, 7, 17, 18, 2 ** 70)] == [
        3, 3, 6, 6, 17, 17, None, None]
    assert [ldvbi.next_stop(stops, 4, most) for most in (0, 2, 3, 2 ** 70)] == [None, None, 6, 6]
    assert ldvbi.next_stop(side_of("")) is None


def test_numbers_of_a_damaged_side_are_found():
    """Where they are first in the whole side: each third picture isn't read, and some are misread."""
    damaged = side_of("1..299 3:590/6=? 11:590/22=-/#79999/#7 241:260=B")
    numbers, count = ldvbi.judge(damaged, "PAL"), 0
    for number in range(1, 300, 11):
        found, first = ldvbi.seek(damaged, number), ldvbi.first_of(numbers, number)
        assert (found and found.field) == first, number
        count += found is not None
    assert count > 15
