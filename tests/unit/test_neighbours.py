"""The numbers beside one that is sought, chapters and stops: that they are those of the fields in which they are looked
for is proved. On simulated sides they are those of the whole side."""

import collections
import mmap

import ldvbi
from ldvbi import Neighbour, State
from places import begins_of
import pytest
from simulate import simulated
from streams import NTSC, PAL, write_fields
from test_judge import side_of

# Sides, and what is beside numbers of them: number and field, counted from 0, or nothing. Of a still it is the last
# field before, and the first after; numbers in doubt are passed over
BESIDE = (
    ("Lx30 1..11 14..30 Ox60", "0: - 1:30; 1: - 2:32; 12: 11:50 14:52; 13: 11:50 14:52; 30: 29:82 -; 31: 30:84 -; "
                               "79999: 30:84 -"),
    ("Lx60 1..9 10x20 15x20 16..30", "10: 9:76 15:118; 12: 10:116 15:118; 14: 10:116 15:118; 16: 15:156 17:160"),
    ("b1..20 b25..40", "22: 20:39 25:40"), ("1..20 24..40 39=-/#31/?", "22: 19:36 24:40"), ("Bx80", "7: - -"),
    ("", "7: - -"))


def shown(neighbour):
    return "%d:%d" % neighbour if neighbour else "-"


@pytest.mark.parametrize("text, rows", BESIDE)
def test_rows(text, rows):
    with side_of(text) as side:
        for number, wanted in (row.split(": ") for row in rows.split("; ")):
            beside = ldvbi.neighbours(side, int(number))
            found = ldvbi.seek(side, int(number))
            assert " ".join(map(shown, beside)) == wanted
            assert found is None or (found.before, found.after) == beside


def told_beside(told, number):
    """The nearest numbers of the whole side, in the last field before and in the first after."""
    lower, higher = ([one for one in told if one < number], [one for one in told if one > number])
    return (Neighbour(max(lower), told[max(lower)][-1]) if lower else None,
            Neighbour(min(higher), told[min(higher)][0]) if higher else None)


# Sides on which the player doesn't go back: seeds, kind, and pictures
SIDES = (*((seed, None, 300) for seed in (1, 2, 8, 11, 14, 19, 22, 24, 28)), (1, "losses", 700), (1, "worn", 250))
# Worn sides, on some of which a chapter begins again after silence
WORN = ((4, "worn", 250), (11, "worn", 250), (12, "worn", 250))


def simulated_side(seed, kind, count):
    """The samples of a simulated side, and what it counts."""
    one = simulated(seed, kind, count=count)
    setup = PAL if "pal" in one.layout else NTSC
    words = [field["vbi"]["vbiData"] for field in one.document["fields"]]
    memory = mmap.mmap(-1, len(words) * ldvbi.field_bytes(setup[0]))
    write_fields(memory, setup, [[word or b"" for word in lines] for lines in words])
    return ldvbi.Stream(memory, *setup, recover=True), "times" if one.layout.startswith("clv") else "pictures"


def lacking(side, packed, counted):
    """What the judge says is beside each number that a capture lacks, and beside those beyond both ends of its side: it
    is what is found there. The answer is how many there are."""
    pace = ldvbi.find_pace(packed, side.system, counted)
    answers, told = ldvbi.judge(packed, side.system, counted, pace), {}
    for field, one in enumerate(answers):
        if one.state == State.believed:
            told.setdefault(one.number, []).append(field)
    assert list(told) == sorted(told)
    asked = set(range(max(0, min(told) - 2), max(told) + 3)) - {
        one.number for one in answers if one.state in (State.believed, State.due)}
    for number in asked:
        assert ldvbi.neighbours(side, number, counted, pace) == told_beside(told, number), number
    return len(asked)


def chapters(side, packed):
    """Likewise each chapter is found in its first field if chapters rise."""
    begins = begins_of(ldvbi.judge_chapters(packed))
    is_rising, found = list(begins) == sorted(begins), [ldvbi.seek_chapter(side, chapter) for chapter in range(80)]
    for chapter, field in enumerate(found):
        fields = begins.get(chapter, [None])
        assert field == fields[0] if is_rising else field in (None, *fields), chapter
    return len(begins) if is_rising else 0


def stops(side, packed):
    """And stops."""
    known, found = [field for field, one in enumerate(ldvbi.judge_stops(packed)) if one == State.believed], 0
    for begin in range(0, len(side) + 2, 23):
        for most in (50, len(side)):
            wanted = next((field for field in known if begin <= field < begin + most), None)
            assert ldvbi.next_stop(side, begin, most) == wanted, (begin, most)
            found += wanted is not None
    return found


def test_simulated_sides():
    counts = collections.Counter()
    for words in SIDES + WORN:
        side, counted = simulated_side(*words)
        with side:
            packed = b"".join(side.packed(0, len(side)))
            counts["chapters"] += chapters(side, packed)
            if words in SIDES:
                counts.update(lacking=lacking(side, packed, counted), stops=stops(side, packed))
    assert counts["lacking"] > 600 and counts["chapters"] > 70 and counts["stops"] > 70, counts
