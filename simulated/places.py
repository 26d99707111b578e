#!/usr/bin/env python3
"""Whether `ldvbi_seek_chapter` and `ldvbi_next_stop` answer as the whole side's judge does, by what
`ldvbi_recover_fields` reads of all fields: on drawn sides, of which each chapter from 0 to 79 is sought, and the next
stop from some fields on.

usage: places.py KIND [FROM TO [EACH]]     the seeds FROM to TO - 1 (0 to 99), EACH fields of a side (20)

KIND is `clean`: any lead-in, pictures, chapters of 3 to 2,000 pictures and lead-out, every line read; or `noise`: the
same of 1,000 pictures at most, with noise as seeks.py has it; or a kind of PLAYED in simulated_kinds.py, as `worn`; or
`all`, the kinds of KINDS in turn. A side is a file with holes in TMPDIR. A line of totals is printed for the sides on
which chapters rise, and one for the others: the player went back, or 0 comes after 79.

A chapter that the side has is answered `first` in its first field, `later` in another one in which it begins, or
`missed`; one that is answered otherwise is `wrong`, and so is a stop that isn't the next one."""

import collections
import ctypes
import os
import random
import sys
import tempfile

import ldvbi
from ldvbi import State
from ldvbi.library import check, later_call
from ldvbi.seeking import _PACKED_PLACE
from seeks import LEAD_IN, LEAD_OUT, NTSC, PAL, played, write
from simulated_discs import STOP, chapter, picture

BEFORE = 72  # fields before one in which a chapter begins that haven't it


def divided(seed, pictures=(300, 500, 1000, 3000, 10000)):
    """The words of the fields of a side with chapters, each line of which is read."""
    rng = random.Random("divided %d" % seed)
    count, number = rng.choice(pictures), rng.randrange(2)
    lead_in, lead_out = (rng.choice((0, 8, 100, 600, 2000, rng.randrange(8000))) for _ in range(2))
    fields, left, longest = [[0, LEAD_IN, LEAD_IN]] * min(lead_in, count), 0, rng.choice((5, 20, 100, 400, 2000))
    for place in range(1, count + 1):
        if not left:
            left, number = rng.randrange(3, longest + 1), number + (number < 79 and place > 1)
        left -= 1
        first, code = [0, picture(place), picture(place)], chapter(number)
        if rng.random() < 0.01:
            first[:2] = STOP, STOP
        fields += [first, [0, code, code]]
    return fields + [[0, LEAD_OUT, LEAD_OUT]] * min(lead_out, count), "cav-ntsc"


def begins_of(chapters):
    """The fields in which each chapter of a side begins."""
    begins, last = collections.defaultdict(list), {}
    for field, (number, state) in enumerate(chapters):
        if state == State.believed:
            if number not in last or last[number] + BEFORE < field:
                begins[number].append(field)
            last[number] = field
    return begins


def place(side, call, *asked):
    """The field that a call of the library answers, and how many were read."""
    packed = ctypes.create_string_buffer(_PACKED_PLACE.size)
    check(later_call(call)(*side.arguments(), *asked, packed))
    return _PACKED_PLACE.unpack(packed)


def chapters_sought(side, chapters):
    """What is counted of all chapters: how each is answered, and how many fields were read."""
    begins = begins_of(chapters)
    rise = "rise" if list(begins) == sorted(begins) and all(len(at) == 1 for at in begins.values()) else "fall"
    for number in range(80):
        field, looked = place(side, "ldvbi_seek_chapter", number)
        at = begins.get(number, [])
        if field == len(side):
            how = "missed" if at else "none"
        else:
            how = "first" if at[:1] == [field] else "later" if field in at else "wrong"
        yield rise, how, looked, number


def stops_sought(side, stops, rng, each):
    """Whether each answer is the next stop, from fields chosen by chance on, within a bound chosen by chance."""
    for _ in range(each):
        begin, most = rng.randrange(len(side) + 2), rng.choice((0, 1, rng.randrange(200), len(side)))
        wanted = next((field for field in stops if begin <= field < begin + most), len(side))
        yield place(side, "ldvbi_next_stop", begin, most)[0] == wanted


def asked_of(seed, kind, each, path):
    fields, layout = (divided(seed, (300, 500, 1000)) if kind == "noise" else
                      divided(seed) if kind == "clean" else played(seed, kind))
    setup = PAL if "pal" in layout else NTSC
    write(path, setup, fields, seed if kind == "noise" else None)
    with ldvbi.Stream(path, *setup, recover=True) as side:
        readings = b"".join(side.packed(0, len(side)))
        stops = [field for field, state in enumerate(ldvbi.judge_stops(readings)) if state == State.believed]
        yield from chapters_sought(side, ldvbi.judge_chapters(readings))
        for is_right in stops_sought(side, stops, random.Random("stops %d" % seed), each):
            yield "rise", "stop" if is_right else "wrong stop", 0, None


def main():
    kind, *numbers = sys.argv[1:]
    first, last, each = (list(map(int, numbers)) + [0, 100, 20][len(numbers):])
    totals = collections.defaultdict(collections.Counter)
    with tempfile.TemporaryDirectory() as folder:
        for seed in range(first, last):
            for rise, how, read, number in asked_of(seed, kind, each, os.path.join(folder, "side.tbc")):
                counts = totals[rise]
                counts[how] += 1
                counts["looked"] += read
                counts["most"] = max(counts["most"], read)
                if how in ("missed", "later", "wrong", "wrong stop") and os.environ.get("SHOW"):
                    print("%s, chapters %s: seed %d, chapter %s" % (how, rise, seed, number), file=sys.stderr)
    for rise, counts in sorted(totals.items()):
        asked = sum(counts[how] for how in ("first", "later", "missed", "none", "wrong"))
        print("%s, chapters %s: of %d chapters first %d, later %d, missed %d, wrong %d; none of %d that "
              "the side hasn't; %d fields were read, %d at most" % (
                  kind, rise, asked - counts["none"], counts["first"], counts["later"], counts["missed"],
                  counts["wrong"], counts["none"], counts["looked"] // max(asked, 1), counts["most"]))
    counts = totals["rise"]
    print("%s: of %d stops wrong %d" % (kind, counts["stop"] + counts["wrong stop"], counts["wrong stop"]))


if __name__ == "__main__":
    main()
