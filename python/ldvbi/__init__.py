"""The code words of LaserDisc lines, read by the library libldvbi.so in this process.

    import ldvbi
    for field in ldvbi.fields("side.tbc", ldvbi.System.NTSC, 16384, 51200):
        if field.second.word:
            print(ldvbi.classify(field.second.word))

    side = ldvbi.Stream("side.tbc", "NTSC", 16384, 51200)
    print(len(side), side[7], side[-1], side.cut_bytes)

    numbers = ldvbi.judge(side, "NTSC")
    print(numbers[7].number, numbers[7].state, ldvbi.first_of(numbers, 12345))
    print(ldvbi.first_of(ldvbi.judge_chapters(side), 3))
    print(ldvbi.seek(side, 12345), ldvbi.seek_chapter(side, 3), ldvbi.next_stop(side, 100))
    print(ldvbi.judge_side(side, "NTSC").verdict)
    print(ldvbi.judge_side(side, "NTSC", "times", clock="find").verdict)

A line, a field or a stream is anything with the buffer protocol that holds samples of 16 bits, the low byte first, as
ld-decode's TBC files do. It may be a numpy array of uint16 or an array of "H"; or the bytes of such samples: bytes, a
mapped file, or a memoryview of these. Items of another kind raise a ValueError, and so do all arguments that can't be
right. Nothing is read then. `system` is a `System` or its name; `black` and `white` are samples: black16bIre and
white16bIre of the capture's .tbc.json. The library gets them as they are, and refuses those that are wrong.

The library is loaded when samples are first read. These places are tried in turn: the file that the environment
variable LDVBI_LIBRARY names; libldvbi.so.3 in this package (a wheel has it there), in the folder of the package, in the
one above that, or in lib/ of the folder to which `make install` installed both; what the system's loader finds.
`classify` and `format_of` need no library. Nothing else is needed but CPython and its standard library.

Read first `classes` (what a word says) and `codes` (on which lines), then `library` and `samples` (the calls of C and
the memory that they get), then `dropouts`, `readings`, `near`, `stream`, `judging`, `sides`, `plans` and `seeking`
(these calls in Python), and last `document` and `metadata` (with `scanner` and `database`), which read the files beside
a TBC file. The package `ldvbi_side` says what the words of a whole side mean. It builds on this package, which doesn't
import it.
"""


from .classes import Code, Format, Kind, classify, format_of
from .judging import (End, Number, State, complete_times, find_pace, first_of, judge, judge_chapters, judge_ends,
                      judge_field, judge_stops)
from .library import Both, Counted, Pace, System
from .near import Near, nearest, recover_pile
from .plans import Fault, Rule, Spacing, Stretch, check_plan
from .readings import (PACKED_FIELD, Cause, FieldReadings, Reading, draw_line, field_bytes, line_bytes, read_field,
                       read_line, read_rows)
from .seeking import Neighbour, Neighbours, Sought, neighbours, next_stop, seek, seek_chapter
from .sides import Clock, ClockKind, Gap, GapKind, JudgedSide, Reason, Tally, Verdict, find_clock, judge_side
from .stream import BLOCK, Stream, fields

__all__ = ["System", "Cause", "Kind", "Format", "Counted", "Pace", "Both", "State", "End", "Reading", "FieldReadings",
           "Code", "Number", "Near", "Sought", "Neighbour", "Neighbours", "Verdict", "Reason", "GapKind", "Gap",
           "Tally", "ClockKind", "Clock", "JudgedSide", "Spacing", "Rule", "Stretch", "Fault", "Stream", "line_bytes",
           "field_bytes", "read_line", "read_rows", "read_field", "fields", "classify", "format_of", "judge",
           "judge_field", "complete_times", "find_pace", "judge_chapters", "judge_stops", "judge_ends", "find_clock",
           "judge_side", "check_plan", "first_of", "seek", "seek_chapter", "next_stop", "neighbours", "nearest",
           "recover_pile", "draw_line"]

__version__ = "0.2.0"
