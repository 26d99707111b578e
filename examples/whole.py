#!/usr/bin/env python3
"""Says whether a TBC file has a whole side, or why it hasn't, and where its numbers and fields don't go on together, in
the words of whole.c: of its pictures, or of its times if it has none of those. An NTSC CLV disc is judged by the clock
that its numbers show. With the word `cut` the capture may end before the disc does. Status 0: it is whole; 1: it isn't;
4: it can't be told; 2: something can't be read, and standard error says what.

    PYTHONPATH=python python3 examples/whole.py side.tbc NTSC 16384 51200
"""

import signal
import sys

import ldvbi
from ldvbi import Reason, Verdict

ROOM = 10  # gaps that are printed
REASONS = {
    Reason.is_lost: "fields are lost", Reason.is_held: "too many fields", Reason.goes_back: "numbers go back",
    Reason.is_joined: "another side begins", Reason.begins_late: "it begins late",
    Reason.is_swapped: "fields are swapped", Reason.is_off: "first and last number don't fit",
    Reason.no_numbers: "no numbers", Reason.end_unseen: "no lead-out", Reason.begin_unseen: "its beginning isn't seen",
    Reason.many_doubtful: "many numbers are in doubt", Reason.is_open: "fields may be lost",
    Reason.is_inserted: "fields don't belong there", Reason.is_padded: "fields are padding",
    Reason.is_blank: "over 100 fields without a number"}
VERDICTS = {Verdict.whole: ("yes", 0), Verdict.not_whole: ("no", 1), Verdict.cannot_tell: ("can't tell", 4)}


def judged_by(readings, system, counted, may_end):
    """The answer by the clock that is found. A few minutes of an NTSC CLV disc don't show enough of drop-frame: what is
    whole by that is whole."""
    found, dropped = (ldvbi.judge_side(readings, system, counted, may_end=may_end, clock=clock)
                      for clock in ("find", ldvbi.Clock(ldvbi.ClockKind.drop_frame)))
    has_clock = system == "NTSC" and counted == ldvbi.Counted.times
    return dropped if has_clock and dropped.verdict == Verdict.whole else found


def main():
    if len(sys.argv) < 5 or sys.argv[5:] not in ([], ["cut"]):
        raise ValueError("usage: whole.py FILE NTSC|PAL BLACK WHITE [cut]")
    path, system, black, white = sys.argv[1:5]
    with ldvbi.Stream(path, system, int(black), int(white), recover=True) as side:
        readings = b"".join(side.packed(0, len(side)))
    if not readings:
        raise ValueError("no field in " + path)
    for counted in ldvbi.Counted:
        found = judged_by(readings, system, counted, len(sys.argv) > 5)
        if found.reasons != Reason.no_numbers:
            break
    said, status = VERDICTS[found.verdict]
    reasons = ", ".join(text for reason, text in REASONS.items() if found.reasons & reason)
    print("whole: %s%s" % (said, ": " + reasons if reasons else ""))
    for gap in found.gaps[:ROOM]:
        print("%s %d: field %d has %d, field %d has %d" % (
            gap.kind.name, gap.fields, gap.after + 1, gap.from_, gap.before + 1, gap.to))
    if len(found.gaps) > ROOM:
        print("gaps left out: %d" % (len(found.gaps) - ROOM))
    for field in found.aside:  # what it shows stands in the place of another number
        print("aside: field %d has %d" % (field + 1, found.numbers[field].number))
    return status


if __name__ == "__main__":
    signal.signal(signal.SIGPIPE, signal.SIG_DFL)  # so that it ends quietly where nobody reads on
    try:
        sys.exit(main())
    except (OSError, ValueError) as error:
        print("whole.py: %s" % error, file=sys.stderr)
        sys.exit(2)
