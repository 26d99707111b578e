#!/usr/bin/env python3
"""How often the first line of `ldvbi-side` is right: whether a capture is whole, beside the truth of simulated sides.

usage: verdicts.py FROM TO [--kind KIND]... [--open-end] [--library] [--processes N] [--show FILE]

The sides have the seeds FROM to TO - 1. --library asks the library alone, which judges by the clock that it finds.

Each seed has a kind by chance: those of simulate.py, where fields are lost and the player jumps by chance, those of
PLAYED (simulated_kinds.py), and those of FAULTS (simulated_faults.py). --kind asks for some of them alone, or for
those of REAL (simulated_real.py), `real` for each of these in turn. With
--open-end a capture may end before the disc does, as with that option of `ldvbi-side`. --show writes each false or open
answer into a file.

Sides without a lead-out that can be read get one, but for those of `no lead-out` and `cut off`, so that a whole capture
can be seen to be whole. A lead-in isn't added: none is needed for that.

True is `no` if the numbers that can be read show that fields between the first and the last of them are lost, repeated
or in another order, if two discs are joined, if numbers before the first one aren't in the capture, or if it ends
before the disc's last number and without a lead-out, unless its end is open. A disc begins with the number 0 or 1: one
that begins later is a capture that was begun late. Fields of a still of a CAV disc are not repeated ones.

True is `yes` if each field of the disc, from that of its first number to that of its last one, is there once and in
order, but for stills.

Truth can't say, and `either` is true, in four cases: fields are lost, repeated or swapped, yet all numbers that can be
read stand where a whole capture would have them; no number can be read; a stretch was played at a third of the speed,
which is as many stills; the disc has minutes alone, and fields are lost or repeated, yet no minute is missing, shorter
by 100 fields or there again, or no minute stands between two others, or no lead-in or no lead-out shows where the disc
begins and ends.
"""

import argparse
import multiprocessing
import random
from collections import Counter, defaultdict
from typing import NamedTuple

import ldvbi
from ldvbi_side.answer.analysis import analyse
from measure import fields_of
from simulate import KINDS, PLAYED, simulated
from simulated_faults import FAULTS, faulty, lead_in_of, lead_out_of, with_lead_out
from simulated_real import REAL, real
from truth import Reasons, Truth

YES, NO, EITHER, OPEN = "yes", "no", "either", "can't tell"
SAID = {ldvbi.Verdict.whole: YES, ldvbi.Verdict.not_whole: NO, ldvbi.Verdict.cannot_tell: OPEN}
ALL = (*KINDS, *PLAYED, *FAULTS)
COLUMNS = ("sides", "right", "false yes", "false no", "can't tell of a yes", "can't tell of a no", "either")


class Verdict(NamedTuple):
    """What is said of a side, and what is true. `counts` has 1 for each column of the table that it counts in."""
    seed: int
    kind: str
    settings: str
    said: str
    reasons: list
    true: str
    counts: dict


def kind_of(seed, kinds=ALL):
    """The kind of the side of this seed. Layouts go by the seed in turn, so kinds don't."""
    return random.Random("kind %d" % seed).choice(kinds)


def side_of(seed, kind):
    """The side of this seed and kind, with a lead-out if its kind isn't to have none."""
    if kind in FAULTS:
        return faulty(random.Random("%s %d" % (kind, seed)), kind, seed)
    if kind in REAL:
        return real(kind, seed)
    return with_lead_out(simulated(seed, kind))


class Played:
    """The order of a capture. `places` are those of the disc, one field of the capture after the other, without those
    that a still repeats; `index` has of each field of the capture, from 1, which of these it is."""

    def __init__(self, side):
        has_stills = side.layout.startswith("cav")
        self.side, self.places, self.index = side, [], {}
        field, order = 0, list(side.order)
        while field < len(order):
            is_still = has_stills and len(self.places) > 1 and order[field:field + 2] == self.places[-2:]
            if not is_still:
                self.places.append(order[field])
                field += 1
                self.index[field] = len(self.places) - 1
                continue
            for more in (2, 1):
                field += 1
                self.index[field] = len(self.places) - more

    def has_gap(self, fields):
        """Whether one of these fields and the next one are further apart, or less, than on the disc."""
        return any(self.index[after] - self.index[before] != self.places[self.index[after]] -
                   self.places[self.index[before]] for before, after in zip(fields, fields[1:]))

    def shows_gap(self, fields):
        """Whether the numbers of these fields show that. Where both fields of a picture have its number, they don't
        show which of the two it is."""
        if self.side.layout != "cav-both":
            return self.has_gap(fields)
        begins = [self.index[field] - 2 * self.side.numbers[field - 1] for field in fields]
        return max(begins) - min(begins) > 1


def readable_in(truth):
    """The fields whose number can be read; of a time its minute needn't be."""
    numbers, is_time = truth.side.numbers, truth.side.layout in ("clv-pal", "clv-ntsc")
    return sorted({field for field, line in truth.right
                   if numbers[field - 1] is not None and (line == 16 or not is_time)})


def true_of(side, may_end=False):
    """Whether a capture is whole: `yes`, `no` or `either`. If it `may_end` before the disc does, its end is open."""
    truth, played = Truth(side), Played(side)
    readable, reasons = readable_in(truth), Reasons(truth).no
    if side.second or side.other:
        return NO
    if not readable:
        return EITHER
    is_ended = may_end or lead_out_of(side) is not None
    is_short = not may_end and side.on_disc[-1] not in side.numbers
    if reasons["begins"] or is_short and not is_ended:
        return NO
    if side.layout == "clv-minutes":
        is_seen = any(reasons[why] for why in ("lost", "jumps", "missing"))
        minutes = set(side.numbers)
        is_known = any({minute - 1, minute + 1} <= minutes for minute in minutes if minute is not None)
        has_ends = is_known and is_ended and lead_in_of(side) is not None
    else:
        is_seen = played.shows_gap(readable)
        has_ends = side.on_disc[0] in side.numbers and not is_short
    if is_seen:
        return NO
    shown = [field for field, number in enumerate(side.numbers, 1) if number is not None]
    is_in_order = has_ends and not side.speeds and not played.has_gap(range(shown[0], shown[-1] + 1))
    return YES if is_in_order else EITHER


def library_says(side, fields, clock="find"):
    """The library's answer for a side; times are judged with the minutes that it completes."""
    completed, counted = None, "pictures"
    if side.layout.startswith("clv"):
        completed, counted = ldvbi.complete_times(fields.packed, fields.system), "times"
    return ldvbi.judge_side(fields.packed, fields.system, counted, may_end=fields.may_end, clock=clock,
                            completed=completed)


def said_of(side, may_end=False, by_library=False):
    """The answer's verdict, and its reasons as texts; or the library's verdict, and no reasons."""
    fields = fields_of(side)._replace(may_end=may_end)
    if by_library:
        return SAID[library_says(side, fields).verdict], []
    answer = analyse(fields)
    return answer["whole"], [one["text"] for one in answer["reasons"]]


def column_of(said, true):
    """The column of the table that counts this."""
    if true == EITHER:
        return "either"
    if said == true:
        return "right"
    return "%s of a %s" % (said, true) if said == OPEN else "false " + said


def verdict_of(seed, kind, may_end=False, by_library=False):
    """What is said of the side of this seed and kind, and what is true."""
    side = side_of(seed, kind)
    said, reasons = said_of(side, may_end, by_library)
    true = true_of(side, may_end)
    counts = {"sides": 1, column_of(said, true): 1}
    if not lead_out_of(side):
        counts.update({"without lead-out": 1, "without lead-out, said " + said: 1})
    return Verdict(seed, kind, side.settings, said, reasons, true, counts)


def print_table(verdicts):
    """The table by kind, and the sums."""
    totals = defaultdict(Counter)
    for one in verdicts:
        for kind in (one.kind, "all"):
            totals[kind].update(one.counts)
    print("| Kind | %s |" % " | ".join(COLUMNS))
    print("| --- |%s" % (" --- |" * len(COLUMNS)))
    for kind in sorted(totals, key=lambda kind: (*ALL, *REAL, "all").index(kind)):
        print("| %s | %s |" % (kind, " | ".join(str(totals[kind][name]) for name in COLUMNS)))
    sums = totals["all"]
    print("Without a lead-out: %d sides, said yes %d, no %d, can't tell %d" % (
        sums["without lead-out"], *(sums["without lead-out, said " + said] for said in (YES, NO, OPEN))))


def write_shown(path, verdicts):
    """A line for each answer that isn't right, the false ones first."""
    with open(path, "w", encoding="ascii") as file:
        for one in sorted(verdicts, key=lambda one: one.said == OPEN):
            if column_of(one.said, one.true) not in ("right", "either"):
                print("%s, seed %d (%s): said %s (%s), and true is %s" % (
                    one.kind, one.seed, one.settings, one.said, "; ".join(one.reasons), one.true), file=file)


def main():
    asked = argparse.ArgumentParser()
    asked.add_argument("begin", type=int)
    asked.add_argument("end", type=int)
    asked.add_argument("--kind", choices=(*ALL, *REAL, "real"), action="append")
    asked.add_argument("--open-end", action="store_true")
    asked.add_argument("--library", action="store_true")
    asked.add_argument("--processes", type=int, default=1)
    asked.add_argument("--show")
    options = asked.parse_args()
    kinds = tuple(REAL) if options.kind == ["real"] else options.kind or ALL
    with multiprocessing.Pool(options.processes) as pool:
        verdicts = pool.starmap(verdict_of, [(seed, kind_of(seed, kinds), options.open_end, options.library)
                                             for seed in range(options.begin, options.end)])
    print_table(verdicts)
    if options.show:
        write_shown(options.show, verdicts)


if __name__ == "__main__":
    main()
