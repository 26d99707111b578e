#!/usr/bin/env python3
"""The table of docs/MEASURED.md: simulated sides, analysed, and the answers beside the truth. What the seeds 2000 to
2349 gave is in docs/measured/sides.txt.

usage: measure.py FROM TO [--kind KIND]... [--parity] [--show N] [--into FILE]     the seeds FROM to TO - 1

Without --kind each seed has a kind of KINDS; --kind `each` is each kind of PLAYED. --parity hands over isFirstField of
each field, too; --show prints the first N differences, --into writes the rows of a file of docs/measured."""

import operator
import time

import ldvbi
from comparison import Comparison
from ldvbi_side.answer.analysis import analyse
from ldvbi_side.judge.readings import Fields
from simulate import simulated
from simulated_real import REAL, real
from simulated_runs import parser, totals_of, write_rows
from sound import faults_of
from truth import Truth

SHARES = ("wrong", "right", "wrong chapters", "right chapters", "numbers", "due", "lost", "lost places", "backs",
          "unread numbers", "lost numbers", "unread fields", "swaps", "speeds")
EXACT = ("missing", "left out", "first fields", "stops", "chapter table", "whole", "reasons")
# What of a kind has a row of its own, and the words of its row
OF_KIND = {"worn": ("unread numbers in their field", "due"), "swapped": ("pairs named", "swaps"),
           "speeds": ("stretches named", "speeds"), "losses": ("places with lost fields named", "lost places"),
           **{kind: ("jumps back and stills", "backs") for kind in ("restarts", "turned", "loops")}}
HEAD = "| %s |" % " | ".join((
    "Kind", "First fields exact", "Missing exact (but for the clock's inside a loss)", "Numbers in their field",
    "Right ones set aside", "Lost fields named, right (but for the clock's)", "Just the right reasons", "Of the kind"))


def fields_of(side, parity=False):
    """The plain data of a simulated side."""
    records = side.document["fields"]
    words, passes, causes = ([tuple(of(record)) for record in records] for of in (
        lambda record: record["vbi"]["vbiData"], operator.itemgetter("vbiPass"), operator.itemgetter("vbiCause")))
    return Fields(side.document["videoParameters"]["system"], words, passes, causes, _packed(words, passes), None,
                  side.first if parity or side.has_parity else None, may_end=True)


def _packed(words, passes):
    """The same as readings of the library. What a line shows instead of a word isn't judged."""
    return b"".join(ldvbi.PACKED_FIELD.pack(*(part for word, of_pass in zip(*field)
                                              for part in (0 if word else 1, of_pass, 0, word)))
                    for field in zip(words, passes))


def measured(seed, kind=None, parity=False, tell=lambda text: None, count=None, sound=True):
    """The kind of the side of this seed, and the counts of what is found of it. Its kind and the count of its pictures
    can be asked for, and what holds of every answer can be left out."""
    side = real(kind, seed, count) if kind in REAL else simulated(seed, kind, count=count)
    fields = fields_of(side, parity)
    begin = time.process_time()
    answer = analyse(fields)
    spent = time.process_time() - begin
    counts = Comparison(Truth(side), answer, lambda name, text: tell(
        "seed %d, %s, %s: %s: %s" % (seed, side.kind, side.settings, name, text))).counts
    counts["microseconds"] = round(1e6 * spent)
    for fault in faults_of(fields, answer) if sound else ():
        counts["faults"] += 1
        tell("seed %d, %s, %s: %s" % (seed, side.kind, side.settings, fault))
    return side.kind, counts


def print_table(totals):
    for kind, counts in sorted(totals.items()):
        exact = ", ".join("%s %d" % (name, counts[name]) for name in EXACT)
        shares = ", ".join("%s %d of %d" % (name, counts[name + " found"], counts[name])
                           for name in SHARES if counts[name])
        print("%s: %d sides; exact: %s; faults %d" % (kind, counts["sides"], exact, counts["faults"]))
        print("    found: %s; %.1f us a field" % (shares, counts["microseconds"] / counts["fields"]))
        print("    said: yes %(said yes)d, no %(said no)d, can't tell %(said can't tell)d" % counts)
        print("    undecided %(undecided)d, of these unread %(undecided, unread)d and lost %(undecided, lost)d; but "
              "for the clock's numbers inside a loss: missing exact %(missing but for hidden)d, left out exact "
              "%(left out but for hidden)d, lost %(lost and hidden)d more" % counts)


def row_of(kind, counts):
    """The cells of a kind's row in a file of docs/measured."""
    first, missing, reasons = ("%d/%d" % (counts[name], counts["sides"])
                               for name in ("first fields", "missing", "reasons"))
    said, own = OF_KIND.get(kind, ("", "lost"))
    numbers, right, lost, own = ("%d/%d" % (counts[name + " found"], counts[name])
                                 for name in ("numbers", "right", "lost", own))
    return ("`%s`" % kind, first, "%s (%d)" % (missing, counts["missing but for hidden"]), numbers, right, "%s (%d)" % (
        lost, counts["lost found"] + counts["lost and hidden"]), reasons, "%s: %s" % (said, own) if said else "")


def main():
    asked = parser()
    asked.add_argument("--parity", action="store_true")
    options = asked.parse_args()
    totals = totals_of(options, lambda seed, kind, tell: measured(seed, kind, options.parity, tell))
    print_table(totals)
    write_rows(options, HEAD, (row_of(kind, counts) for kind, counts in totals.items() if kind != "all"))


if __name__ == "__main__":
    main()
