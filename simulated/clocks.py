#!/usr/bin/env python3
"""What is said of NTSC CLV sides whose clock leaves out numbers: by `ldvbi-side`, by the library with the clock that it
finds, and by the library without one. Nothing is lost of them, or one picture.

usage: clocks.py FROM TO [--lost] [--show FILE] [--into FILE]     the seeds FROM to TO - 1

A disc begins with number 0 or 1, and has 200 to 54,000 pictures, each with its number on one field or on both. It
leaves out two numbers a minute (drop-frame), one in 1,000, one in 1,001, or none. Up to 10 % of the lines show no word,
and up to 0.5 % of the words are misread. With --lost one picture is lost: anywhere, or just before a place where the
clock leaves out numbers, just behind one, or up to four pictures from it.

A row is of sides with as many of these places; before a picture is lost. Exact are those of which just the lost fields
are called lost (`by` isn't `undecided`), where they are; of the library the count of its tally. --show writes a line
for each side of which `ldvbi-side` isn't right."""

import argparse
import random
from collections import Counter
from typing import NamedTuple, Optional

from ldvbi_side.answer.analysis import analyse
from measure import fields_of
from simulate import side_read
from simulated_captures import Damage
from simulated_discs import clocked
from simulated_runs import write_rows
from verdicts import NO, SAID, YES, library_says

CLOCKS = ("drop-frame", "drop-frame", 1000, 1001, 1000, 1001, None)
SIZES = ((200, 4000), (4000, 20000), (4000, 20000), (20000, 54000))  # pictures
WHERE = ("anywhere", "before", "behind", "near")
EDGE = 24  # pictures at either end of which none is lost
HEAD = "| %s |" % " | ".join((
    "Places", "Numbers on", "Lost", "Sides", "`ldvbi-side`: yes/no/can't tell", "Exact", "Library by the clock",
    "Exact", "Library without it"))


class Asked(NamedTuple):
    """A side, how many places its clock has, whether both fields have numbers, where a picture was lost, and the last
    field before that; None if nothing was."""
    side: object
    places: int
    on_both: bool
    where: Optional[str]
    after: Optional[int]


def asked_of(seed, is_lost):
    """The side of this seed."""
    rng = random.Random("clock %d" % seed)
    clock, on_both = rng.choice(CLOCKS), rng.random() < 0.4
    rows = clocked(rng, clock, rng.randrange(*rng.choice(SIZES)), on_both)
    begins = [place for place, (number, _, _) in enumerate(rows) if number not in (None, rows[place - 1][0])]
    befores = [at for at in range(len(begins) - 1) if rows[begins[at + 1]][0] - rows[begins[at]][0] > 1]
    order, where, after = list(range(len(rows))), None, None
    if is_lost:
        inner = [at for at in befores if EDGE <= at < len(begins) - EDGE]
        where = rng.choice(WHERE if inner else WHERE[:1])
        at = rng.randrange(EDGE, len(begins) - EDGE) if where == "anywhere" else rng.choice(inner) + {
            "before": 0, "behind": 1, "near": rng.choice((-3, -2, -1, 2, 3, 4))}[where]
        after = begins[at]
        del order[after:after + 2]
    lost = dict.fromkeys((16, 17, 18), rng.choice((0, 0.001, 0.02, 0.1)))
    damage = Damage(rng, rng.choice((0, 0.0001, 0.001, 0.005)), lost, rng.choice((0, 0.01, 0.1)))
    side = side_read("clocks", "clv-ntsc", damage, rows, order, [rows[place][0] for place in begins])
    return Asked(side, len(befores), on_both, where, after)


def told_of(asked):
    """What is counted of a side, and what `ldvbi-side` says of it."""
    fields = fields_of(asked.side)._replace(may_end=False)
    answer = analyse(fields)
    by_clock, without = (library_says(asked.side, fields, clock) for clock in ("find", None))
    lost = [one for one in answer["lost"] if one["by"] != "undecided"]
    right = [one for one in lost if one["fields"] == 2 and one["after"] <= (asked.after or 0) < one["before"]]
    count = 2 if asked.where else 0
    counts = Counter(sides=1, exact=int(sum(one["fields"] or 0 for one in lost) == count and lost == right))
    counts["library exact"] = int(by_clock.tally.lost == count and not by_clock.tally.held)
    counts.update(["side " + answer["whole"], "library " + SAID[by_clock.verdict], "without " + SAID[without.verdict]])
    return counts, answer


def row_of(key, counts):
    """The cells of a row."""
    said = ["/".join(str(counts["%s %s" % (who, word)]) for word in SAID.values()) for who in (
        "side", "library", "without")]
    return (*key, counts["sides"], said[0], counts["exact"], said[1], counts["library exact"], said[2])


def key_of(asked):
    """The row of a side."""
    places = "none" if not asked.places else "1 or 2" if asked.places < 3 else "3 or more"
    return places, "both fields" if asked.on_both else "one field", asked.where or "nothing"


def main():
    parser = argparse.ArgumentParser()
    parser.add_argument("begin", type=int)
    parser.add_argument("end", type=int)
    parser.add_argument("--lost", action="store_true")
    parser.add_argument("--show")
    parser.add_argument("--into")
    options = parser.parse_args()
    totals, shown = {}, []
    for seed in range(options.begin, options.end):
        asked = asked_of(seed, options.lost)
        counts, answer = told_of(asked)
        totals.setdefault(key_of(asked), Counter()).update(counts)
        if answer["whole"] != (NO if options.lost else YES) or not counts["exact"]:
            shown.append("seed %d, %s, %s: %s (%s)" % (seed, ", ".join(key_of(asked)), asked.side.settings, answer[
                "whole"], "; ".join(one["text"] for one in answer["reasons"])))
    rows = [row_of(key, counts) for key, counts in sorted(totals.items())]
    for row in [*rows, row_of(("all", "", ""), sum(totals.values(), Counter()))]:
        print(" | ".join(map(str, row)))
    write_rows(options, HEAD, rows)
    if options.show:
        with open(options.show, "w", encoding="ascii") as file:
            print(*shown, sep="\n", file=file)


if __name__ == "__main__":
    main()
