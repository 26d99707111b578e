"""Runs over simulated sides by hand: which sides are asked for, and what is counted of all of them."""

import argparse
import os
import re
import sys
from collections import Counter, defaultdict

from simulate import KINDS, PLAYED
from simulated_real import REAL


def parser():
    """What a run is asked for: the seeds from `begin` to `end` - 1, the kinds, how many texts are shown, and the file
    that gets the rows, as in docs/measured."""
    found = argparse.ArgumentParser()
    found.add_argument("begin", type=int)
    found.add_argument("end", type=int)
    found.add_argument("--kind", choices=(*KINDS, *PLAYED, *REAL, "each"), action="append")
    found.add_argument("--show", type=int, default=0)
    found.add_argument("--into")
    return found


def totals_of(options, counts_of):
    """The counts of each kind, and of all, after the first texts were printed. `counts_of` gets a seed, a kind or None,
    and what it may call with a text; of the side it returns its kind and its counts."""
    totals, told = defaultdict(Counter), []
    for asked in PLAYED if options.kind == ["each"] else options.kind or [None]:
        for seed in range(options.begin, options.end):
            kind, counts = counts_of(seed, asked, told.append)
            for key in (kind, "all"):
                totals[key].update(counts)
    for text in told[:options.show]:
        print(text)
    return totals


def write_rows(options, head, rows):
    """Writes a table, as in docs/measured, if that is asked for: what was run, its head, and the cells of each row."""
    if options.into:
        with open(options.into, "w", encoding="ascii") as file:
            print(os.path.basename(sys.argv[0]), *sys.argv[1:], file=file)
            print("", head, re.sub("[^|]+", "---", head), sep="\n", file=file)
            for row in rows:
                cells = re.sub(r"\d+", lambda one: format(int(one[0]), ","), " | ".join(map(str, row)))
                print("| %s |" % cells, file=file)
