#!/usr/bin/env python3
"""Has the library read lines that have no word (signals.py), and prints of how many lines of each kind it says one: by
passes 1 and 2, and recovered where the line is alone in its field; and of how many fields, where each two lines are
lines 17 and 18. Half of the lines are nearly clean, half have noise; the numbers of both stand side by side. With
--peers also what the reader by edges says, and of the first lines MAME's decoder, which takes long. With --same the two
lines of each field have the same signal, each with noise of its own. Without --library its columns are left out.

It needs Debian's python3-numpy and python3-scipy; tables.sh runs it for both systems.

usage: without_words.py SYSTEM LINES SEED [--library FILE] [--peers FOLDER] [--same] [--only TEXT]
FOLDER is the one in which edges.c of bench/peers/ is built. TEXT is a part of the names of the kinds that are read."""

import argparse

import numpy

import reading
from channel import through
from damages import chance_of
from signals import KINDS, channel_of
from systems import SYSTEMS
from tables import Totals, print_head, print_row
from waves import with_blanking
from words import is_code

RATIOS = (20, 8)  # dB, of carrier to noise
PIECE = 2000  # lines that are in memory together
OF_MAME = 180  # of each piece
OURS = ("passes 1 and 2", "one line", "fields of two", "a code, one line", "a code, fields of two")
PEERS = ("by edges", "MAME, of %d in %d" % (OF_MAME, PIECE))


def lines_of(system, kind, ratio, count, is_same, chance):
    lost = kind.dropouts_of(count, chance) if kind.dropouts_of else None
    times = 2 if is_same else 1  # how often each signal stands
    lines = numpy.repeat(with_blanking(system, kind.lines_of(system, count // times, chance)), times, 0)
    return through(system, channel_of(kind, ratio), lines, chance, lost)[0]


def said_of(system, options, lines):
    """Of how many of the lines the readers say a word."""
    read = []
    if options.library:
        alone = reading.recovered(system, lines[:, None])["word"][:, 0]
        fields = reading.recovered(system, lines.reshape(-1, 2, system.width))["word"]
        read += [reading.read(system, lines)["word"] != 0, alone != 0, (fields != 0).any(1), is_code(alone),
                 is_code(fields).any(1)]
    if options.peers:
        read += [reading.by_edges(options.peers, system, lines) != 0, reading.by_mame(system, lines[:OF_MAME]) != 0]
    return numpy.array([words.sum() for words in read])


def said_of_kind(system, options, kind, ratio):
    """The same of all lines of a kind, of which the last piece may have fewer."""
    chance, count = chance_of(system, "%s, CNR %d" % (kind.name, ratio), options.seed), options.lines // len(RATIOS)
    sizes = [min(PIECE, count - first) for first in range(0, count, PIECE)]
    return sum(said_of(system, options, lines_of(system, kind, ratio, size, options.same, chance))
               for size in sizes)


def main():
    parser = argparse.ArgumentParser(description=__doc__, formatter_class=argparse.RawDescriptionHelpFormatter)
    parser.add_argument("system", choices=SYSTEMS)
    parser.add_argument("lines", type=int, help="of each kind: a multiple of four")
    parser.add_argument("seed", type=int)
    parser.add_argument("--library")
    parser.add_argument("--peers")
    parser.add_argument("--same", action="store_true")
    parser.add_argument("--only", default="")
    options = parser.parse_args()
    if options.library:
        reading.use_library(options.library)
    system = SYSTEMS[options.system]
    print("%s, %d lines of each kind, or half as many fields, seed %d: of how many a word is said, with a CNR of 20 dB/"
          "8 dB" % (system.name, options.lines, options.seed))
    print_head("%s: lines without a word" % system.name, *(OURS if options.library else ()),
               *(PEERS if options.peers else ()))
    totals = Totals()
    for kind in KINDS:
        if options.only in kind.name:
            said = [said_of_kind(system, options, kind, ratio) for ratio in RATIOS]
            scores = [list(map(int, pair)) for pair in zip(*said)]
            print_row(kind.name, scores)
            totals.add("all", scores)
    totals.print()


if __name__ == "__main__":
    main()
