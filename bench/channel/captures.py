#!/usr/bin/env python3
"""Has four captures of the same fields read, whose lines 17 and 18 have one picture number, and prints how many words
are read right, read wrong, and not read:

one             of one capture, as ldvbi_recover_rows has both lines
four, words     by those of four captures, where they don't differ
four, a pile    by ldvbi_recover_pile of all eight lines
.. listed       the same with the columns of dropouts that a decoder would list, though a fifth is missing

Captures have the disc's words and generator in common, and all else by themselves. In rows of the same place all lines
of all captures have their dropouts there. It needs Debian's python3-numpy and python3-scipy.

usage: captures.py SYSTEM FIELDS SEED --library FILE"""

import argparse

import numpy

import reading
from damages import LITTLE_NOISE, chance_of, damage, fields_with
from dropouts import dropouts_at_random, runs_of
from systems import SYSTEMS
from tables import print_head, print_row, score
from waves import generator_at_random
from words import pictures

CAPTURES, LINE = 4, 17
ROWS = [*(damage("CNR %g dB" % ratio, carrier_to_noise=ratio) for ratio in (5, 3, 1)),
        damage("1 dropout of 4 to 8 us", carrier_to_noise=LITTLE_NOISE, dropouts=(1, 4, 8)),
        damage("2 dropouts of 4 to 8 us", carrier_to_noise=LITTLE_NOISE, dropouts=(2, 4, 8)),
        *(damage("1 of %g to %g us, same place in all" % wanted, True, carrier_to_noise=LITTLE_NOISE,
                 dropouts=(1, *wanted)) for wanted in ((1, 2), (4, 8)))]
COLUMNS = ("one", "one, listed", "four, words", "four, words, listed", "four, a pile", "four, a pile, listed")


def joined(words):
    """The word of several captures: where they differ there is none."""
    said = numpy.stack(words, 1)
    greatest = said.max(1)
    return numpy.where(((said == 0) | (said == greatest[:, None])).all(1), greatest, 0)


def piled(system, captures, is_listed):
    """What the lines of all captures say together, of each field."""
    import ldvbi  # once the library is known
    words = []
    for field in range(len(captures[0].words)):
        lines = numpy.concatenate([capture.samples[field] for capture in captures])
        listed = numpy.concatenate([capture.listed[field] for capture in captures])
        dropouts = [(place, int(first), int(end) - 1)
                    for place, columns in enumerate(listed) for first, end in runs_of(columns)]
        words.append(ldvbi.recover_pile(lines.astype("<u2").tobytes(), system.name, system.black, system.white, LINE,
                                        dropouts if is_listed else None) or 0)
    return numpy.array(words)


def measured(system, options, row):
    """What is read of a row: the scores of COLUMNS."""
    chance = chance_of(system, row.name + ", captures", options.seed)
    words = pictures(options.fields, chance)
    generator = generator_at_random(system, options.fields, chance)
    lost = dropouts_at_random(system, options.fields, row.channel.dropouts, chance) if row.is_same_place else None
    captures = [fields_with(system, (words, words), generator, row, chance, lost) for _ in range(CAPTURES)]
    plain, listed = ([reading.merged(reading.recovered(system, one.samples, columns)["word"])
                      for one, columns in zip(captures, lists)]
                     for lists in ([None] * CAPTURES, [one.listed for one in captures]))
    read = (plain[0], listed[0], joined(plain), joined(listed), piled(system, captures, False),
            piled(system, captures, row.channel.dropouts is not None))
    return [score(words, of_reader) for of_reader in read]


def main():
    parser = argparse.ArgumentParser(description=__doc__, formatter_class=argparse.RawDescriptionHelpFormatter)
    parser.add_argument("system", choices=SYSTEMS)
    parser.add_argument("fields", type=int)
    parser.add_argument("seed", type=int)
    parser.add_argument("--library", required=True)
    options = parser.parse_args()
    reading.use_library(options.library)
    system = SYSTEMS[options.system]
    print("%s, %d fields a row, seed %d: right/wrong/not read" % (system.name, options.fields, options.seed))
    print_head("%s: a number on both lines" % system.name, *COLUMNS)
    for row in ROWS:
        print_row(row.name, measured(system, options, row))


if __name__ == "__main__":
    main()
