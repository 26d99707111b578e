#!/usr/bin/env python3
"""Has the library recover simulated lines, each alone in its field as line 16 and as line 17, and prints how many of
them it says have a picture stop (82CFFF) by pass 2 or 3, and by how many columns that is ahead: the rival's distance
less its own (ldvbi_nearest), if it is the nearest word of the line as it is. The lines are

other words      codes of discs, any words: worn in each way of damages.py
no word          those of signals.py, with little noise and with much
one bit turned   a stop with one bit turned, as no disc has it, worn in each way
a stop           likewise

Last it prints the least margin, in hundredths of a column, at which of the lines with other words or no word at most
one in ALLOWED says a stop, in either system: MARGIN in python/ldvbi_side/near.py.

It needs Debian's python3-numpy and python3-scipy, and takes ten minutes of one processor in all, half with two.

usage: stops.py LIBRARY [LINES [SEED]]     LINES with other words, of each damage and system"""

import argparse
import multiprocessing

import numpy

import reading
from damages import DAMAGES, chance_of, lines_of
from signals import KINDS
from systems import SYSTEMS
from tables import print_head, print_row
from waves import generator_at_random
import without_words
from words import LEAD_IN, STOP, any_words, code_at_random
from ldvbi.near import nearest

KINDS_OF_LINES = ("other words", "no word", "one bit turned", "a stop")
ALLOWED = 10000
MARGINS = (0, 50, 100, 200, 400, 800)  # hundredths of a column
WORN = (2, 3)  # passes
BEHIND = -1  # the lead of a stop that isn't the nearest word
PIECE = 500  # lines that are in memory together


# ---- Lines

def code_of_line_16(chance):
    """A users' code, or a programme status with CX on or off."""
    digits = int(chance.integers(0, 0x1000))
    if chance.random() < .5:
        return 0x80D000 | int(chance.integers(0, 8)) << 16 | digits
    return int(chance.choice([0x8DC000, 0x8BA000])) | digits


def other_words(count, chance):
    """Half of them any words, a quarter codes of lines 17 and 18, a quarter those of line 16; no stop."""
    codes = [code_of_line_16(chance) if number % 2 else code_at_random(chance) for number in range(count // 2)]
    words = numpy.concatenate([numpy.array(codes, numpy.int64), any_words(count - count // 2, chance)])
    return numpy.where(words == STOP, LEAD_IN, words)


def one_bit_turned(count, chance):
    return STOP ^ 1 << chance.integers(0, 23, count)


def stops(count, _chance):
    return numpy.full(count, STOP)


def pieces_of(count):
    return [min(PIECE, count - first) for first in range(0, count, PIECE)]


def with_words(system, name, words_of, count, seed):
    """Yields worn lines with these words, so many of each damage."""
    for row in DAMAGES:
        chance = chance_of(system, "%s, %s" % (name, row.name), seed)
        for size in pieces_of(count):
            words = words_of(size, chance)
            yield lines_of(system, words, generator_at_random(system, size, chance), row, None, chance)[0]


def without_word(system, name, count, seed):
    """Yields lines without a word, as many as `with_words` does."""
    kinds = [(kind, ratio) for kind in KINDS for ratio in without_words.RATIOS]
    for kind, ratio in kinds:
        chance = chance_of(system, "%s, %s, %d" % (name, kind.name, ratio), seed)
        for size in pieces_of(count * len(DAMAGES) // len(kinds)):
            yield without_words.lines_of(system, kind, ratio, size, False, chance)


# ---- What they say

def lead_of(system, line):
    """How far the stop of a line is ahead, in hundredths of a column, as ldvbi_side/near.py has it."""
    near, column = nearest(line.tobytes(), system.name, system.black, system.white), system.white - system.black
    return near.rival * 100 // column - near.distance * 100 // column if near.word == STOP else BEHIND


def leads_of(system, lines):
    """The leads of those of the lines that are recovered to say a stop."""
    rows = numpy.full((len(lines), 3, system.width), system.black, "<u2")
    rows[:, 0] = rows[:, 1] = lines
    found = reading.readings_of(reading.later_call("ldvbi_recover_rows"), system, rows)[:, :2]
    says = (numpy.isin(found["pass"], WORN) & (found["word"] == STOP)).any(1)
    return [lead_of(system, line) for line in rows[says, 0]]


def counted(system, pieces):
    """How many lines these are, and the leads of those that say a stop."""
    lines, leads = 0, []
    for piece in pieces:
        lines += len(piece)
        leads += leads_of(system, piece)
    return lines, leads


def counted_of(system, options):
    """These of each kind of lines of a system."""
    count, seed = options.lines, options.seed
    return [counted(system, with_words(system, "other words", other_words, count, seed)),
            counted(system, without_word(system, "no word", count, seed)),
            counted(system, with_words(system, "one bit turned", one_bit_turned, count // 4, seed)),
            counted(system, with_words(system, "a stop", stops, count // 8, seed))]


def margin_of(words, none, *_):
    """The least margin at which at most one line in ALLOWED of these says a stop."""
    most = (words[0] + none[0]) // ALLOWED
    return max([0, *(lead + 1 for lead in sorted(words[1] + none[1], reverse=True)[most:])])


def main():
    parser = argparse.ArgumentParser(description=__doc__, formatter_class=argparse.RawDescriptionHelpFormatter)
    parser.add_argument("library")
    parser.add_argument("lines", type=int, nargs="?", default=1000)
    parser.add_argument("seed", type=int, nargs="?", default=1)
    options = parser.parse_args()
    reading.use_library(options.library)
    with multiprocessing.Pool(len(SYSTEMS)) as pool:
        found = pool.starmap(counted_of, [(system, options) for system in SYSTEMS.values()])
    ones = [one for pair in zip(*found) for one in pair]
    print_head("Lines", *("%s: %s" % (system, name) for name in KINDS_OF_LINES for system in SYSTEMS))
    print_row("in all", [[lines] for lines, _ in ones])
    print_row("a stop by pass 2 or 3", [[len(leads)] for _, leads in ones])
    for margin in MARGINS:
        print_row("ahead by %g columns or more" % (margin / 100), [
            [sum(lead >= margin for lead in leads)] for _, leads in ones])
    print("\nThe least margin: %d hundredths of a column" % max(margin_of(*ones_of) for ones_of in found))


if __name__ == "__main__":
    main()
