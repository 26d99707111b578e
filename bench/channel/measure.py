#!/usr/bin/env python3
"""Has several readers read simulated lines of worn discs (channel.py), and prints how many words each of them read
right, read wrong, and didn't read: of each row of damages.py, then of its passes, then of fields whose lines 17 and 18
have different codes. The readers are

passes 1 and 2     ldvbi_read_line
one line           ldvbi_recover_rows, the line alone in its field
both lines         the same where lines 17 and 18 have one word, each damaged by itself
.. with the list   the same, with the columns of dropouts that a decoder would list, though a fifth is missing
MAME, by edges     those of bench/peers/: of line 17, and of both lines, where they don't differ

A row has FIELDS fields, which are the same for each library. It needs Debian's python3-numpy and python3-scipy, and
with --peers mame-tools; tables.sh runs it for both systems.

usage: measure.py SYSTEM FIELDS SEED [--library FILE] [--peers FOLDER] [--only TEXT] [--table words|pairs]

Without --library its columns are left out, without --peers those of bench/peers/: FOLDER is the one in which edges.c of
bench/peers/ is built. TEXT is a part of the names of the rows that are read."""

import argparse
import functools
import typing

import numpy

import reading
from damages import DAMAGES, chance_of, fields_of, fields_with
from systems import SYSTEMS
from tables import Totals, print_head, print_row, said_of_none, score
from waves import generator_at_random
from words import PAIRS

OURS = ("pass 1", "passes 1 and 2", "one line", "one line with the list", "both lines", "both lines with the list")
PEERS = ("MAME", "by edges", "MAME, both", "by edges, both")
OF_PASSES = ("pass 1", "pass 2", "one line, pass 2", "one line, pass 3", "both lines, pass 2", "both lines, pass 3")
# Damages of fields with two codes, by the beginnings of their names
OF_PAIRS = ("CNR 5", "CNR 4", "1 dropout of 2", "1 dropout of 4", "3 dropouts of 0.5", "gain 55", "hum 60", "worn B",
            "worn C")


class Answers(typing.NamedTuple):
    """What the library says of line 17 by its passes, of it alone in its field, and of both lines."""
    read: numpy.ndarray
    alone: numpy.ndarray
    both: numpy.ndarray


def answers_of(system, fields, listed):
    first = None if listed is None else listed[:, :1]
    return Answers(reading.read(system, fields.samples[:, 0]),
                   reading.recovered(system, fields.samples[:, :1], first)[:, 0],
                   reading.recovered(system, fields.samples, listed))


def of_pass(readings, number):
    return numpy.where(readings["pass"] == number, readings["word"], 0)


def words_of_ours(answers, listed):
    """What OURS read, by the library's answers without and with the list."""
    return [of_pass(answers.read, 1), answers.read["word"], answers.alone["word"], listed.alone["word"],
            reading.merged(answers.both["word"]), reading.merged(listed.both["word"])]


def words_of_peers(system, folder, fields):
    """What PEERS read."""
    mame, edges = (numpy.stack([read(fields.samples[:, line]) for line in (0, 1)], 1) for read in (
        functools.partial(reading.by_mame, system), functools.partial(reading.by_edges, folder, system)))
    return [mame[:, 0], edges[:, 0], reading.merged(mame), reading.merged(edges)]


def scores_of_passes(words, answers):
    """The scores of OF_PASSES: right and wrong ones."""
    both = numpy.concatenate([answers.both[:, 0], answers.both[:, 1]])
    of_each = [(answers.read, 1), (answers.read, 2), (answers.alone, 2), (answers.alone, 3), (both, 2), (both, 3)]
    return [score(numpy.resize(words, len(readings)), of_pass(readings, number))[:2] for readings, number in of_each]


def measured(system, options, row):
    """The words of a row, what each reader read, and the row of the table of passes."""
    fields = fields_of(system, row, options.fields, options.seed)
    words, read, of_passes = fields.words[:, 0], [], []
    if options.library:
        answers = answers_of(system, fields, None)
        listed = answers_of(system, fields, fields.listed) if fields.listed.any() else answers
        read, of_passes = words_of_ours(answers, listed), scores_of_passes(words, answers)
    if options.peers:
        read = read + words_of_peers(system, options.peers, fields)
    return words, read, of_passes


def names_of(options, ours, peers):
    return (ours if options.library else ()) + (peers if options.peers else ())


def print_words(system, options, rows):
    """Prints the table of words, and answers the rows of that of passes."""
    print_head("%s: one word on both lines" % system.name, *names_of(options, OURS, PEERS))
    totals, of_passes = Totals(), []
    codes = options.fields // 2
    for row in rows:
        words, read, scores = measured(system, options, row)
        print_row(row.name, [score(words, of_reader) for of_reader in read])
        for name, part in ("all", slice(None)), ("codes of discs", slice(codes)), ("any words", slice(codes, None)):
            totals.add(name, [score(words[part], of_reader[part]) for of_reader in read])
        of_passes.append((row.name, scores))
    totals.print()
    return of_passes


def print_passes(system, of_passes):
    """The table of passes."""
    totals = Totals()
    print_head("%s: words of a pass" % system.name, *OF_PASSES)
    for name, scores in of_passes:
        print_row(name, scores)
        totals.add("all", scores)
    totals.print()


def pair_scores(system, options, row, pair):
    """The scores of fields with two codes, of both of their lines, and what is said of lines without a word."""
    name, words_of = pair
    chance = chance_of(system, row.name + name, options.seed)
    words = words_of(options.fields, chance)
    fields = fields_with(system, words, generator_at_random(system, options.fields, chance), row, chance)
    lines, read = fields.samples.reshape(-1, system.width), []
    if options.library:
        read += [reading.read(system, lines)["word"], reading.recovered(system, fields.samples)["word"],
                 reading.recovered(system, fields.samples, fields.listed)["word"]]
    if options.peers:
        read += [reading.by_mame(system, lines), reading.by_edges(options.peers, system, lines)]
    return tuple([of(fields.words.ravel(), of_reader.ravel()) for of_reader in read] for of in (score, said_of_none))


def print_pairs(system, options, rows):
    """The table of fields whose lines have different codes."""
    names = names_of(options, ("passes 1 and 2", "recovered", "with the list"), PEERS[:2])
    print_head("%s: different codes" % system.name, *names)
    totals = Totals()
    for pair in PAIRS:
        for row in rows:
            if row.name.startswith(OF_PAIRS):
                scores, said = pair_scores(system, options, row, pair)
                print_row("%s; %s" % (pair[0], row.name), scores)
                totals.add("all of %s" % pair[0], scores)
                totals.add("said of lines without a word beside these", said)
    totals.print()


def main():
    parser = argparse.ArgumentParser(description=__doc__, formatter_class=argparse.RawDescriptionHelpFormatter)
    parser.add_argument("system", choices=SYSTEMS)
    parser.add_argument("fields", type=int)
    parser.add_argument("seed", type=int)
    parser.add_argument("--library")
    parser.add_argument("--peers")
    parser.add_argument("--only", default="")
    parser.add_argument("--table", choices=("words", "pairs"), help="this alone, and with `words` that of passes")
    options = parser.parse_args()
    if options.library:
        reading.use_library(options.library)
    system = SYSTEMS[options.system]
    rows = [row for row in DAMAGES if options.only in row.name]
    print("%s, %d fields a row, seed %d: right/wrong/not read" % (system.name, options.fields, options.seed))
    if options.table != "pairs":
        of_passes = print_words(system, options, rows)
        if options.library:
            print_passes(system, of_passes)
    if options.table != "words":
        print_pairs(system, options, rows)


if __name__ == "__main__":
    main()
