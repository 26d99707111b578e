#!/usr/bin/env python3
"""Has several readers read the same lines, which `ldvbi draw` draws, and which are then worsened by random numbers with
fixed seeds. The readers are `ldvbi extract`, its library, which recovers the words of worn lines (by recovered.c),
MAME's decoder (by `chdman`, of mame-tools), a reader by edges (edges.c), and libzvbi's bit slicer (by zvbi.c). Tables
say how many words each of them read right, read wrong, and didn't read, of

1. lines that are worn in many ways;
2. lines with dropouts, of DROPOUT_ROUNDS times as many words, since wrong ones are few;
3. lines at the limits of what can be recovered.

For the column `both lines` each word stands on two lines, and each of them is worsened by itself. The other readers see
the first of the two alone. After each table come the words of `ldvbi` and the recovered ones by their passes.

usage: compare.py PROGRAM READERS FIELDS, where READERS is the folder of the three programs that compare.sh builds

Before that, MAME's `ldverify` looks at a drawn CAV disc of 100 pictures.

The status is 1 if a reader reads other words than those that were drawn, of lines as they were drawn, or if ldverify
finds an error."""

import os
import random
import sys

import lines as worsen
import readers

SEED = 60857
DROPOUT_ROUNDS = 5

# Of a row its name, how its lines are worsened, and by how much
TRIALS = [
    ("as drawn", worsen.as_drawn, 0),
    ("edges rounded over 7 columns", worsen.rounded, 7),
    ("edges rounded over 11 columns", worsen.rounded, 11),
    ("noise, 10 % of black to white", worsen.with_noise, 10),
    ("noise, 15 %", worsen.with_noise, 15),
    ("noise, 20 %", worsen.with_noise, 20),
    ("noise, 30 %", worsen.with_noise, 30),
    ("noise, 50 %", worsen.with_noise, 50),
    ("noise of 30 %, rounded over 5 columns", worsen.noisy_and_rounded, 30),
    ("noise of 50 %, rounded over 5 columns", worsen.noisy_and_rounded, 50),
    ("edges moved by up to 1 column", worsen.with_jitter, 1),
    ("edges moved by up to 2 columns", worsen.with_jitter, 2),
    ("edges moved by up to 3 columns", worsen.with_jitter, 3),
    ("a glitch of 1 column", worsen.with_glitch, 1),
    ("a glitch of 3 columns", worsen.with_glitch, 3),
    ("a glitch of 4 columns", worsen.with_glitch, 4),
    ("a glitch of 6 columns", worsen.with_glitch, 6),
]
DROPOUTS = [(f"{percent} %, {what}", worsen.with_dropout, (what, percent, 10, 30))
            for what in ("noise", "black") for percent in (20, 40, 100)]
LIMITS = [
    ("10 to 30 columns turned over", worsen.with_long_glitch, (10, 30)),
    ("a dropout of 30 to 60 columns, noise", worsen.with_dropout, ("noise", 100, 30, 60)),
    ("a dropout of 30 to 60 columns, black", worsen.with_dropout, ("black", 100, 30, 60)),
    ("cells 1 % longer, noise of 30 %", worsen.stretched_and_noisy, 1),
    ("cells 1 % shorter, noise of 30 %", worsen.stretched_and_noisy, -1),
    ("cells 2 % longer, noise of 30 %", worsen.stretched_and_noisy, 2),
    ("cells 2 % shorter, noise of 30 %", worsen.stretched_and_noisy, -2),
    ("a hum of 60 % of black to white", worsen.with_hum, 60),
    ("white at 60 % of its way, noise of 10 %", worsen.faint_and_noisy, 60),
    ("white at 45 % of its way, noise of 10 %", worsen.faint_and_noisy, 45),
    ("noise, 70 %", worsen.with_noise, 70),
    ("noise, 90 %", worsen.with_noise, 90),
]
# Of a table what its rows are, the rows, how often FIELDS fields of each are read, and whether counts are those of a
# thousand words, or of all
TABLES = [("Lines", TRIALS, 1, True), ("Lines with a dropout", DROPOUTS, DROPOUT_ROUNDS, False),
          ("Lines at the limits", LIMITS, 1, True)]
READERS = ["`ldvbi`", "recovered", "both lines", "MAME", "by edges", "libzvbi"]
# The columns of the tables of passes: a reader's place, and a pass
PASSES = [(0, 1), (0, 2), (1, 2), (1, 3), (2, 2), (2, 3)]


def verify_disc(program):
    """Whether ldverify finds no error on a CAV disc of 100 pictures, each in two fields, between lead-in and lead-out,
    and `ldvbi` reads its words."""
    words = [0x88FFFF] * 30
    for picture in range(1, 101):
        words += [0x82CFFF if picture == 50 else 0x8DC0A1, *[int(f"F{picture:05d}", 16)] * 2]
        words += [0x8DC0A1, 0x800DDD, 0x800DDD]
    words += [0x80EEEE] * 30
    drawn = worsen.drawn_lines(program, words)
    text = readers.by_mames_verifier(readers.in_eight_bits(drawn))
    found = ["lead-in code detected", "detected frame 1\n", "lead-out code detected", "final frame number was 100\n"]
    read, _ = readers.by_ldvbi(program, drawn)
    return read == words and all(part in text for part in found) and "(ERROR)" not in text


def read_by_all(program, folder, first, second):
    """What each of READERS makes of these lines, of which each two bear the same word: words, and passes or None."""
    eight = readers.in_eight_bits(first)
    return [readers.by_ldvbi(program, first), readers.recovered(folder, first),
            readers.recovered_of_both(folder, first, second), (readers.by_mame(eight), None),
            (readers.by_edges(folder, first), None), (readers.by_zvbi(folder, eight), None)]


def read_row(program, folder, fields, rounds, row):
    """The words of a row, and what each of READERS makes of its lines. A row has a seed of its own."""
    name, worsened, amount = row
    chance = random.Random(f"{SEED} {name}")
    words, answers = [], [([], []) for _ in READERS]
    for _ in range(rounds):
        drawn_words = worsen.drawn_words(fields, chance)
        drawn = worsen.drawn_lines(program, drawn_words)
        first, second = ([worsened(line, amount, chance) for line in drawn] for _ in range(2))
        words += drawn_words
        for (read, passes), (more, more_passes) in zip(answers, read_by_all(program, folder, first, second)):
            read += more
            passes += more_passes or [0] * len(more)
    return words, answers


def score(words, read):
    """How many words were read right, read wrong, and not read."""
    assert len(words) == len(read)
    right = sum(word == other for word, other in zip(words, read))
    none = sum(other == 0 for other in read)
    return [right, len(words) - right - none, none]


def score_of_pass(words, answer, wanted):
    """How many words of one pass were read right, and read wrong."""
    read, passes = answer
    return score(words, [word if number == wanted else 0 for word, number in zip(read, passes)])[:2]


def print_row(name, scores):
    print("| " + " | ".join([name] + ["/".join(map(str, counts)) for counts in scores]) + " |", flush=True)


def print_head(*names):
    print("\n| " + " | ".join(names) + " |\n" + "|---" * len(names) + "|")


def compare_rows(what, rows, is_of_thousand, read_one):
    """Prints a table, of which `read_one` reads a row. Returns each row with its words and what was read."""
    print_head(what, *READERS)
    table = []
    for row in rows:
        words, answers = read_one(row)
        share = 1000 / len(words) if is_of_thousand else 1
        print_row(row[0], [[round(share * count) for count in score(words, read)] for read, _ in answers])
        table.append((row, words, answers))
    return table


def print_passes(what, table):
    """Prints how many words of `ldvbi` and how many recovered ones were right and wrong, by their passes."""
    print_head(what, *(f"{READERS[reader]}, pass {number}" for reader, number in PASSES))
    for row, words, answers in table:
        print_row(row[0], [score_of_pass(words, answers[reader], number) for reader, number in PASSES])


def are_alike(table):
    """Whether lines as they were drawn are read alike, by all readers."""
    return all(read == words for row, words, answers in table if row[1] is worsen.as_drawn for read, _ in answers)


def main():
    program, folder = os.path.abspath(sys.argv[1]), os.path.abspath(sys.argv[2])
    fields = int(sys.argv[3])
    if not verify_disc(program):
        sys.exit("ldverify finds an error on a drawn disc, or ldvbi doesn't read its words")
    alike = True
    for what, rows, rounds, is_of_thousand in TABLES:
        table = compare_rows(what, rows, is_of_thousand, lambda row: read_row(program, folder, fields, rounds, row))
        alike = alike and are_alike(table)
        print_passes(what, table)
    if not alike:
        sys.exit("the words of lines as they were drawn are not read alike")


if __name__ == "__main__":
    main()
