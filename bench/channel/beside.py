#!/usr/bin/env python3
"""Prints what two files of tables.sh differ in, such as those of two libraries: for each cell that differs what both
say, and by how much the first and the second number of the later file is more. These are right words and wrong ones; in
the table of lines without a word they are those with little noise and with more. Behind that stand, for each column,
the sums over all rows, and how many rows of the later file have a first number that is less.

usage: beside.py BEFORE AFTER"""

import sys


def cells_of(path):
    """The counts of the cells of a file by table, row and column."""
    cells, head = {}, []
    with open(path, encoding="utf-8") as file:
        lines = [line.strip("| \n").split(" | ") for line in file if line.startswith("|")]
    for line, below in zip(lines, lines[1:] + [[""]]):
        if below[0].startswith("---"):
            head = line
        elif not line[0].startswith("---"):
            for column, cell in zip(head[1:], line[1:]):
                cells[head[0], line[0], column] = list(map(int, cell.split("/")))
    return cells


def is_sum(row):
    return row.startswith(("all", "codes of discs", "any words", "said of lines"))


def main():
    before, after = map(cells_of, sys.argv[1:3])
    sums = {}
    print("| Table | Row | Column | Before | After | First, more | Second, more |\n|---|---|---|---|---|---|---|")
    for (table, row, column), counts in before.items():
        others = after.get((table, row, column))
        if others is None:
            continue
        more = [other - count for other, count in zip(others, counts)] + [0]
        if others != counts:
            texts = ["/".join(map(str, part)) for part in (counts, others)]
            print("| %s |" % " | ".join([table, row, column, *texts, "%+d" % more[0], "%+d" % more[1]]))
        if not is_sum(row):
            of_column = sums.setdefault((table, column), [0, 0, 0])
            sums[table, column] = [of_column[0] + more[0], of_column[1] + more[1], of_column[2] + (more[0] < 0)]
    print("\n| Table | Column | First, more | Second, more | Rows with less of the first |\n|---|---|---|---|---|")
    for names, (first, second, less) in sums.items():
        print("| %s | %+d | %+d | %d |" % (" | ".join(names), first, second, less))


if __name__ == "__main__":
    main()
