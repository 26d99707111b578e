#!/usr/bin/env python3
"""Fields a second of the library in Python, over a file that is in memory: each reading made a Reading, and the words
alone found, as a caller does. usage: library.py FILE"""

import sys
import time

import ldvbi

ROUNDS = 7


def words_of(path):
    return sum(line.word != 0 for field in ldvbi.fields(path, "NTSC", 16384, 51200) for line in field)


def main():
    path = sys.argv[1]
    fields = sum(1 for _ in ldvbi.fields(path, "NTSC", 16384, 51200))
    best = None
    for _ in range(ROUNDS):
        begin = time.perf_counter()
        words = words_of(path)
        spent = time.perf_counter() - begin
        best = spent if best is None else min(best, spent)
    print("Python: %d fields, %d words, %.2f ms, %.0f fields a second" % (fields, words, best * 1e3, fields / best))


if __name__ == "__main__":
    main()
