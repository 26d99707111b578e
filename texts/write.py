#!/usr/bin/env python3
"""Writes the texts that have their source elsewhere: the completions and the drawing of the house whole; in manual
pages, documents, the header for C and two more files what stands between a comment `from SOURCE: PART` and `to here`;
in a schema the list of kinds; the numbers of documents that stand after their name, and those of rules in some
sentences (sentences.py). The sources are crates.txt, the commands and options, what was measured, the definitions, and
the table of the classes of code words (classes.txt)."""

import argparse
import functools
import os
import re
import sys

import classes_parts
import completions
import documents
import house
import numbers_of
import pages
from program import TOP, ldvbi, ldvbi_side
import sentences

# What stands between these two lines is written here; each is a comment of its file's language.
PART = re.compile(r"^([^\w\n]+ from ([\w./-]+): (\w+)\b[^\n]*\n)(.*?)(^[^\w\n]+ to here\b)", re.M | re.S)


def paths(pattern):
    return sorted(numbers_of.paths(pattern))


def read(path):
    with open(os.path.join(TOP, path), encoding="utf-8") as file:
        return file.read()


def with_parts(path, of_program=None):
    """The text of a file with its parts, each a source and a function of no argument, as their source has them. A
    manual page has parts of its program, too."""
    text = read(path)
    parts = {**(of_program or {}), **documents.PARTS.get(path, {}), **classes_parts.PARTS.get(path, {})}
    found = [(one[3], one[2]) for one in PART.finditer(text)]
    wanted = [(name, source) for name, (source, _) in parts.items()]
    if sorted(found) != sorted(wanted):
        raise SystemExit("write: %s has the parts %s, and not %s" % (path, sorted(found), sorted(wanted)))
    return PART.sub(lambda one: one[1] + parts[one[3]][1]() + one[5], text)


def made(numbers):
    """Yields each path with the text that its parts and marks give it."""
    for program in (ldvbi(), ldvbi_side()):
        yield "share/completions/%s.bash" % program.name, completions.bash(program)
        yield "share/completions/_%s" % program.name, completions.zsh(program)
        of_program = {name: (program.source, functools.partial(part, program))
                      for name, part in pages.PARTS[program.name].items()}
        path = "share/man/%s.1" % program.name
        yield path, with_parts(path, of_program)
    for path in [*paths("include/*.h"), "bench/plain.h", *paths("python/ldvbi/*.py")]:
        yield path, with_parts(path)
    yield house.PATH, house.picture()
    for path in paths("share/schema/*.json"):
        yield path, classes_parts.with_kinds(read(path)) if path == classes_parts.SCHEMA else read(path)
    for path in ["README.md", "CONTRIBUTING.md", *paths("docs/*.md")]:
        yield path, numbers_of.with_numbers(with_parts(path), numbers)


def written():
    """Yields each path with the text that it has to have."""
    numbers, seen = numbers_of.all_numbers(), set()
    for path, text in made(numbers):
        seen |= {one[2] for one in numbers_of.MARK.finditer(text)}
        yield path, sentences.with_numbers(text, numbers, seen)
    if missing := {*numbers_of.of_tests(), *numbers_of.package(), *sentences.all_sentences()} - seen:
        raise SystemExit("write: no text has %s" % sorted(missing))


def main():
    parser = argparse.ArgumentParser(description=__doc__)
    parser.add_argument("--check", action="store_true", help="write nothing, and name what would change, with status 1")
    parser.add_argument("begins", nargs="*", metavar="PATH", help="only of paths that begin so")
    asked = parser.parse_args()
    begins, status = tuple(asked.begins) or "", 0
    for path, wanted in written():
        if wanted == read(path) or not path.startswith(begins):
            continue
        if asked.check:
            print("write: %s isn't what its source says: python3 texts/write.py" % path, file=sys.stderr)
            status = 1
        else:
            with open(os.path.join(TOP, path), "w", encoding="utf-8") as file:
                file.write(wanted)
    return status


if __name__ == "__main__":
    sys.exit(main())
