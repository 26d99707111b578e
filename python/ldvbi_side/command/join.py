"""The command `join`: what several captures of one disc's side have together, and which to take each number from."""

import argparse
import json
from typing import Any, Dict, Iterator, List, Optional, Tuple

from ..draw.marks import SKIPPED
from ..join.captures import TOGETHER, Capture, capture_of
from ..join.entries import Dispute, Joined, Lacking, Told
from ..join.plain import as_json
from ..outside import printable, say
from ..side import Side
from ..texts import fields_text
from ..write import told
from ..write.joined import join
from .chapters import LABELS, joined_spans, write_chapters
from .faults import naming
from .folders import INDEX, files_of
from .map import COLUMNS as MAP_COLUMNS, SOURCE, joined_rows
from .outputs import STANDARD_OUTPUT, refuse_inputs, whole_file
from .parser import Parser, add_settings
from .reading import loaded, source_of
from .statuses import OF_SIDE, statuses_text
from .summary import listed, named
from .tables import print_rows

DESCRIPTION = """Joins two or more captures of one side by their numbers. It says whether they are whole together,
which numbers they have, which of these each one lacks and who has them, which of them one capture shows better than
others, which all lack, where two of them disagree about a number, and what the command write would take from which. A
number that none of several TBC files reads is read together, if their lines say it as one pile. Captures that can't
be of one disc are refused. """ + statuses_text("join")
NOTHING_SHOWS = "nothing but their numbers shows that these are one disc"
TAKEN_COLUMNS = ("number", "source", "field", "frame", "how")
RANGE_COLUMNS = ("first", "last", "source", "first field", "last field", "how")


def join_options(program: str, words: List[str]) -> argparse.Namespace:
    """The options of these words, which write over no file that is read."""
    parser = parser_of_join(program)
    options = parser.parse_args(words)
    files = [options.html, options.map, options.chapters]
    if "" in (*files, options.meta):
        parser.error("a file has to have a name")
    options.is_printed = options.csv or options.ranges or options.json
    if files.count(STANDARD_OUTPUT) + options.is_printed > 1:
        parser.error("standard output takes one thing")
    refuse_inputs([1, *(None if file == STANDARD_OUTPUT else file for file in files)],
                  [*(file for path in options.sides for file in files_of(path)), options.meta])
    return options


def loaded_capture(options: argparse.Namespace) -> Tuple[Side, Capture, bool]:
    """The side that the options name, the capture that it is, with what its metadata says of each field, and whether it
    is read from a TBC file."""
    fields = told.Told(is_copied=False)
    source, metadata = source_of(options, fields.add)
    side = loaded(source, metadata, options)
    capture = capture_of(side, options.side)
    if metadata and told.is_database_at(metadata.path):
        with naming(metadata.path):
            fields.add_rows(metadata.path)
    if metadata and len(fields) == len(side.readings):
        capture = capture._replace(facts=fields.facts(metadata))
    return side, capture, not isinstance(source, Side)


def print_joined(options: argparse.Namespace, captures: List[Capture]) -> int:
    """Prints and draws what these captures have together, as the options ask for it. The answer is the exit status, by
    whether they are whole together if that is what is asked."""
    joined = join(captures)
    is_written = _write_files(options, joined, captures)
    is_alone = not (options.is_printed or is_written)
    if (options.csv or options.ranges) and not joined.shown_by:
        say(NOTHING_SHOWS)  # which all other forms have in themselves
    if options.csv:
        print_rows(TAKEN_COLUMNS, joined.taken)
    elif options.ranges:
        print_rows(RANGE_COLUMNS, range_rows(joined))
    elif options.json:
        print(json.dumps(as_json(joined)))
    elif is_alone:
        print(*map(printable, joined_text(joined)), sep="\n")
    return OF_SIDE[joined.whole] if is_alone else 0


def _write_files(options, joined, captures):
    """Writes each file that the options name beside what is printed; whether there is any."""
    if options.html:
        from ..draw.index import links_beside
        from ..draw.together import page_of_joined
        links = links_beside(options.html, options.sides, INDEX)
        with whole_file(options.html) as file:
            file.write(page_of_joined(joined, joined_text(joined), *links))
    if options.map:
        with whole_file(options.map) as file:
            print_rows((*MAP_COLUMNS, SOURCE), joined_rows(joined, captures), file)
    if options.chapters:
        write_chapters(joined.system, list(joined_spans(joined)), options.chapters)
    return bool(options.html or options.map or options.chapters)


def parser_of_join(program: str) -> argparse.ArgumentParser:
    """What reads the words after `join`."""
    parser = Parser(prog=program + " join", description=DESCRIPTION)
    parser.add_argument("sides", nargs="+", metavar="SIDE", action=_TwoOrMore,
                        help="a document, or a TBC file with its metadata beside it or with the options below; two or "
                        "more of them")
    add_settings(parser, "each TBC file")
    output = parser.add_mutually_exclusive_group()
    output.add_argument("--csv", action="store_true", help="print a row for each number, with the capture to take it "
                        "from, and its first field and frame there")
    output.add_argument("--ranges", action="store_true", help="print the stretches of the file that write makes of "
                        "them: numbers that one capture has in consecutive fields")
    output.add_argument("--json", action="store_true", help="print all that they have together, as JSON")
    parser.add_argument("--html", metavar="FILE", help="write a page into this file on which the captures are bars, "
                        "one above the other; print only what another option asks for")
    parser.add_argument("--map", metavar="FILE", help="write into this file where each number, chapter and picture "
                        "stop is, in the capture that it is taken from; print only what another option asks for")
    parser.add_argument("--chapters", metavar="FILE", help="write the chapters of the file that write makes into this "
                        "file, as ffmpeg's metadata or, if its name ends with %s, as Audacity's labels; print only "
                        "what another option asks for" % LABELS)
    return parser


class _TwoOrMore(argparse.Action):
    """Takes two words or more."""

    def __call__(self, parser, namespace, values, option_string=None):
        if len(values) < 2:
            parser.error("two captures or more are joined")
        setattr(namespace, self.dest, values)


def range_rows(joined: Joined) -> Iterator[Tuple[Any, ...]]:
    """A row for each stretch that can be taken at once."""
    for one in joined.ranges:
        yield one.first, one.last, one.source, one.field, one.last_field, one.how


# ---- As text

def joined_text(joined: Joined) -> Iterator[str]:
    """What was joined, as lines: lists in the disc's order, four places of each at most."""
    unit, missing = joined.unit, joined.missing
    reasons = "; ".join(one.text for one in joined.reasons)
    yield "together: whole: " + joined.whole + (": " + reasons if reasons else "")
    found = ["%d %s" % (count, why) for why, count in _counts(missing).items()] or ["none lost"]
    yield "together: %s, %s" % (named(unit, *joined.numbers[1:]), ", ".join(found))
    if not joined.shown_by:
        yield NOTHING_SHOWS
    yield from _capture_lines(joined)
    yield "alike: " + _listed(joined.alike, unit)
    yield "lacking in all: " + listed(_count(missing), missing, lambda one: "%s %s" % (
        _numbers_of(one, unit), one.why))
    if joined.left_out:
        yield "%s: %d" % (SKIPPED, _count(joined.left_out))
    piled = [one.number for one in joined.taken if one.how == TOGETHER]
    if piled:
        yield "read together: " + listed(len(piled), piled, lambda number: named(unit, number, number))
    disputes = joined.disagreements
    yield "disagreements: " + listed(len(disputes), disputes, lambda one: _disagreement_text(one, unit))
    yield "as one file: " + joined.written


def _capture_lines(joined):
    """What each capture has and lacks, and which numbers it shows better than all others that have them."""
    unit = joined.unit
    for one in joined.captures:
        lacks, alone, better = ([part for part in parts if part.capture == one.name]
                                for parts in (joined.lacks, joined.alone, joined.better))
        lacking = listed(_count(lacks), lacks, lambda lack: "%s in %s" % (
            _numbers_of(lack, unit), " and ".join(lack.in_)))
        yield "%s: has %d, %s of them alone, lacks %s, whole: %s" % (
            one.name, one.numbers.count_, _count(alone) or "none", lacking, one.whole)
        yield "better in %s: %s" % (one.name, _listed(better, unit))


def _listed(stretches, unit):
    return listed(_count(stretches), stretches, lambda one: _numbers_of(one, unit))


def _counts(missing: List[Lacking]) -> Dict[str, int]:
    """How many numbers are missing for each reason, of which lost ones stand in front."""
    counts = {"lost": 0}
    for one in missing:
        counts[one.why] = counts.get(one.why, 0) + one.count_
    return {why: count for why, count in counts.items() if count}


def _count(stretches):
    return sum(one.count_ for one in stretches)


# What two captures say of some numbers, by why they disagree
_DISAGREE = {
    "detour": "%(numbers)s in %(fields)s of %(name)s, where %(other)s has %(otherNumbers)s in %(otherFields)s",
    "clock": "%(numbers)s " + SKIPPED + " in %(fields)s of %(name)s, and shown in %(otherFields)s of %(other)s",
    "distance": "%(numbers)s in %(fields)s of %(name)s and %(otherFields)s of %(other)s, further from those before "
                "them in one than in the other",
}


def _disagreement_text(found: Dispute, unit: Optional[str]) -> str:
    one, other = found.between
    return _DISAGREE[found.why] % {
        "name": one.capture, "numbers": _numbers_of(one, unit), "fields": _fields_of(one),
        "other": other.capture, "otherNumbers": _numbers_of(other, unit), "otherFields": _fields_of(other)}


def _numbers_of(part, unit):
    return named(unit, part.first, part.last)


def _fields_of(part: Told) -> str:
    return fields_text(part.field, part.last_field)
