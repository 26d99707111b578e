"""The command `write`: one TBC file of a side, in the order of the disc, from one or more captures."""

import argparse
import os
import re
from typing import Callable, Dict, List, NamedTuple, Optional, Sequence, Tuple, Union

from ldvbi import System, field_bytes
from ldvbi.document import is_document
from ldvbi.metadata import Metadata, read_metadata, settings_of
from ..answer.entries import Answer
from ..join.captures import Capture, capture_of
from ..outside import printable
from ..side import Side, side_of_stream, stream_of_tbc
from ..write.again import differences
from ..write.checked import refuse_wrong
from ..write.choice import CHANGE
from ..write.copying import copy_samples, copy_sound
from ..write.entries import write_entries
from ..write.inputs import Input, ends_of_sound, input_of, refuse_changed, refuse_unlike, states_of
from ..write.plan import Plan, Wanted, plan
from ..write.said import COLUMNS, outcome_of, rows_of, seam_lines, written_lines
from ..write.sources import Source
from ..write.told import Told, base_of, is_database_at
from .faults import naming, no_metadata
from .outputs import refuse_inputs, whole_files
from .parser import Parser, add_settings, settings_in
from .progress import Progress
from .reading import loaded, options_of, settings_given, source_of
from .statuses import OF_SIDE, statuses_text
from .tables import print_rows

DESCRIPTION = """Writes one TBC file of a side in the order of the disc: each picture once, with all its fields, from
the capture that has it best, byte for byte. What no capture has is padding. Its metadata, its sound (.pcm) and its EFM
(.efm) are written beside it, in step, and a table of where each field comes from (.stretches.csv). All get their names
together, once the file has been read again and judged. """ + statuses_text("write")
STRETCHES = ".stretches.csv"
_NUMBER = re.compile(r"[0-9]{1,9}|[0-9]{1,2}:[0-5][0-9](:[0-5][0-9]\.[0-9]{2})?")
_BESIDE = ("-journal", "-wal", "-shm")  # what SQLite writes beside a database


class _Opened(NamedTuple):
    """A capture: for the plan, and for copying."""
    source: Source
    input: Input
    black: int


def parser_of_write(program: str) -> argparse.ArgumentParser:
    """What reads the words after `write`."""
    parser = Parser(prog=program + " write", description=DESCRIPTION)
    parser.add_argument("out", metavar="OUT.tbc", help="the TBC file to write; its metadata and its sound get its name")
    parser.add_argument("sides", nargs="+", metavar="SIDE.tbc", help="a capture of the side: a TBC file with its "
                        "metadata beside it")
    parser.add_argument("--change", metavar="N", type=_count, default=CHANGE, help="let a change of the capture cost "
                        "as much as N samples in dropouts (if not given, %d; 0 takes the best of each number)" % CHANGE)
    parser.add_argument("--from", dest="start", metavar="NUMBER", type=_number, help="begin with this picture or time, "
                        "and pad what comes before the first one that a capture has: with 1, frame N has picture N")
    parser.add_argument("--ends", action="store_true", help="write lead-in and lead-out, too")
    parser.add_argument("--sure", action="store_true", help="pad what may be another picture's field")
    parser.add_argument("--one-side", action="store_true", help="take lead-in or lead-out between the numbers of a "
                        "capture for the same side's, played again")
    parser.add_argument("--most-padding", metavar="N", type=_count, help="refuse to write more than N fields of "
                        "padding (if not given, a tenth of all fields, or 1000)")
    parser.add_argument("--plan", action="store_true", help="print the table of stretches as CSV, and write nothing")
    parser.add_argument("--recovered", action="store_true", help="put recovered words into the metadata, too")
    add_settings(parser, "each TBC file")
    return parser


def _count(text):
    if not text.isdecimal():
        raise argparse.ArgumentTypeError("no number: %r" % text)
    return int(text)


def _number(text):
    if not _NUMBER.fullmatch(text):
        raise argparse.ArgumentTypeError("no picture and no time: %r" % text)
    return int(text) if text.isdecimal() else text


class Written(NamedTuple):
    """What is said of a file that was written, or planned alone, as lines, and the exit status."""
    lines: List[str]
    status: int


def write_side(program: str, words: Sequence[str]) -> int:
    """Writes the side that these words ask for. The answer is the exit status."""
    options = _options(program, words)
    written = write_captures(options, [settings_in(options)] * len(options.sides))
    for line in written.lines:
        print(printable(line))
    return written.status


def write_captures(options: argparse.Namespace, settings: Sequence[argparse.Namespace], others: Sequence[str] = (),
                   tell: Callable[[str], None] = lambda _: None) -> Written:
    """Writes the side that these options ask for, of captures that are read by these settings each. `others` are files
    that stay as they are. Before anything is written, `tell` gets the space that it needs."""
    opened = [_opened(path, one, options.recovered) for path, one in zip(options.sides, settings)]
    inputs, sources = [one.input for one in opened], [one.source for one in opened]
    refuse_unlike(inputs)
    made = plan(sources, Wanted(options.change, _start(options.start, sources[0].capture), options.ends, options.sure,
                                options.one_side, options.most_padding))
    refuse_wrong(made, sources)
    if options.plan:
        print_rows(COLUMNS, rows_of(made, options.sides))
        return Written([], OF_SIDE[outcome_of(made).whole])
    targets = _targets(options.out, inputs)
    refuse_inputs([1, *targets.values()], [*(name for one in inputs for name in one.states), *others])
    _refuse_left(options.out, targets)
    _refuse_full(options.out, made, inputs, tell)
    # the TBC file gets its name last, so that it never stands beside the metadata of an older one
    with whole_files(list(targets.values()), _BESIDE) as parts:
        with naming(options.out):
            _write(dict(zip(targets, parts)), made, opened, options)
        refuse_changed(inputs)
        again, answer = _read_again(dict(zip(targets, parts)), options)
    return _outcome(made, answer, differences(made, again), options.sides)


def _options(program, words):
    parser = parser_of_write(program)
    options = parser.parse_args(words)
    if not options.out.endswith(".tbc"):
        parser.error("the name of what is written has to end with .tbc")
    if options.meta is not None and (len(options.sides) > 1 or not options.meta):
        parser.error("--meta names the metadata of one capture")
    return options


def _start(number: Union[int, str, None], capture: Capture) -> Optional[int]:
    """The number with which the output begins, as a count."""
    if number is None:
        return None
    if isinstance(number, int) != (capture.answer.unit == "picture") or (
            capture.answer.unit == "time") != ("." in str(number)):
        raise ValueError("--from %s: %s has %ss" % (number, capture.name, capture.answer.unit))
    return capture.ordinal(number)


# ---- Read

def _opened(path: str, settings: argparse.Namespace, has_recovered: bool) -> _Opened:
    """A capture, read by these settings and judged."""
    _refuse_document(path)
    given = options_of(path, settings)
    if not given.meta:
        raise ValueError("%s: %s" % (path, no_metadata(path)))
    if os.path.exists(given.meta) and not os.path.isfile(given.meta):
        raise ValueError("%s is no file that can be copied" % given.meta)
    states, told = states_of(path, given.meta), Told()
    source, metadata = source_of(given, told.add)
    assert metadata is not None and not isinstance(source, Side)
    with source:
        if source.cut_bytes:
            raise ValueError("%s: its last field is cut: %d bytes; head -c makes it whole" % (path, source.cut_bytes))
        _add_rows(told, metadata)
        if len(source) != len(told):
            raise ValueError("%s has %d whole fields, and %s has %d" % (path, len(source), metadata.path, len(told)))
        side = loaded(source, metadata, given)
        capture = capture_of(side, path)
        return _Opened(Source(capture._replace(samples=None), told.facts(metadata)),
                       input_of(path, metadata, told, side, states, has_recovered), source.black)


def _refuse_document(path):
    with open(path, "rb") as file:
        if is_document(path, file.peek()):
            raise ValueError("%s is a document: fields are taken from TBC files" % path)


def _add_rows(told: Told, metadata: Metadata) -> None:
    """Adds the fields of a database, which the metadata's reader doesn't go through."""
    if is_database_at(metadata.path):
        from ..write.rows import refuse_other_form  # the smallest Pythons have no sqlite3
        with naming(metadata.path):
            refuse_other_form(metadata.path)
            told.add_rows(metadata.path)


# ---- Written

def _targets(out: str, inputs: List[Input]) -> Dict[str, str]:
    """The files to write, by the ends of their names: the TBC file last."""
    form, = {one.form() for one in inputs}
    found = {end: base_of(out) + end for end in ends_of_sound(inputs)}
    found.update({form: out + form, STRETCHES: base_of(out) + STRETCHES, ".tbc": out})
    return found


def _refuse_left(out: str, targets: Dict[str, str]) -> None:
    """Refuses to write beside an older file that would be taken for one of the new ones."""
    for end, name in ((".json", out + ".json"), (".db", out + ".db"), (".pcm", base_of(out) + ".pcm"),
                      (".efm", base_of(out) + ".efm")):
        if end not in targets and os.path.exists(name):
            raise ValueError("%s is there, and would be taken for a part of what is written: remove it" % name)


def _refuse_full(out: str, made: Plan, inputs: List[Input], tell: Callable[[str], None]) -> None:
    folder = os.path.dirname(os.path.abspath(out))
    space = os.statvfs(folder)
    share = 0.0  # bytes beside a field's samples
    for one in inputs:
        share += (sum(sum(sizes) for sizes in one.sizes.values()) + os.path.getsize(one.metadata)) / one.fields
    free, needed = space.f_bavail * space.f_frsize, int(
        made.fields * (field_bytes(System[made.system]) + share / len(inputs)))
    text = "%d MB are free, and %d MB are needed" % (free // 10 ** 6, -(-needed // 10 ** 6))
    if free < needed:
        raise ValueError("%s: %s" % (folder, text))
    tell(text)


def _write(parts: Dict[str, str], made: Plan, opened: List[_Opened], options: argparse.Namespace) -> None:
    """Writes all files."""
    inputs, sources = [one.input for one in opened], [one.source for one in opened]
    sizes = {}
    with open(parts[".tbc"], "xb") as new, Progress(made.fields) as progress:
        for fields in copy_samples(new, made, inputs, opened[0].black):
            progress.reached(fields)
    for end in ends_of_sound(inputs):
        with open(parts[end], "xb") as new:
            sizes[end] = copy_sound(new, made, inputs, [one.facts.pad for one in sources], end)
    if ".json" in parts:
        with open(parts[".json"], "xb") as new:
            write_entries(new, made, sources, inputs, sizes)
    else:
        from ..write.rows import write_rows
        write_rows(parts[".db"], made, sources, inputs, sizes)
    with open(parts[STRETCHES], "x", encoding="utf-8", errors="surrogateescape", newline="") as table:
        print_rows(COLUMNS, rows_of(made, options.sides), table)


def _read_again(parts: Dict[str, str], options: argparse.Namespace) -> Tuple[Capture, Answer]:
    """The output as a capture, and the judge's answer for it."""
    metadata = read_metadata(parts.get(".json") or parts[".db"])
    settings = settings_of(metadata, *settings_given(options))
    with stream_of_tbc(parts[".tbc"], settings, metadata, not options.no_recover) as stream:
        with Progress(len(stream)) as progress:
            side = side_of_stream(stream, progress.over)
        side.first, side.pad, side.expected, side.may_end = metadata.first, metadata.pad, metadata.fields, True
        side.given_last = options.last
        return capture_of(side, options.out), side.analysis.answer


def _outcome(made: Plan, answer: Answer, otherwise: List[str], names: Sequence[str]) -> Written:
    outcome = outcome_of(made, answer, otherwise)
    return Written([outcome.text, *written_lines(made, names), *seam_lines(made),
                    *("read otherwise: " + text for text in otherwise)], OF_SIDE[outcome.whole])
