"""The command `ldvbi-side`: what the words of a side mean."""

import contextlib
import json
import os
import sys
from typing import Any, Dict, List, Optional

from ldvbi import Stream, field_bytes
from ldvbi.document import write_document, write_recovered
from ldvbi.metadata import beside
from ldvbi.stream import cut_of
from ..outside import NAME, drop_standard_output, flush, flush_or_drop, printable, raise_lost, say
from ..seek import seek, text_of, why_not
from ..join.heads import head_of_side
from ..side import Side
from .chapters import chapter_spans, write_chapters
from .faults import fault_text, naming
from .folders import INDEX, Task
from .into import Into
from .map import COLUMNS as MAP_COLUMNS, head_rows, map_rows
from .outputs import STANDARD_OUTPUT, refuse_inputs, whole_file
from .parser import settings_in, words_of
from .parsers import parser_of_side
from .progress import Progress
from .reading import is_of_another, loaded, name_of, refuse_settings, settings_given, source_of
from .statuses import FAULT, OF_SIDE, of_many
from .summary import summary
from .tables import BAD_LINE_COLUMNS, FIELD_COLUMNS, bad_line_rows, field_rows, print_rows


def _print_document(options, stream):
    # Between the lines of a document on the same terminal, messages would be of no use.
    with Progress(len(stream), is_wanted=not sys.stdout.isatty()) as progress:
        if options.recovered:
            write_recovered(stream, sys.stdout, progress.over)
            return
        with Stream(options.side, stream.system, stream.black, stream.white) as plain:
            write_document(plain, sys.stdout, progress.over)


def _print_line(options, stream):
    from ..draw.plotting import plot_line
    with naming(options.side):
        print(plot_line(stream, options.side, *options.plot_line), end="")


def _cut_status(cut, system, name):
    """The status of what is printed of all whole fields of a side: 3 if the last one is cut, which is said then."""
    if cut is None:
        return 0
    say("%s: the last field is cut: field %d has %d of %d bytes" % (name, *cut, field_bytes(system)))
    return 3


def _write_files(side, options, is_tbc, into):
    """Writes each file that the options name beside what is printed. `into` is a copy of the metadata, or None."""
    if into and not options.as_read:
        into.write_believed(side)
    if options.svg:
        from ..draw.drawing import drawing_of
        with whole_file(options.svg) as file:
            file.write(drawing_of(side, options.title))
    if options.map:
        with whole_file(options.map) as file:
            answer = side.analysis.answer
            print_rows(MAP_COLUMNS, [*head_rows(answer, side.levels), *map_rows(answer)], file)
    if options.chapters:
        write_chapters(side.system.name, list(chapter_spans(side.analysis.answer)), options.chapters)
    if options.html:
        from ..draw.page import page_of
        from ..draw.plotting import plotter
        with whole_file(options.html) as file:
            file.write(page_of(side, options.title, summary(side.analysis.answer),
                               plotter(side, options.side) if is_tbc else None,
                               None if options.side == "-" else options.side, options.words,
                               options.index))


def _files(options):
    """The files that are written beside what is printed; None for one that isn't asked for."""
    return [options.into, *_drawn(options)]


_DRAWN = ("svg", "map", "chapters", "html")


def _drawn(options):
    """Those of them that have what the words mean."""
    return [getattr(options, name) for name in _DRAWN]


def _is_printed(options):
    """Whether an option says what is printed."""
    return any([options.csv, options.json, options.bad_lines, options.seek, options.summary, options.document,
                options.plot_line])


def _is_asked(options):
    """Whether it is asked what the words mean."""
    return any([*_drawn(options), options.csv, options.json, options.bad_lines, options.seek, options.summary])


def _is_judged(options):
    """Whether the words are judged, and not read alone."""
    return _is_asked(options) or options.into and not options.as_read


def _into(options):
    """The copy of the metadata that the options ask for, or None."""
    return Into(options.into, options.recovered) if options.into else None


def _listeners(into):
    """What gets the fields and the other members of metadata that is copied."""
    return (into.places.add, into.places.add_member) if into else ()


def _options(words, settings=None):
    """The options of these words, and of these settings, with the metadata beside the TBC file if they leave
    something open."""
    parser = parser_of_side(NAME)
    options = parser.parse_args(words, settings)
    if not (_is_printed(options) or any(_files(options))):
        options.summary = True
    for name in _DRAWN:
        if getattr(options, name) == "/dev/stdout":
            setattr(options, name, STANDARD_OUTPUT)
    if "" in (options.meta, options.output, *_files(options)):
        parser.error("a file has to have a name")
    if options.recovered and (not (options.document or options.into) or options.no_recover):
        parser.error("--recovered goes with --document or --into, not with --no-recover")
    if options.as_read and not options.into:
        parser.error("--as-read is of --into")
    if _files(options).count(STANDARD_OUTPUT) + _is_printed(options) > 1:
        parser.error("standard output takes one thing")
    is_open = options.into or None in settings_given(options)
    options.waits = True  # if the side is a pipe
    options.is_alone = settings is None  # not one of several
    options.index = None  # the page of all sides, beside that of this one
    options.title, options.words = os.path.basename(options.side), words_of(options)
    options.is_beside = not options.meta and is_open and options.side.endswith(".tbc")
    if options.is_beside:
        options.meta = beside(options.side)
    return options


def _join(words):
    """Prints what captures have together."""
    from .join import join_options, loaded_capture, print_joined  # which loads much that a single side doesn't need
    given = join_options(NAME, words)
    captures, statuses, is_tbc = [], [], False
    for path in given.sides:  # one at a time, so that no more than one is held as a whole
        options = _options(["--", path], settings_in(given))
        side, capture, is_stream = loaded_capture(options)
        is_tbc = is_tbc or is_stream
        captures.append(capture)
        statuses.append(_cut_status(side.cut, side.system, path))
    refuse_settings(given, given.sides[0], is_tbc)
    return of_many([*statuses, print_joined(given, captures)])


def _scan(words):
    """Prints a row for each of many sides."""
    from .scan import scan
    return scan(words, scanned)


def scanned(task: Task) -> Dict[str, Any]:
    """What the head of the page of a side of a scan says. What else is written of it is written if it is named. A side
    that nobody named has to be a file."""
    named = [word for option, name in task.outputs().items() if name for word in (option, name)]
    options = _options([*task.words, *named, "--", task.path])
    options.waits, options.title = task.is_named, task.name
    options.as_read, options.index = task.as_read, INDEX
    into = _into(options)
    source, metadata = source_of(options, *_listeners(into))
    if into:
        into.prepare(task.path, source, metadata)
        if task.as_read:
            into.write_read(source)
    side = loaded(source, metadata, options, _is_asked(options))
    _write_files(side, options, not isinstance(source, Side), into)
    return head_of_side(side)


def _print_place(answer, wanted):
    """Prints where something is. The answer is the exit status."""
    found = seek(answer, wanted)
    if found is None:
        say("not found: " + why_not(answer, wanted))
        return 1
    print(text_of(found))
    return 0


def _run(options):
    """What the options ask for. The answer is the exit status."""
    inputs = [0 if options.side == "-" else options.side, options.meta]
    files = [None if path == STANDARD_OUTPUT else path for path in _files(options)]
    refuse_inputs([1 if options.output is None else options.output, *files], inputs)
    if options.output is None:
        return _answer(options)
    with whole_file(options.output) as file, contextlib.redirect_stdout(file):
        return _answer(options)


def _answer(options):
    """Prints and draws what the options ask for."""
    into = _into(options)
    source, metadata = source_of(options, *_listeners(into))
    refuse_settings(options, name_of(options), not isinstance(source, Side))
    if into:
        into.prepare(options.side, source, metadata)
    for option in ("document", "plot_line"):
        if getattr(options, option) and isinstance(source, Side):
            raise ValueError("%s is a document, and --%s is for a TBC file" % (
                name_of(options), option.replace("_", "-")))
    if options.document:
        if options.recovered and metadata and not _is_judged(options):
            is_of_another(metadata, name_of(options), len(source), cut_of(source), True)
        _print_document(options, source)
    if options.plot_line:
        _print_line(options, source)
    if into and options.as_read:
        into.write_read(source)
    if not _is_judged(options):
        cut = source.cut if isinstance(source, Side) else cut_of(source)
        return _cut_status(cut, source.system, name_of(options))
    side = loaded(source, metadata, options, _is_asked(options))
    answer = side.analysis.answer  # whose faults come before all that is printed
    _write_files(side, options, not isinstance(source, Side), into)
    if options.seek:
        return _print_place(answer, options.seek)
    if options.summary:
        print(*map(printable, summary(answer)), sep="\n")
        return OF_SIDE[answer.whole]
    if options.json:
        json.dump(side.answer, sys.stdout)
        print()
    elif options.bad_lines:
        print_rows(BAD_LINE_COLUMNS, bad_line_rows(side))
    elif options.csv:
        print_rows(FIELD_COLUMNS, field_rows(side))
    return _cut_status(side.cut, side.system, name_of(options))


def _write(words):
    """Writes the side that captures have together, as a TBC file."""
    from .write import write_side  # which loads much that no other command needs
    return write_side(NAME, words)


_COMMANDS = {"join": _join, "scan": _scan, "write": _write}


def _refuse_no_command(word):
    """Raises a ValueError for a word that could be a command's name, and is neither one nor that of a file."""
    if word.isalpha() and not os.path.lexists(word):
        raise ValueError("%s is no file and no command; the commands are %s" % (
            word, " and ".join(", ".join(_COMMANDS).rsplit(", ", 1))))


def main(words: Optional[List[str]] = None) -> int:
    words = sys.argv[1:] if words is None else words
    try:
        command = _COMMANDS.get(words[0]) if words else None
        if words and not command:
            _refuse_no_command(words[0])
        try:
            status = command(words[1:]) if command else _run(_options(words))
        except SystemExit:
            flush()  # of --help, or of a refused command line
            raise
        flush()
        raise_lost()
        return status
    except BrokenPipeError:
        drop_standard_output()
    except (OSError, ValueError) as error:
        raise_lost()
        say(fault_text(error))
        flush_or_drop()
    return FAULT
