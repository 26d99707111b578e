"""`scan`: a table of the sides in files and folders, which are read side by side, and their pages with an index."""

import argparse
import contextlib
import functools
import io
import itertools
import os
import signal
import time
from typing import Any, Callable, Dict, List, NamedTuple, Optional, Sequence, Tuple

from ..join.discs import Discs, OneDisc
from ..join.marks import marks_in
from ..outside import NAME, say
from .faults import fault_text, naming
from .folders import INDEX, Found, Task, base_of, files_of, name_below, page_names, sides_in
from .into import arranged_in, copies_in, make_folders
from .outputs import drop_part, locked, make_folder, refuse_inputs, whole_file
from .parser import words_of
from .parsers import parser_of_scan
from .processes import Ended, SideBySide
from .progress import SidesProgress, heard_by
from .rows import Csv, Json, Text, fault_row, row_of
from .sides import settings_of_each
from .statuses import FAULT, OF_SIDE, of_many

# About how many bytes of a file there are to a field
_FIELD_BYTES = {True: 600000, False: 150}  # of a TBC file, of a document
Read = Callable[[Task], Dict[str, Any]]


class _Result(NamedTuple):
    """The row of a side, what is to be noted of it, and what the head of its page says, or None for a fault."""
    row: Dict[str, Any]
    notes: Sequence[str] = ()
    said: Optional[Dict[str, Any]] = None


def _options(words):
    parser = parser_of_scan(NAME)
    options = parser.parse_args(words)
    if "" in (options.html, options.into, options.map, options.chapters, options.write):
        parser.error("a folder has to have a name")
    if "" in (options.meta, options.sides):
        parser.error("a file has to have a name")
    if options.again and not options.html:
        parser.error("--again is of --html")
    if options.as_read and not options.into:
        parser.error("--as-read is of --into")
    return options


def scan(words: List[str], read: Read) -> int:
    """Does what the words after `scan` ask for, and returns the exit status. `read` reads the side of a file,
    writes its page if one is named, and says what the head of that says. It has to be a function of a module, since it
    runs in other processes."""
    options = _options(words)
    sides = sides_in(options.paths)
    if not sides:
        raise ValueError("no .tbc and no .vbi.json in %s" % ", ".join(options.paths))
    settings = settings_of_each(options, [side.path for side in sides])
    for meta in {one.meta for one in settings} - {None}:
        os.stat(meta)  # else sides would have a fault
    with contextlib.ExitStack() as stack:
        folder = stack.enter_context(_Folder(options.html)) if options.html else None
        tasks = _tasks(options, sides, folder, settings)
        _refuse_outputs(tasks, folder.index if folder else None, [options.sides, *(one.meta for one in settings)])
        make_folders(itertools.chain.from_iterable((task.copy, task.map, task.chapters) for task in tasks))
        rows, discs = _printed(options, sides, tasks, read)
        if folder:
            folder.write_index(tasks, rows)
    statuses = {row["side"]: _status(row) for row in rows}
    if options.write:
        from .written import write_discs  # which loads much that no other scan needs
        statuses.update(write_discs(options.write, discs, tasks))
    return of_many(statuses.values())


def _refuse_outputs(tasks, index, more):
    """Raises a ValueError if something that is to be written is read, too, or is written twice. `more` is read besides
    the sides."""
    _refuse_no_file(index)
    refuse_inputs([1, index, *itertools.chain.from_iterable(task.outputs().values() for task in tasks)],
                  itertools.chain(more, itertools.chain.from_iterable(files_of(task.path) for task in tasks)))


def _printed(options: argparse.Namespace, sides: Sequence[Found], tasks: Sequence[Task],
             read: Read) -> Tuple[List[Dict[str, Any]], List[OneDisc]]:
    """Reads the sides and prints their rows. The answer is the rows, and those that may be of one disc."""
    kept = dict(_kept(sides, tasks, options))
    left = [place for place in range(len(sides)) if place not in kept]
    table = Csv() if options.csv else Json() if options.json else Text([side.path for side in sides])
    rows: List[Dict[str, Any]] = []
    discs = Discs()
    with SideBySide(functools.partial(_read_side, read), [tasks[place] for place in left], options.jobs,
                    _drop_files) as messages, \
            SidesProgress([_size(sides[place].path) for place in left]) as progress:
        for one in _in_order(itertools.chain(kept.items(), _results(messages, progress, sides, left))):
            progress.clear()
            for note in one.notes:
                say(note)
            if one.said:
                one.row["with"] = discs.add(marks_in(one.said, one.row["side"]), tasks[len(rows)].words)
            table.add(one.row)
            rows.append(one.row)
    found = discs.found()
    table.end(found)
    return rows, found


class _Folder:
    """The folder of pages, which is made. At the end of a `with` block no name is kept free in it that wasn't used."""

    def __init__(self, path: str) -> None:
        self.path, self.index = path, os.path.join(path, INDEX)
        make_folder(path)
        self._kept: Dict[str, str] = {}  # files that keep names free, with their texts

    def __enter__(self) -> "_Folder":
        return self

    def __exit__(self, *_: Any) -> None:
        for page, text in self._kept.items():
            with contextlib.suppress(OSError), open(page, encoding="utf-8", errors="replace") as file:
                if file.read(len(text) + 1) == text:
                    os.unlink(page)

    def pages(self, sides: Sequence[Tuple[str, str]]) -> List[str]:
        """The pages of these sides, each a real path and a name. Their names are kept from other scans, which may be on
        other machines: what stands there says whose it will be, and is no page yet."""
        from ..draw.index import name_kept, sides_of  # which few scans need
        with locked(self.path):
            known = sides_of(self.path)
            names = page_names(sides, known)
            pages = [os.path.join(self.path, name) for name in names]
            for (side, _), name, page in zip(sides, names, pages):
                if name not in known:
                    self._kept[page] = name_kept(side)
                    with naming(page), open(page, "x", encoding="utf-8") as file:
                        file.write(self._kept[page])
        return pages

    def write_index(self, tasks: Sequence[Task], rows: Sequence[Dict[str, Any]]) -> None:
        """Writes the index of these sides, and of others whose pages are there."""
        from ..draw.discs import is_gone
        from ..draw.index import Fault, faults_in, index_of, is_page, sides_of
        read = {os.path.realpath(task.path) for task in tasks}
        pages = [row["page"] for row in rows if row["page"]]
        faults = [Fault(os.path.realpath(task.path), task.name, row["fault"]) for task, row in zip(tasks, rows)
                  if row["fault"] is not None]
        with locked(self.path):  # another scan may have written pages meanwhile, and an index
            others = [os.path.join(self.path, name) for name, side in sides_of(self.path).items()
                      if side not in read]
            faults += [one for one in faults_in(self.index) if one.side not in read and not is_gone(one.side)]
            text = index_of(self.index, [*pages, *filter(is_page, others)], faults)
            with whole_file(self.index) as file:
                file.write(text)


def _tasks(options, sides, folder, settings):
    """What there is to do for each side, if it has no fault and no page that says it all."""
    folders = [path for path in options.paths if os.path.isdir(path)]
    names = [name_below(side.path, folders) for side in sides]
    pages = [None] * len(sides)
    if folder:
        pages = folder.pages([(os.path.realpath(side.path), name) for side, name in zip(sides, names)])
    files = [base_of(side.path) for side in sides]
    outputs = zip(pages, copies_in(options.into, options.paths, [side.path for side in sides]),
                  arranged_in(options.map, options.paths, [file + ".map" for file in files]),
                  arranged_in(options.chapters, options.paths, [file + ".ffmeta" for file in files]))
    return [Task(side.path, name, *written, options.as_read, side.is_named, words_of(one))
            for side, name, written, one in zip(sides, names, outputs, settings)]


def _kept(sides, tasks, options):
    """The rows of those sides that aren't read, and their notes, each with the side's place."""
    for place, (side, task) in enumerate(zip(sides, tasks)):
        if side.fault is not None:
            yield place, _Result(fault_row(side.path, side.fault))
        elif task.page and not (options.again or options.into or options.map or options.chapters):
            said = _said_before(task)
            if said:
                yield place, _Result(row_of(side.path, said, task.page), said=said)


def _said_before(task):
    """What the page of a side says of it, if that is newer than the files from which the side is read, has all that a
    row has, and was asked the same; else None."""
    from ..draw.index import head_of
    meta = [word.partition("=")[2] for word in task.words if word.startswith("--meta=")]
    try:
        written = os.stat(task.page).st_mtime_ns
        if all(os.stat(file).st_mtime_ns < written for file in files_of(task.path) + meta):
            said = head_of(task.page)[1]
            return said if said["options"] == task.words else None
    except (OSError, ValueError):
        pass  # it isn't there, or isn't whole: whatever the side's files are is said when they are read
    return None


def _in_order(numbered):
    """Of pairs of a number and a thing the things 0, 1, .. in this order, each as soon as those before it are there."""
    waiting, wanted = {}, 0
    for number, one in numbered:
        waiting[number] = one
        while wanted in waiting:
            yield waiting.pop(wanted)
            wanted += 1


def _results(messages, progress, sides, left):
    """The results of those sides that are read, each with the side's place, as they end."""
    results = {}
    for task, message in messages:
        if isinstance(message, float):
            progress.reached(task, min(message, 0.99))  # all is read, but neither judged nor drawn
        elif isinstance(message, Ended):
            progress.reached(task, 1)
            path = sides[left[task]].path
            yield left[task], results.pop(task, None) or _Result(fault_row(path, _ended_text(message.status)))
        else:
            results[task] = message


def _ended_text(status):
    """Why a process ended without a row."""
    if status < 0:
        return "its process was ended by %s" % signal.Signals(-status).name
    return "its process ended with status %d" % status


def _read_side(read, task, tell):
    """Sends the result of a side, and meanwhile which part of it is read."""
    begin, said = time.time_ns(), None
    notes = io.StringIO()
    try:
        with heard_by(lambda done, fields: tell(done / fields)), contextlib.redirect_stderr(notes):
            for path in task.outputs().values():
                _refuse_no_file(path)
            said = read(task)
        if task.page:
            os.utime(task.page, ns=(begin, begin))  # what a file gets while it is read is newer than its page
        row = row_of(task.path, said, task.page)
    except (OSError, ValueError) as error:
        row = fault_row(task.path, _fault_text(error, task.path))
    except Exception as error:  # of this side alone: the others go on
        row = fault_row(task.path, "%s: %s" % (type(error).__name__, error))
    tell(_Result(row, [line.partition(": ")[2] for line in notes.getvalue().splitlines()],
                 said if row["fault"] is None else None))


def _drop_files(task, process):
    """Removes what a process left of unfinished files."""
    for path in filter(None, task.outputs().values()):
        drop_part(path, process)


def _refuse_no_file(path):
    """Raises a ValueError if something that is no file stands in the place of one that is to be written."""
    if path and os.path.exists(path) and not os.path.isfile(path):
        raise ValueError("%s is no file" % path)


def _fault_text(error, path):
    """A fault without the name of the side, which its row has."""
    text = fault_text(error)
    begin = next((begin for begin in (path + ": ", path + " ") if text.startswith(begin)), "")
    return text[len(begin):]


def _size(path):
    """About how many fields a side has."""
    with contextlib.suppress(OSError):
        return os.stat(path).st_size / _FIELD_BYTES[not path.endswith(".json")]
    return 0


def _status(row):
    """The status of a scan in which this were the only side."""
    if row["fault"] is not None:
        return FAULT
    return OF_SIDE[row["whole"]]
