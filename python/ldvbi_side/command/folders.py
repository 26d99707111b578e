"""Which files of folders are sides, what there is to do for each of them, and the names of their pages."""

import itertools
import os
from typing import Dict, Iterable, List, Mapping, NamedTuple, Optional, Sequence, Tuple

from ldvbi.packed import ENDS

TBC, DOCUMENT = ".tbc", ".vbi.json"
MOST_OF_NAME = 200  # bytes; a name with all that comes to it may have 255
# A compressed TBC file is a side that can't be read.
_PACKED = tuple(TBC + end for end in ENDS)
INDEX = "index.html"  # of a folder of pages; it is no side's


class Found(NamedTuple):
    """A side by the path of its TBC file or document. `fault` says why a folder wasn't gone through, else it is None. A
    side that is named, and not found in a folder, may be a pipe."""
    path: str
    fault: Optional[str] = None
    is_named: bool = False


class Task(NamedTuple):
    """A side to read: its file and its name; the page to write, the copy of its metadata, its map and its chapters,
    each or None; whether that copy gets the words as they were read; whether the file was named, and so may be a pipe;
    and the options with which it is read, as words."""
    path: str
    name: str
    page: Optional[str]
    copy: Optional[str]
    map: Optional[str]
    chapters: Optional[str]
    as_read: bool
    is_named: bool
    words: Sequence[str]

    def outputs(self) -> Dict[str, Optional[str]]:
        """What is written of the side, by the options that name it."""
        return {"--html": self.page, "--into": self.copy, "--map": self.map, "--chapters": self.chapters}


def sides_in(paths: Iterable[str]) -> List[Found]:
    """The sides in these files and folders, in the order of their names, each once. Folders are searched with all
    folders in them; links to folders are not followed."""
    found: List[Found] = []
    for path in paths:
        found += _sides_below(path) if os.path.isdir(path) else [Found(path, is_named=True)]
    known: Dict[str, Found] = {}
    for one in sorted(found, key=lambda one: one.path.split(os.sep)):
        first = known.setdefault(os.path.realpath(one.path), one)
        if one.is_named:
            known[os.path.realpath(one.path)] = first._replace(is_named=True)
    return list(known.values())


def _sides_below(folder):
    found = []
    for place, _, names in os.walk(folder, onerror=lambda error: found.append(Found(error.filename, error.strerror))):
        found += [Found(os.path.join(place, name)) for name in names if _is_side(name, names)]
    return found


def _is_side(name, beside):
    """Whether a file is a side that has no other file among these: of a side the TBC file says most."""
    if name.endswith(TBC):
        return True
    for end in (DOCUMENT, *_PACKED):
        if name.endswith(end):
            return name[:-len(end)] + TBC not in beside
    return False


def name_below(path: str, folders: Iterable[str]) -> str:
    """The name of a side: its path below the outermost of these folders, or else the name of its file."""
    begins = [begin for begin in (os.path.join(folder, "") for folder in folders) if path.startswith(begin)]
    return os.path.relpath(path, min(begins, key=len)) if begins else os.path.basename(path)


def page_names(sides: Iterable[Tuple[str, str]], known: Mapping[str, Optional[str]]) -> List[str]:
    """The names of the pages of sides. The sides are given as pairs of a real path and a name. A side keeps the page
    that it has. `known` are the pages that are there already, each with the real path of its side, or None if that
    isn't known. A new page is named after its side, followed by a number if there is such a page."""
    own = {side: name for name, side in sorted(known.items(), reverse=True)}
    taken, names = set(map(str.casefold, known)) | {INDEX}, []
    for side, name in sides:
        page = own.get(side) or next(page for page in _candidates(name) if page.casefold() not in taken)
        taken.add(page.casefold())
        names.append(page)
    return names


def _candidates(name):
    """How a side's page may be called."""
    name = base_of(name).replace(os.sep, "-")
    begin = os.fsdecode(os.fsencode(name)[:MOST_OF_NAME]) or "side"
    yield begin + ".html"
    for number in itertools.count(2):
        yield "%s-%d.html" % (begin, number)


def base_of(name: str) -> str:
    """The name of a side without what shows that it is one."""
    end = next((end for end in (DOCUMENT, *_PACKED, TBC) if name.endswith(end)), "")
    return name[:len(name) - len(end)]


def files_of(path: str) -> List[str]:
    """The files that a side is read from, by its path: those that are there."""
    return [name for name in (path, path + ".json", path + ".db") if name == path or os.path.exists(name)]
