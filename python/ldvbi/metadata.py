"""Settings and fields from ld-decode's metadata, JSON or SQLite: the system, black and white of a run, how many fields
there are, which of them begin a frame, and where lines 16, 17 and 18 have dropouts. JSON is read as `ldvbi` reads it,
with two differences: levels with decimals are rounded here to the next whole number, a half upwards, and no more than a
few fields are held at a time."""

import io
import math
import os
from typing import Any, BinaryIO, Callable, Dict, Iterable, Iterator, List, NamedTuple, Optional, Tuple

from .collector import paused
from .dropouts import Dropout, told_dropouts
from .library import System
from .packed import refuse_packed
from .readings import size_of
from .regular import regular
from .scanner import NotJson, Scanner

# Gets each field of a JSON text: its place in the text, in characters, its own text, and its value
OnField = Callable[[int, str, Any], None]
# Gets each other member of the text: its name, and the place and the own text of its value
OnMember = Callable[[str, int, str], None]


class Metadata(NamedTuple):
    """What a file has: the videoParameters, how many fields there are, and `isFirstField` of each. Each is None if the
    file doesn't have it. `dropouts` are those of lines 16, 17 and 18, as `ldvbi.Stream` takes them. `pad` says of each
    field whether it is padding, which stands for one that the capture lacks; it is None if none is."""
    path: str
    parameters: Optional[Dict[str, Any]]
    fields: Optional[int]
    first: Optional[List[bool]]
    dropouts: List[Dropout]
    pad: Optional[List[bool]] = None

    def sequential(self) -> Optional[int]:
        """How many fields there are by the videoParameters alone, or None."""
        return _count(self.parameters or {})


class Settings(NamedTuple):
    """The settings with which a TBC file is read, and what was rounded, as sentences."""
    system: str
    black: int
    white: int
    notes: Tuple[str, ...]


def beside(path: str) -> Optional[str]:
    """The metadata beside a TBC file: NAME.tbc.json, else NAME.tbc.db; None if neither is there."""
    return next((name for name in (path + ".json", path + ".db") if os.path.exists(name)), None)


def is_database(begin: bytes) -> bool:
    """Whether a file that begins with these bytes is a database. Give at least 16 bytes, if the file has them."""
    return begin.startswith(b"SQLite format 3\0")


@paused()
def read_metadata(path: str, on_field: Optional[OnField] = None, waits: bool = True,
                  on_member: Optional[OnMember] = None) -> Metadata:
    """The `Metadata` of a file. The file is read once, since it may be a pipe. A database of another form raises a
    ValueError, and so does a compressed file; a text that isn't metadata has nothing of all this. `on_field` is called
    with each field of a text as it is read, `on_member` with each other member. Only if it `waits` may the file be a
    pipe."""
    with open(path, "rb", opener=None if waits else regular) as file:
        begin = file.peek()
        refuse_packed(path, begin)
        # A pipe begins with less, perhaps, and is no database.
        if is_database(begin):
            from . import database  # the smallest Pythons have no sqlite3
            found = _Found(database.parameters_of_database(path), database.first_of_database(path),
                           database.dropouts_of_database(path), database.padding_of_database(path))
        else:
            found = _of_text(file, on_field, on_member)
    parameters, first, dropouts, padding = found
    count = len(first) if first else _count(parameters or {})
    is_known = first and all(isinstance(one, bool) for one in first)
    pads = set(padding)
    return Metadata(path, parameters, count, first if is_known else None, dropouts,
                    [place in pads for place in range(len(first))] if pads else None)


class _Found(NamedTuple):
    """The videoParameters, and of each field its `isFirstField`, each None if it isn't there; the dropouts; and which
    fields are padding, counted from 0."""
    parameters: Optional[Dict[str, Any]]
    first: List[Any]
    dropouts: List[Dropout]
    padding: List[int]


def _of_text(file: BinaryIO, on_field: Optional[OnField], on_member: Optional[OnMember]) -> _Found:
    """What a JSON text has. Of members with one name the last one counts."""
    parameters: Optional[Dict[str, Any]] = None
    first: List[Any] = []
    dropouts: List[Dropout] = []
    padding: List[int] = []
    with io.TextIOWrapper(file, encoding="utf-8", newline="") as text:
        scanner = Scanner(text)
        try:
            for name in scanner.members():
                if name == "fields" and scanner.comes("["):
                    first, dropouts, padding = _of_fields(_told(scanner, on_field) if on_field else scanner.values())
                    continue
                value = scanner.value()
                if on_member:
                    on_member(name, scanner.begin, scanner.text)
                if name == "videoParameters":
                    parameters = value if isinstance(value, dict) else None
                elif name == "fields":
                    first, dropouts, padding = [], [], []
            scanner.end()
        except NotJson:
            return _Found(None, [], [], [])
    return _Found(parameters, first, dropouts, padding)


def _of_fields(fields: Iterable[List[Any]]) -> Tuple[List[Any], List[Dropout], List[int]]:
    """The `isFirstField` of each of the fields, which come some at a time, the dropouts of all, and which have a `pad`
    that is true."""
    first: List[Any] = []
    dropouts: List[Dropout] = []
    padding: List[int] = []
    for some in fields:
        for field in some:
            known = field if isinstance(field, dict) else {}
            if "dropOuts" in known:
                dropouts += told_dropouts(len(first), known["dropOuts"])
            if known.get("pad") is True:
                padding.append(len(first))
            first.append(known.get("isFirstField"))
    return first, dropouts, padding


def _told(scanner: Scanner, on_field: OnField) -> Iterator[List[Any]]:
    """Yields each field, of which `on_field` has been told."""
    for _ in scanner.items():
        field = scanner.value()
        on_field(scanner.begin, scanner.text, field)
        yield [field]


def _count(parameters):
    """The number of fields that the metadata's head has."""
    count = parameters.get("numberOfSequentialFields")
    return count if type(count) is int and count >= 0 else None


def settings_of(metadata: Optional[Metadata], system: Optional[str] = None, black: Optional[int] = None,
                white: Optional[int] = None) -> Settings:
    """The settings from this metadata, or from none. An argument that is given here replaces the file's member."""
    parameters: Dict[str, Any] = {}
    if metadata is not None:
        if metadata.parameters is None:
            raise ValueError("%s is no metadata with videoParameters" % metadata.path)
        parameters = metadata.parameters
    system = system or _system(parameters)
    width, height = size_of(system)
    for member, wanted in (("fieldWidth", width), ("fieldHeight", height)):
        if parameters.get(member, wanted) != wanted:
            raise ValueError("%s is not %d" % (member, wanted))
    notes: List[str] = []
    black = _level(parameters, "black", notes) if black is None else black
    white = _level(parameters, "white", notes) if white is None else white
    return Settings(system, black, white, tuple(notes))


def _system(parameters):
    told = []
    if "system" in parameters:
        told.append(parameters["system"])
    if "isSourcePal" in parameters:
        is_pal = parameters["isSourcePal"]
        told.append(("NTSC", "PAL")[is_pal] if isinstance(is_pal, bool) else None)
    if not told:
        raise ValueError("no system given")
    if not all(name in list(System.__members__) for name in told):
        raise ValueError("unknown system")
    if told[0] != told[-1]:
        raise ValueError("system and isSourcePal disagree")
    return told[0]


def _level(parameters, name, notes):
    member = name + "16bIre"
    if member not in parameters:
        raise ValueError("no %s level given" % name)
    value = parameters[member]
    if type(value) not in (int, float) or type(value) is float and not math.isfinite(value):
        raise ValueError("%s level is no number" % name)
    rounded = math.floor(value + 0.5) if type(value) is float else value
    if not 0 <= rounded <= 65535:
        raise ValueError("%s level is not from 0 to 65535" % name)
    if rounded != value:
        notes.append("%s is %s, rounded to %d" % (member, value, rounded))
    return rounded
