"""The copy of ld-decode's metadata that `--into` writes, in which each field has its words, as docs/FORMATS.md
describes. And where the copies of a scan are."""

import os
import stat
from typing import Any, Iterable, Iterator, List, Optional, Sequence, Union

from ldvbi import BLOCK, PACKED_FIELD, Stream
from ldvbi.codes import LINES
from ldvbi.metadata import Metadata, beside, is_database
from ..into.field import AS_READ, BELIEVED, Words
from ..into.text import Places
from ..side import RECOVERED, Side
from .faults import no_metadata
from .outputs import make_folder, refuse_inputs, whole_file, whole_path
from .progress import Progress

# How the names of a document and of a database end, and what they are
ENDS = (".json", ".db")
FORMS = ("a JSON document", "a database")


class Into:
    """The copy with this name of the metadata of a side. Its `places` have to be given the fields and members of the
    metadata as they are read. Then `prepare` refuses what can't be copied, before anything is judged. With
    `is_recovered` the copy includes the words that are recovered from worn lines of a TBC file; a document has the
    words that it has."""

    def __init__(self, path: str, is_recovered: bool) -> None:
        self._path, self._is_recovered = path, is_recovered
        self._name = self._old = ""  # of the side, and of its metadata
        self._rows: Any = None  # the `Rows` of a database
        self.places = Places()

    def prepare(self, name: str, source: Union[Side, Stream], metadata: Optional[Metadata]) -> None:
        """Takes in the metadata of a side with this name, and this document or TBC file of it. If the two have
        different counts of fields, this raises a ValueError: words in the wrong fields are worse than none."""
        if metadata is None:
            raise ValueError("%s: %s; give the metadata to copy by --meta" % (name, no_metadata(name)))
        if isinstance(source, Side) and self._is_recovered:
            raise ValueError("%s is a document, and --recovered is for a TBC file" % name)
        self._name, self._old = name, metadata.path
        if not stat.S_ISREG(os.stat(self._old).st_mode):
            raise ValueError("%s is no file that can be copied" % self._old)
        with open(self._old, "rb") as file:
            is_of_rows = is_database(file.read(16))
            if self._path.endswith(ENDS[not is_of_rows]):
                raise ValueError("%s is %s, and the name of %s ends like that of %s" % (
                    self._old, FORMS[is_of_rows], self._path, FORMS[not is_of_rows]))
            if is_of_rows:
                from ldvbi.database import BESIDE  # the smallest Pythons have no sqlite3
                from ..into.rows import Rows
                refuse_inputs([self._path], [self._old + end for end in BESIDE])
                self._rows = Rows(self._old)
            elif metadata.parameters is None:
                raise ValueError("%s is no metadata with videoParameters" % self._old)
        count = len(source.readings) if isinstance(source, Side) else len(source)
        fields = len(self.places) if self._rows is None else len(self._rows)
        if count != fields:
            raise ValueError("%s has %d whole fields, and %s has %d" % (name, count, self._old, fields))

    def write_read(self, source: Union[Side, Stream]) -> None:
        """Writes the copy with the words that a document has, or that the lines of a TBC file show."""
        if isinstance(source, Side):
            self._write(source.readings.words(), AS_READ)
        elif self._is_recovered:
            self._write(_words_of_stream(source), AS_READ)
        else:
            with Stream(self._name, source.system, source.black, source.white) as plain:
                self._write(_words_of_stream(plain), AS_READ)

    def write_believed(self, side: Side) -> None:
        """Writes the copy without the words of a side whose numbers its answer sets aside."""
        is_whole = self._is_recovered or side.samples is None
        self._write(_believed_words(side, is_whole), BELIEVED)

    def _write(self, words: Iterable[Words], said: str) -> None:
        if self._rows is not None:
            from ldvbi.database import BESIDE
            with whole_path(self._path, BESIDE) as part:
                self._rows.copy(part, words, said)
            return
        with open(self._old, encoding="utf-8", newline="") as old, whole_file(self._path) as new:
            self.places.copy(old, new, words, said)
            new.flush()
            other = self.places.other_in(new.name) if os.path.isfile(new.name) else None
            if other:
                raise ValueError("%s: its copy has other %s" % (self._old, other))


def copies_in(folder: Optional[str], paths: Sequence[str], sides: Sequence[str]) -> List[Optional[str]]:
    """The copy of each of these sides, which a scan found by these paths, in a folder. The copies are arranged there as
    the sides are in the folder that has all of them. A side without metadata beside it has none; there are none at all
    if no folder is named."""
    return arranged_in(folder, paths, [beside(side) if side.endswith(".tbc") else None for side in sides])


def arranged_in(folder: Optional[str], paths: Sequence[str], files: Sequence[Optional[str]]) -> List[Optional[str]]:
    """These files beside the sides of a scan by these paths, arranged likewise in a folder; None for each if no folder
    is named."""
    if not folder:
        return [None] * len(files)
    above = os.path.commonpath([os.path.abspath(path if os.path.isdir(path) else os.path.dirname(path))
                                for path in paths])
    return [file and os.path.join(folder, os.path.relpath(file, above)) for file in files]


def make_folders(copies: Iterable[Optional[str]]) -> None:
    """Makes the folders of these copies, and removes what earlier processes left of some there."""
    for folder in sorted({os.path.dirname(copy) for copy in copies if copy}):
        make_folder(folder)


def _words_of_stream(stream: Stream) -> Iterator[Words]:
    with Progress(len(stream)) as progress:
        for block in progress.over(stream.packed(0, len(stream)), BLOCK):
            for _, _, _, one, _, _, _, two, _, _, _, three in PACKED_FIELD.iter_unpack(block):
                yield one, two, three


def _believed_words(side: Side, has_recovered: bool) -> Iterator[Words]:
    """The words of each field, with 0 for one whose number is set aside, and for one that is recovered, unless those
    are wanted, too. Codes out of place stay: no number is believed for them."""
    aside = {one[:2] for one in side.analysis.answer.doubtful}
    for field, (words, passes) in enumerate(zip(side.readings.words(), side.readings.passes()), 1):
        one, two, three = (
            0 if (field, line) in aside or of_pass == RECOVERED and not has_recovered else word
            for line, word, of_pass in zip(LINES, words, passes))
        yield one, two, three
