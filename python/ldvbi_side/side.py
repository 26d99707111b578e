"""A side: what lines 16, 17 and 18 of each of its fields show, and what their words mean. It comes from a TBC file or
from a document that `ldvbi extract` wrote. Fields are counted from 1."""

import functools
from typing import Any, Callable, Dict, Iterable, Iterator, List, Optional, Tuple

from ldvbi import FieldReadings, Reading, Stream, System, format_of, read_rows
from ldvbi.codes import code, codes_by_kind
from ldvbi.document import Leads, read_document
from ldvbi.metadata import Metadata, Settings
from ldvbi.readings import PACKED_FIELD, Cut, Levels, PackedFields
from ldvbi.stream import BLOCK, StreamDropouts, cut_of
from .answer.analysis import Analysis, analysed
from .as_json import as_json
from .judge.readings import Fields
from .levels import tried_on
from .near import MARGIN, nearest_word_in, stop_lead_in
from .seek import seek, wanted_of


RECOVERED = 3  # the pass of a recovered word


class Side:
    """The whole fields of a side in order, and the field in which it was cut. `readings` are kept as the library writes
    them, and those of each field are made when they are asked for. `first` says of each field whether it is the first
    one of its frame, or is None if that isn't known. `pad` says of each whether it is padding, or is None if none is.
    `expected` is the number of fields that the metadata has, `sequential` that of its videoParameters, or None. With
    `is_strict`, a side without lead-in or lead-out, or with an unread number, isn't whole. With `may_end`, a side
    without lead-out may be. `given_last` is the number, or the part of a time, with which the disc is said to end, as
    text, or None. `samples` is the stream from which words were recovered, or None; `leads` says of a document's
    picture stops on worn lines how far they are ahead.

    `answer` says what the words mean, as docs/ANSWER.md describes it; `pictures`, `times`, `chapters`, `stops` and
    `format` are parts of it. `analysis` has the same as an `Answer` of answer/entries.py. `codes` is what each field
    says, not judged at all."""

    def __init__(self, system: System, readings: Iterable[FieldReadings], cut: Optional[Cut] = None,
                 levels: Optional[Levels] = None, first: Optional[List[bool]] = None,
                 samples: Optional[Stream] = None) -> None:
        self.system = system
        self.readings = PackedFields.of(readings)
        self.cut = cut
        self.levels = levels
        self.first = first
        self.samples = samples
        self.leads: Leads = {}
        self.pad: Optional[List[bool]] = None
        self.expected: Optional[int] = None
        self.sequential: Optional[int] = None
        self.is_strict = False
        self.may_end = False
        self.given_last: Optional[str] = None

    def numbered(self) -> Iterable[Tuple[int, FieldReadings]]:
        """Each field's number and readings."""
        return enumerate(self.readings, 1)

    def plain(self) -> Fields:
        """The side as plain data, for the analysis."""
        nearest_word = functools.partial(nearest_word_in, self.samples) if self.samples else None
        try_levels = functools.partial(tried_on, self.samples) if self.samples else None
        is_ahead = self._is_ahead if self.samples or self.leads else None
        fields = self.readings
        return Fields(self.system.name, fields.words(), fields.passes(), fields.causes(), fields.data, self.cut,
                      self.first, self.expected, self.is_strict, self.may_end, nearest_word, try_levels, self.pad,
                      self.given_last, self.sequential, is_ahead)

    def _is_ahead(self, field: int, line: int) -> bool:
        lead = stop_lead_in(self.samples, field, line) if self.samples else self.leads.get((field, line))
        return lead is not None and lead >= MARGIN

    @functools.cached_property
    def analysis(self) -> Analysis:
        """What the words of the side mean."""
        return analysed(self.plain())

    @functools.cached_property
    def answer(self) -> Dict[str, Any]:
        """The answer of the analysis as plain data."""
        return as_json(self.analysis.answer)

    def codes(self) -> Iterator[Dict[str, Any]]:
        """Yields, for each field, its number, its format, the codes of lines 16, 17 and 18, and those that stand on a
        line of their kind, each with its lines."""
        for number, readings in self.numbered():
            words = [line.word for line in readings]
            yield {"seqNo": number, "format": format_of(*words).name, "codes": [code(word) for word in words],
                   "byKind": codes_by_kind(words)}

    def pictures(self) -> Dict[Any, int]:
        """The first field of each believed picture number: a seek table of a CAV side."""
        return self._first_fields("picture")

    def times(self) -> Dict[Any, int]:
        """The first field of each believed CLV time `h:mm:ss.pp`."""
        return self._first_fields("time")

    def chapters(self) -> Dict[Any, int]:
        """The first field of each believed chapter."""
        return _firsts((one.chapter, one.field) for one in self.analysis.answer.chapters)

    def stops(self) -> List[int]:
        """The numbers of the fields that have a picture stop."""
        return [one.field for one in self.analysis.answer.stops]

    def seek(self, text: str) -> Optional[Dict[str, Any]]:
        """Where `123`, `1:09`, `1:09:30`, `1:09:30.12` or `chapter 3` begins: a dict of its field, its frame and
        whether the number was read there; None if it isn't there."""
        return seek(self.analysis.answer, wanted_of(text))

    def format(self) -> str:
        """cav, clv or neither, by the codes of most fields."""
        return self.analysis.answer.format

    def _first_fields(self, unit):
        answer = self.analysis.answer
        if answer.unit != unit:
            return {}
        return _firsts((number, field) for number, field, _ in answer.showings)


def _firsts(pairs):
    """The first field of each number, of pairs of a number and a field."""
    found = {}
    for number, field in pairs:
        found.setdefault(number, field)
    return found


def stream_of_tbc(path: str, settings: Settings, metadata: Optional[Metadata], recover: bool) -> Stream:
    """The stream of a TBC file. With `recover` the words of worn lines are recovered, with the dropouts of its metadata
    left out. If the metadata has another count of fields, its dropouts aren't the file's, and aren't used."""
    dropouts = None
    if recover and metadata and metadata.dropouts:
        with Stream(path, settings.system, settings.black, settings.white) as plain:
            dropouts = metadata.dropouts if len(plain) == metadata.fields else None
    return Stream(path, settings.system, settings.black, settings.white, recover, dropouts)


def side_of_stream(stream: Stream, over: Optional[Callable[[Iterable[Any], int], Iterable[Any]]] = None,
                   first: Optional[List[bool]] = None) -> Side:
    """The side that a stream holds. `over` yields the blocks that it gets, each with this many fields, and may report
    how far they are. A stream that recovers words has to stay open as long as the side is asked for its answer."""
    blocks = stream.packed(0, len(stream))
    readings = _with_causes(PackedFields(b"".join(over(blocks, BLOCK) if over else blocks)), stream)
    return Side(stream.system, readings, cut_of(stream), Levels(stream.black, stream.white), first,
                stream if stream.recover else None)


def _with_causes(readings: PackedFields, stream: Stream) -> PackedFields:
    """The readings of a stream, of which each recovered word has the cause for which its line shows none of its own. (A
    word of pass 2 that gave way to another has no such cause.)"""
    size, data = PACKED_FIELD.size, bytearray(readings.data)
    for index, passes in enumerate(readings.passes()):
        if RECOVERED in passes:
            shown = read_rows(stream.rows(index), stream.system, stream.black, stream.white)
            field = FieldReadings(*(
                Reading(own.cause, RECOVERED, own.column, line.word) if line.pass_ == RECOVERED else line
                for line, own in zip(readings[index], shown)))
            data[size * index:size * (index + 1)] = PackedFields.of([field]).data
    return PackedFields(bytes(data))


def side_of_tbc(path: str, system: System, black: int, white: int, first: Optional[List[bool]] = None,
                recover: bool = True, dropouts: StreamDropouts = None) -> Side:
    """The side that a TBC file holds. Only lines 16, 17 and 18 are read from it. With `recover` the words of worn lines
    are recovered, with the columns of `dropouts` left out, as its metadata has them, and the file stays open as long as
    the side is there."""
    stream = Stream(path, system, black, white, recover, dropouts)
    side = side_of_stream(stream, first=first)
    if not recover:
        stream.close()
    return side


def side_of_document(data: bytes) -> Side:
    """The side of a document, given by its bytes."""
    document = read_document(data)
    side = Side(document.system, document.readings, document.cut, document.levels)
    side.leads = document.leads
    return side
